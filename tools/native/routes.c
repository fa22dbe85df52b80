/* The program `corner_routes` by hand, unproved: what tools/bench holds the proved one against.
 *
 * It reads a takeoff on standard input, makes the checks of docs/TAKEOFF.md and prints the same lines. The segments are
 * read once, straight from the bytes, and linked by the node they lead into. A corner list stands counterclockwise from
 * its least corner and knows where its greatest is, so the way there and the way back are each in order: hulls and sums
 * merge them. Each corner carries the step it ends in and the corner before that step, so routes are read off.
 */
#include <stdint.h>
#include <stdio.h>
#include <string.h>
#include <unistd.h>

enum { LIMIT = 40000, NODES = 128, SEGMENTS = 1024, WEIGHTS = 16, CHOICES = 8, CORNERS = 32 };

typedef struct {
    int32_t x, y;
    uint32_t from; /* segment, choice and corner of the tail: 10, 3 and 5 bits */
} Corner;

/* at[0] is the least corner, at[split] the greatest; at[count] is at[0] again */
typedef struct {
    int count, split;
    Corner at[CORNERS + 1];
} Polygon;

typedef struct {
    const uint8_t *choices;
    uint8_t tail, count;
    int16_t next; /* the next segment into the same node */
} Segment;

static uint8_t bytes[LIMIT];
static size_t size;
static int nodes, segment_count, weight_count, start, target;
static Segment segments[SEGMENTS];
static int16_t first_into[NODES], last_into[NODES];
static int32_t weights[WEIGHTS][2];
static Polygon lists[NODES];

static char out[1 << 16];
static char *end = out;

static void put_text(const char *text) {
    size_t n = strlen(text);
    memcpy(end, text, n);
    end += n;
}

static void put_number(int64_t number) {
    char digits[24];
    char *d = digits + sizeof digits;
    uint64_t left = number < 0 ? -(uint64_t)number : (uint64_t)number;
    do {
        *--d = (char)('0' + left % 10);
        left /= 10;
    } while (left);
    if (number < 0)
        *--d = '-';
    size_t n = (size_t)(digits + sizeof digits - d);
    memcpy(end, d, n);
    end += n;
}

static void put(const char *text, int64_t number) {
    put_text(text);
    put_number(number);
}

static int print(void) {
    for (char *from = out; from < end;) {
        ssize_t n = write(1, from, (size_t)(end - from));
        if (n < 0) {
            fputs("cannot write\n", stderr);
            return 1;
        }
        from += n;
    }
    return 0;
}

static int16_t two(const uint8_t *b) { return (int16_t)(b[0] << 8 | b[1]); }

static int32_t four(const uint8_t *b) {
    return (int32_t)((uint32_t)b[0] << 24 | (uint32_t)b[1] << 16 | (uint32_t)b[2] << 8 | b[3]);
}

/* Takes the segment; answers its fault, or 0. */
static int take_segment(const uint8_t *value, size_t length) {
    if (segment_count == SEGMENTS)
        return 11;
    int tail = value[0], head = value[1];
    if (tail >= head || head >= nodes)
        return 5;
    int count = (int)(length - 2) / 4;
    uint32_t pairs[CHOICES];
    int out_of_range = 0;
    for (int i = 0; i < count; i++) {
        const uint8_t *b = value + 2 + 4 * i;
        out_of_range |= (unsigned)(two(b) + 10000) > 20000 || (unsigned)(two(b + 2) + 10000) > 20000;
        memcpy(&pairs[i], b, 4);
    }
    if (out_of_range)
        return 7;
    for (int i = 1; i < count; i++)
        for (int j = 0; j < i; j++)
            if (pairs[i] == pairs[j])
                return 12;
    int e = segment_count++;
    segments[e] = (Segment){value + 2, (uint8_t)tail, (uint8_t)count, -1};
    if (first_into[head] < 0)
        first_into[head] = (int16_t)e;
    else
        segments[last_into[head]].next = (int16_t)e;
    last_into[head] = (int16_t)e;
    return 0;
}

static int take_weight(const uint8_t *value) {
    if (weight_count == WEIGHTS)
        return 11;
    int32_t a = four(value), b = four(value + 4);
    if (a < -6000000 || a > 6000000 || b < -6000000 || b > 6000000)
        return 8;
    weights[weight_count][0] = a;
    weights[weight_count++][1] = b;
    return 0;
}

/* Reads the takeoff; answers its fault, or 0, and the place of the fault. */
static int read_takeoff(size_t *place) {
    enum { BEFORE, DRAWING, AIMED } stage = BEFORE;
    memset(first_into, -1, sizeof first_into);
    size_t at = 0;
    while (at < size) {
        *place = at;
        if (size - at < 3)
            return 1;
        size_t length = (size_t)bytes[at + 1] << 8 | bytes[at + 2];
        if (size - at - 3 < length)
            return 1;
        const uint8_t *value = bytes + at + 3;
        int fault = 0;
        switch (bytes[at]) {
        case 'S':
            if (length < 6 || length > 34 || length % 4 != 2)
                return 3;
            if (stage != DRAWING)
                return 4;
            fault = take_segment(value, length);
            break;
        case 'W':
            if (length != 8)
                return 3;
            if (stage != AIMED)
                return 4;
            fault = take_weight(value);
            break;
        case 'N':
            if (length != 1)
                return 3;
            if (stage != BEFORE)
                return 4;
            nodes = value[0];
            if (nodes < 1 || nodes > NODES)
                return 5;
            stage = DRAWING;
            break;
        case 'P':
            if (length != 2)
                return 3;
            if (stage != DRAWING)
                return 4;
            start = value[0];
            target = value[1];
            if (start >= nodes || target >= nodes)
                return 5;
            stage = AIMED;
            break;
        default:
            return 2;
        }
        if (fault)
            return fault;
        at += 3 + length;
    }
    *place = size;
    return stage == AIMED ? 0 : 4;
}

/* Above 0 where c is to the left of the way from a to b. */
static inline int64_t turn(const Corner *a, const Corner *b, const Corner *c) {
    return (int64_t)(b->x - a->x) * (c->y - a->y) - (int64_t)(b->y - a->y) * (c->x - a->x);
}

static inline int before(const Corner *a, const Corner *b) { return a->x < b->x || (a->x == b->x && a->y < b->y); }

/* Puts a corner at the end of a way that turns left only. */
static inline int pushed(Corner *way, int n, const Corner *c) {
    while (n >= 2 && turn(&way[n - 2], &way[n - 1], c) <= 0)
        n--;
    way[n] = *c;
    return n + 1;
}

/* The hull of a segment's choices, which are apart. */
static void hull_of_choices(int e, Polygon *hull) {
    const Segment *s = &segments[e];
    Corner sorted[CHOICES];
    for (int i = 0; i < s->count; i++) {
        Corner c = {two(s->choices + 4 * i), two(s->choices + 4 * i + 2), (uint32_t)(e << 8 | i << 5)};
        int j = i;
        for (; j > 0 && before(&c, &sorted[j - 1]); j--)
            sorted[j] = sorted[j - 1];
        sorted[j] = c;
    }
    Corner *way = hull->at;
    int n = 0;
    for (int i = 0; i < s->count; i++)
        n = pushed(way, n, &sorted[i]);
    hull->split = n - 1;
    if (n > 1) {
        Corner *back = way + n - 1;
        int m = 1;
        for (int i = s->count - 2; i >= 0; i--)
            m = pushed(back, m, &sorted[i]);
        n += m - 2;
    }
    hull->count = n;
    way[n] = way[0];
}

/* Goes along both from i to its end and from j to its end, by direction; answers the number of corners, or -1. */
static inline int walk(const Polygon *a, const Polygon *b, int i, int i_end, int j, int j_end, Corner *sum, int n) {
    while (i < i_end || j < j_end) {
        const Corner *p = &a->at[i], *q = &b->at[j];
        int64_t side = i == i_end ? -1 : j == j_end ? 1
            : (int64_t)(p[1].x - p->x) * (q[1].y - q->y) - (int64_t)(p[1].y - p->y) * (q[1].x - q->x);
        i += side >= 0;
        j += side <= 0;
        if (n > CORNERS)
            return -1;
        int k = i == a->count ? 0 : i;
        sum[n++] = (Corner){a->at[i].x + b->at[j].x, a->at[i].y + b->at[j].y, b->at[j].from | (uint32_t)k};
    }
    return n;
}

/* The Minkowski sum, neither of them empty; answers whether it fits. The costs of routes are never out of range. */
static int sum_of(const Polygon *a, const Polygon *b, Polygon *sum) {
    sum->at[0] = (Corner){a->at[0].x + b->at[0].x, a->at[0].y + b->at[0].y, b->at[0].from};
    int n = walk(a, b, 0, a->split, 0, b->split, sum->at, 1);
    if (n < 0)
        return 0;
    sum->split = n - 1;
    n = walk(a, b, a->split, a->count == 1 ? 0 : a->count, b->split, b->count == 1 ? 0 : b->count, sum->at, n);
    if (n < 0)
        return 0;
    sum->count = n > 1 ? n - 1 : 1;
    sum->at[sum->count] = sum->at[0];
    return 1;
}

/* The hull of both, neither of them empty; answers whether it fits. Of equal corners that of a stays. The hull may be
 * written over a. */
static int hull_of(const Polygon *a, const Polygon *b, Polygon *hull) {
    Corner way[4 * CORNERS + 4];
    int n = 0;
    int i = 0, j = 0;
    while (i <= a->split || j <= b->split) {
        const Corner *p = &a->at[i], *q = &b->at[j];
        if (j > b->split || (i <= a->split && before(p, q))) {
            i++;
        } else if (i > a->split || before(q, p)) {
            p = q;
            j++;
        } else {
            i++;
            j++;
        }
        n = pushed(way, n, p);
    }
    int split = n - 1;
    if (n > 1) {
        Corner *back = way + split;
        int m = 0;
        i = a->split;
        j = b->split;
        int i_end = a->count == 1 ? 0 : a->count, j_end = b->count == 1 ? 0 : b->count;
        while (i <= i_end || j <= j_end) {
            const Corner *p = &a->at[i], *q = &b->at[j];
            if (j > j_end || (i <= i_end && before(q, p))) {
                i++;
            } else if (i > i_end || before(p, q)) {
                p = q;
                j++;
            } else {
                i++;
                j++;
            }
            m = pushed(back, m, p);
        }
        n += m - 2;
        if (n > CORNERS)
            return 0;
    }
    hull->count = n;
    hull->split = split;
    memcpy(hull->at, way, (size_t)n * sizeof *way);
    hull->at[n] = way[0];
    return 1;
}

static int refuse(int node, int segment, const char *stage) {
    put("refused 24 node ", node);
    put(" segment ", segment);
    put_text(" stage ");
    put_text(stage);
    put_text("\n");
    return 0;
}

/* Makes the corner list of a node; answers whether all fits, else the line is written. */
static int settle(int v) {
    Polygon *list = &lists[v];
    if (v == start)
        *list = (Polygon){1, 0, {{0, 0, 0}}};
    for (int e = first_into[v]; e >= 0; e = segments[e].next) {
        const Polygon *tail = &lists[segments[e].tail];
        if (tail->count == 0)
            continue;
        Polygon choices, more;
        hull_of_choices(e, &choices);
        int empty = list->count == 0;
        if (!sum_of(tail, &choices, empty ? list : &more))
            return refuse(v, e, "chain");
        if (!empty && !hull_of(list, &more, list))
            return refuse(v, e, "join");
    }
    return 1;
}

/* The cone's ray of the edge from one corner to the next. */
static void put_ray(const Corner *a, const Corner *b) {
    put(" ", a->y - b->y);
    put(" ", b->x - a->x);
}

static void put_route(int k) {
    uint32_t steps[NODES];
    int count = 0;
    for (int v = target; v != start; count++) {
        uint32_t from = lists[v].at[k].from;
        steps[count] = from;
        v = segments[from >> 8].tail;
        k = from & 31;
    }
    while (count-- > 0) {
        put(" ", steps[count] >> 8);
        put(".", steps[count] >> 5 & 7);
    }
}

static void put_answer(void) {
    const Polygon *list = &lists[target];
    put("nodes ", nodes);
    put(" segments ", segment_count);
    put(" start ", start);
    put(" target ", target);
    put_text("\n");
    for (int k = 0; k < list->count; k++) {
        const Corner *at = &list->at[k];
        put("corner ", k);
        put(" ", at->x);
        put(" ", at->y);
        put_text(" cone");
        put_ray(k ? at - 1 : at + list->count - 1, at);
        put_ray(at, at + 1);
        put("\nroute ", k);
        put_route(k);
        put_text("\n");
    }
    for (int i = 0; i < weight_count; i++) {
        int64_t a = weights[i][0], b = weights[i][1], least = INT64_MAX;
        int corner = 0;
        for (int k = 0; k < list->count; k++) {
            int64_t cost = a * list->at[k].x + b * list->at[k].y;
            if (cost < least) {
                least = cost;
                corner = k;
            }
        }
        put("weight ", a);
        put(" ", b);
        if (list->count) {
            put(" least ", least);
            put(" corner ", corner);
        } else {
            put_text(" none");
        }
        put_text("\n");
    }
}

int main(void) {
    while (size < LIMIT) {
        ssize_t n = read(0, bytes + size, LIMIT - size);
        if (n < 0) {
            fputs("cannot read\n", stderr);
            return 1;
        }
        if (n == 0)
            break;
        size += (size_t)n;
    }
    size_t place = 0;
    int fault = read_takeoff(&place);
    if (fault) {
        put("refused ", fault);
        put(" at ", (int64_t)place);
        put_text("\n");
        return print();
    }
    for (int v = 0; v <= target; v++)
        if (!settle(v))
            return print();
    put_answer();
    return print();
}
