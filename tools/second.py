#!/usr/bin/env python3
"""Answers the takeoff on standard input: a second program, to be held against `corner_routes`.

It reads the file by itself and goes through the network in its own way. Each node has all the distinct costs of routes
from the start, and with each cost the lowest step that it ends in. A cost is a corner if the directions from it to all
other costs lie in an open half plane. Least costs are counted from the target's side.
"""
import sys
from functools import cmp_to_key, lru_cache

READ = 40000  # bytes of a file that are looked at
MOST_CORNERS = 32
FARTHEST = 1270000  # a cost's price and pressure lie within this
KEPT = 3000  # of more costs than these only the corners are kept


class Refused(Exception):
    """The takeoff is refused with this line."""


def numbers(value, size):
    """The signed numbers of so many bytes each that stand one behind another."""
    return [int.from_bytes(value[i : i + size], "big", signed=True) for i in range(0, len(value), size)]


class Takeoff:
    """What the bytes of a takeoff say. Each `take` reads a value and answers the number of its fault, if any."""

    def __init__(self, data):
        self.nodes = None
        self.segments = []
        self.points = None
        self.weights = []
        at = 0
        while at < len(data):
            at = self.read_field(data, at)
        if self.points is None:
            raise Refused(f"refused 4 at {len(data)}")

    def read_field(self, data, at):
        """Reads the field that begins there; answers where the next one does."""
        size = int.from_bytes(data[at + 1 : at + 3], "big")
        end = at + 3 + size
        if len(data) < end:
            raise Refused(f"refused 1 at {at}")
        tag = chr(data[at])
        value = data[at + 3 : end]
        lengths = {"N": [1], "S": range(6, 35, 4), "P": [2], "W": [8]}
        if tag not in lengths:
            raise Refused(f"refused 2 at {at}")
        if size not in lengths[tag]:
            raise Refused(f"refused 3 at {at}")
        if tag not in self.expected():
            raise Refused(f"refused 4 at {at}")
        take = {"N": self.take_nodes, "S": self.take_segment, "P": self.take_points, "W": self.take_weight}[tag]
        fault = take(value)
        if fault:
            raise Refused(f"refused {fault} at {at}")
        return end

    def expected(self):
        """The tags that may stand next."""
        if self.nodes is None:
            return "N"
        return "SP" if self.points is None else "W"

    def take_nodes(self, value):
        if not 1 <= value[0] <= 128:
            return 5
        self.nodes = value[0]

    def take_segment(self, value):
        if len(self.segments) == 1024:
            return 11
        tail, head = value[0], value[1]
        if not tail < head < self.nodes:
            return 5
        parts = numbers(value[2:], 2)
        if any(abs(part) > 10000 for part in parts):
            return 7
        choices = list(zip(parts[::2], parts[1::2]))
        if len(set(choices)) < len(choices):
            return 12
        self.segments.append((tail, head, choices))

    def take_points(self, value):
        if max(value) >= self.nodes:
            return 5
        self.points = (value[0], value[1])

    def take_weight(self, value):
        if len(self.weights) == 16:
            return 11
        weight = numbers(value, 4)
        if any(abs(part) > 6000000 for part in weight):
            return 8
        self.weights.append(tuple(weight))


def turn(way, other):
    """Above 0 if the other way is to the left of this one, below 0 if to the right, 0 if along or against it."""
    return way[0] * other[1] - way[1] * other[0]


def in_open_half_plane(ways):
    """Whether some weight is above 0 on all of these ways, none of which is (0, 0).

    The ways seen so far lie between the rightmost and the leftmost of them, which are less than half a turn apart.
    """
    right = left = None
    for way in ways:
        if right is None:
            right = left = way
            continue
        side = turn(right, way)
        if side < 0:
            if turn(way, left) <= 0:
                return False
            right = way
        elif side > 0:
            if turn(left, way) > 0:
                left = way
        elif right[0] * way[0] + right[1] * way[1] < 0:
            return False
    return True


def ends_of_lines(costs, a, b):
    """Of the costs that weigh the same at (a, b), the first and the last along their line; none between is a corner."""
    lines = {}
    for x, y in costs:
        lines.setdefault(a * x + b * y, []).append((x, y))
    return {end for line in lines.values() for end in (min(line), max(line))}


def alone_cheapest(costs):
    """Those of the costs that are cheaper than every other at some weight."""
    left = costs
    for a, b in ((1, 0), (0, 1), (1, 1), (1, -1)):
        left = ends_of_lines(left, a, b)
    count, width, height = len(left), sum(x for x, _ in left), sum(y for _, y in left)
    # those far from the middle first: they soon show that one in the middle is no corner
    far = sorted(left, key=lambda cost: -((count * cost[0] - width) ** 2) - (count * cost[1] - height) ** 2)
    return {(x, y) for x, y in far if in_open_half_plane((p - x, q - y) for p, q in far if p != x or q != y)}


def counterclockwise(corners):
    """The corners from the least price, among those the least pressure, by their angle round their middle."""
    if not corners:
        return []
    count, width, height = len(corners), sum(x for x, _ in corners), sum(y for _, y in corners)

    def from_middle(cost):
        return (count * cost[0] - width, count * cost[1] - height)

    first = from_middle(min(corners))

    def compare(cost, other):
        way, beside = from_middle(cost), from_middle(other)
        return past_half(way) - past_half(beside) or -turn(way, beside)

    def past_half(way):
        side = turn(first, way)
        return side < 0 or side == 0 and first[0] * way[0] + first[1] * way[1] < 0

    return sorted(corners, key=cmp_to_key(compare))


def fit(costs, node, segment, stage):
    """Refuses costs that have too many corners or one out of range."""
    corners = alone_cheapest(costs)
    if len(corners) > MOST_CORNERS or any(max(abs(x), abs(y)) > FARTHEST for x, y in corners):
        raise Refused(f"refused 24 node {node} segment {segment} stage {stage}")


def kept(costs, most):
    """All the costs if they are at most so many, else the corners, from which all later corners come."""
    if len(costs) <= most:
        return costs
    corners = alone_cheapest(costs)
    return {cost: step for cost, step in costs.items() if cost in corners}


def costs_by_node(takeoff):
    """For each node up to the target, the costs of routes from the start that end there.

    With each cost stand the lowest step that a route of this cost ends in, its tail and the cost there. With the empty
    route stands nothing.
    """
    start, target = takeoff.points
    found = []
    for node in range(target + 1):
        gathered = {(0, 0): None} if node == start else {}
        for segment, (tail, head, choices) in enumerate(takeoff.segments):
            if head != node:
                continue
            fit(choices, node, segment, "choices")
            befores = kept(found[tail], KEPT // len(choices))
            chained = {}
            for choice, (x, y) in enumerate(choices):
                for before in befores:
                    chained.setdefault((before[0] + x, before[1] + y), (segment, choice, tail, before))
            fit(chained, node, segment, "chain")
            gathered = chained | gathered  # where both have a cost, the step of the lower segment stays
            fit(gathered, node, segment, "join")
            gathered = kept(gathered, KEPT)
        found.append(gathered)
    return found


def route(found, node, cost):
    """The steps to this cost at the node, in order from the start.

    A route to a corner passes corners only, so it is enough that what is left at a tail is the cost of some route.
    """
    steps = []
    while found[node][cost] is not None:
        segment, choice, node, cost = found[node][cost]
        steps.append(f"{segment}.{choice}")
    return steps[::-1]


def ray(cost, after):
    """The ray of the edge from one cost to the one after it."""
    return (cost[1] - after[1], after[0] - cost[0])


def least(takeoff, weight):
    """The least weighted cost over all routes, counted from the target back; None where no route leads there."""
    start, target = takeoff.points
    out = {}
    for tail, head, choices in takeoff.segments:
        out.setdefault(tail, []).append((head, min(weighted(weight, choice) for choice in choices)))

    @lru_cache(maxsize=None)
    def onward(node):
        sums = [0] if node == target else []
        sums += [step + rest for head, step in out.get(node, []) for rest in [onward(head)] if rest is not None]
        return min(sums, default=None)

    return onward(start)


def weighted(weight, cost):
    return weight[0] * cost[0] + weight[1] * cost[1]


def lines(takeoff):
    """The lines of the answer to a takeoff that has no reader's fault."""
    start, target = takeoff.points
    found = costs_by_node(takeoff)
    corners = counterclockwise(alone_cheapest(found[target]))
    yield f"nodes {takeoff.nodes} segments {len(takeoff.segments)} start {start} target {target}"
    for k, corner in enumerate(corners):
        arriving = ray(corners[k - 1], corner)
        leaving = ray(corner, corners[(k + 1) % len(corners)])
        yield " ".join(map(str, ["corner", k, *corner, "cone", *arriving, *leaving]))
        yield " ".join(["route", str(k), *route(found, target, corner)])
    for weight in takeoff.weights:
        cost = least(takeoff, weight)
        line = f"weight {weight[0]} {weight[1]} "
        if cost is None:
            yield line + "none"
        else:
            lowest = [weighted(weight, corner) for corner in corners].index(cost)
            yield line + f"least {cost} corner {lowest}"


def answer(data):
    """What the bytes of a takeoff come to: the text that `routes` prints."""
    try:
        return "".join(line + "\n" for line in list(lines(Takeoff(data[:READ]))))
    except Refused as refused:
        return f"{refused}\n"


if __name__ == "__main__":
    sys.stdout.write(answer(sys.stdin.buffer.read()))
