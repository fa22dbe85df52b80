#!/usr/bin/env python3
"""Writes the stored takeoffs of crates/corner_cases and what they must come to.

Run it from the repository's root: it writes crates/corner_cases/stdin (each takeoff behind two length bytes) and
crates/corner_cases/stdout, which is what the second program makes of them.
"""
import math
import random

from cases import SAMPLE, conflicts, drawn, edges, n, orders, p, s, w
from second import answer


def joined(fields):
    return b"".join(fields)


ROUND = joined(w(a, b) for a, b in [(0, 0), (1, 0), (1, 1), (0, 1), (-1, 1), (-1, 0), (-1, -1), (0, -1), (1, -1)])


def on_the_rays(data, most=16):
    """A takeoff without weights, with weights added at which two corners are equally cheap, or one alone is."""
    cones = [line.split(" cone ")[1] for line in answer(data).splitlines() if line.startswith("corner ")]
    weights = []
    for cone in cones:
        p0, p1, r0, r1 = map(int, cone.split())
        weights += [(p0, p1), (p0 + r0, p1 + r1)]
    return data + joined(w(a, b) for a, b in weights[:most])


def slope(steps, nodes, size=1):
    """A chain of so many steps; each segment is for nothing, or goes to the right and ever more upward."""
    return n(nodes) + joined(s(e, e + 1, (0, 0), (size, size * (e + 1))) for e in range(steps))


def chains():
    """A chain that has 2 × v corners at node v: 32 fit at node 16, and node 17 has more."""
    for target in (1, 2, 15, 16, 17):
        yield on_the_rays(slope(17, 18) + p(0, target))
    for start, target in ((0, 16), (0, 127), (100, 116), (100, 117), (111, 127), (110, 127), (127, 20)):
        yield slope(127, 128) + p(start, target) + ROUND
    yield slope(17, 20) + s(0, 18, (3, 4)) + s(17, 19, (0, 0)) + p(0, 18) + ROUND  # refused off the target's routes
    yield slope(17, 20) + s(0, 16, (3, 4)) + p(0, 16) + ROUND  # what lies behind the target is not looked at
    yield slope(17, 18) + p(0, 17) + ROUND + b"W"  # the reader's fault comes first
    yield slope(17, 18) + p(0, 17) + w(6000001, 0)
    yield slope(17, 18) + p(0, 18)
    yield slope(17, 18) + s(0, 17, (10001, 0)) + p(0, 17)
    for cost in ((5, 5), (5, 6), (5, 4)):  # on an edge, inside, and outside: a 33rd corner
        yield slope(16, 18, 10) + s(0, 17, cost) + s(16, 17, (0, 0)) + p(0, 17) + ROUND
        yield slope(16, 18, 10) + s(16, 17, (0, 0)) + s(0, 17, cost) + p(0, 17) + ROUND
    yield slope(16, 18) + s(16, 17, (0, 0), (7, 7)) + p(0, 17) + ROUND  # along an edge: no more corners
    yield slope(16, 18) + s(16, 17, (0, 0), (7, 6)) + p(0, 17) + ROUND


def two_slopes(right, left):
    """A chain to the right and one to the left, both from node 0, that meet in the last node."""
    data = n(right + left + 2)
    data += joined(s(e, e + 1, (0, 0), (1, e + 1)) for e in range(right))
    data += joined(s(0 if e == 0 else right + e, right + e + 1, (0, 0), (-1, e + 1)) for e in range(left))
    last = right + left + 1
    return data + s(right, last, (0, 0)) + s(right + left, last, (0, 0)) + p(0, last)


def on_a_bow(count):
    """So many points of a parabola."""
    return [(k, k * k) for k in range(count)]


def on_a_ring(count, radius, turned=0.0):
    """So many points near a circle."""
    ways = [2 * math.pi * (k + turned) / count for k in range(count)]
    return [(round(radius * math.cos(way)), round(radius * math.sin(way))) for way in ways]


def beside(*lists):
    """Two nodes, and a segment between them for each list of choices."""
    return n(2) + joined(s(0, 1, *choices) for choices in lists) + p(0, 1)


def crowds():
    """Just 32 corners, and one more in a join or a chain."""
    for right, left in ((15, 15), (16, 15), (15, 16), (16, 16), (1, 16), (16, 2)):
        yield on_the_rays(two_slopes(right, left))
    for points in (on_a_bow(40), on_a_ring(40, 10000)):
        eights = [points[k : k + 8] for k in range(0, 40, 8)]
        yield on_the_rays(beside(*eights[:4]))
        yield on_the_rays(beside(*eights[:4], [points[0], points[9], points[18]]))
        yield beside(*eights[:4], points[32:33]) + ROUND
        yield beside(*eights) + ROUND
    ring = on_a_ring(32, 9000)
    mixed = [ring[k::4] for k in range(4)]
    yield on_the_rays(beside(*mixed))
    yield on_the_rays(beside([(0, 0)], *mixed, [(10, 10), (-8, 3)]))
    full = n(4) + joined(s(0, 1, *choices) for choices in mixed)
    yield full + s(1, 3, (0, 0), (0, 1)) + p(0, 3) + ROUND
    yield full + s(1, 3, (0, 0)) + s(0, 3, *mixed[0]) + p(0, 3) + ROUND
    yield full + s(1, 3, (5, 5)) + s(0, 3, *mixed[0]) + p(0, 3) + ROUND
    eight = on_a_ring(8, 3000)
    yield on_the_rays(n(5) + joined(s(e, e + 1, *eight) for e in range(4)) + p(0, 4))
    yield on_the_rays(n(4) + joined(s(e - 1, e, *((x * e, y) for x, y in eight)) for e in (1, 2, 3)) + p(0, 3))


def equals():
    """Costs that several routes have: the lowest segment into a node is taken, then its lowest choice."""
    for first, second in ((1, 2), (2, 1)):
        yield n(4) + s(0, first, (1, 2)) + s(0, second, (2, 1)) + s(2, 3, (2, 1)) + s(1, 3, (1, 2)) + p(0, 3) + ROUND
        yield n(4) + s(first, 3, (1, 0)) + s(second, 3, (1, 0)) + s(0, 1, (0, 1)) + s(0, 2, (0, 1)) + p(0, 3) + ROUND
    yield n(2) + s(0, 1, (1, 1)) * 5 + p(0, 1) + ROUND
    yield n(2) + s(0, 1, (3, 3), (1, 1)) + s(0, 1, (1, 1), (3, 3)) + s(0, 1, (4, 1)) + p(0, 1) + ROUND
    swapped = s(1, 2, (4, 0), (2, 2), (0, 4)) + s(0, 1, (0, 4), (2, 2), (4, 0)) + s(0, 2, (8, 0), (0, 8), (4, 4))
    yield n(3) + swapped + p(0, 2) + ROUND
    yield n(3) + swapped + s(1, 2, (0, 4), (4, 0), (0, 0)) + s(0, 1, (0, 0)) + p(0, 2) + ROUND
    square = [(0, 0), (1, 0), (0, 1), (1, 1)]
    for turned in range(4):
        sizes = square[turned:] + square[:turned]
        skips = joined(s(e, e + 2, *((2 * x, 2 * y) for x, y in sizes[::-1])) for e in range(4))
        steps = joined(s(e, e + 1, *sizes) for e in range(5))
        yield n(6) + (skips + steps if turned % 2 else steps + skips) + p(0, 5) + ROUND
    every = [(tail, head) for tail in range(6) for head in range(tail + 1, 6)]
    yield n(6) + joined(s(t, h, (h - t, t - h), (0, 0)) for t, h in every) + p(0, 5) + ROUND
    yield n(6) + joined(s(t, h, (0, 0), (h - t, t - h)) for t, h in every[::-1]) + p(0, 5) + ROUND
    yield n(6) + joined(s(t, h, (0, 0)) for t, h in every[::-1]) + p(1, 4) + ROUND


def flat():
    """Costs on one line, and costs that are nowhere alone cheapest."""
    for x, y in ((1, 0), (0, 1), (2, 3), (-3, 2)):
        choices = [(k * x, k * y) for k in (1, 3, 0, 2, -4)]
        yield on_the_rays(n(3) + s(0, 1, *choices) + s(1, 2, *choices[::-1]) + p(0, 2))
    yield beside([(0, 10), (10, 0), (6, 6)]) + ROUND  # not dearer in both than another, yet inside
    yield beside([(0, 10), (10, 0), (5, 5)], [(4, 4)], [(20, 20)]) + ROUND
    yield beside([(0, 0), (0, 2), (2, 0), (2, 2), (1, 1), (1, 0), (0, 1), (2, 1)], [(1, 2)]) + ROUND
    yield on_the_rays(beside([(-10000, -10000), (10000, 10000), (9999, 10000), (-9999, -10000)]))
    yield on_the_rays(beside([(-10000, 0), (10000, 1), (0, 0), (0, 1)]))


def far():
    """The longest routes at the largest prices, and the fullest files."""
    square = [(x, y) for x in (-10000, 10000) for y in (10000, -10000)]
    for sizes in ([(10000, 10000)], square[1:3], square):
        data = n(128) + joined(s(e, e + 1, *sizes) for e in range(127)) + p(0, 127)
        yield on_the_rays(data, 8) + w(6000000, 6000000) + w(-6000000, 6000000) + w(0, -6000000)
    yield n(2) + s(0, 1, (1, 1)) * 1023 + s(0, 1, (0, 5)) + p(0, 1) + ROUND
    by = random.Random(1)
    full = n(128)
    for e in range(1024):
        tail = e % 127
        head = by.randint(tail + 1, min(tail + 9, 127))
        sizes = [(x * (head - tail), y * (head - tail)) for x, y in on_a_ring(8, 20)]
        full += s(tail, head, *by.sample(sizes, 8))
    yield full + p(0, 127) + ROUND


def ends():
    """Starts and targets in every place."""
    yield n(1) + p(0, 0)
    yield n(1) + p(0, 0) + ROUND + joined(w(k, 6000000) for k in range(7))
    yield n(128) + p(127, 127) + ROUND
    yield n(128) + s(0, 127, (1, -1)) + p(0, 127) + ROUND
    between = n(5) + s(0, 2, (1, 5), (2, 2)) + s(1, 3, (4, 4)) + s(2, 4, (3, 1), (0, 9)) + s(3, 4, (1, 1), (9, -9))
    for start in range(2):
        for target in range(5):
            yield between + p(start, target) + w(1, 1) + w(-2, 3)
    yield between + p(4, 3) + w(1, 1) + w(-2, 3)


def tied(seed):
    """A network by chance with small numbers, so that many routes have equal costs."""
    by = random.Random(seed)
    nodes = by.randint(2, 8)
    reach = by.randint(1, 6)
    data = n(nodes)
    for _ in range(by.randint(nodes, 16)):
        tail = by.randrange(nodes - 1)
        head = by.randrange(tail + 1, nodes)
        choices = {(by.randint(-reach, reach), by.randint(-reach, reach)) for _ in range(by.randint(1, 8))}
        data += s(tail, head, *by.sample(sorted(choices), len(choices)))
    if by.random() < 0.8:
        data += p(0, by.randint(nodes // 2, nodes - 1))
    else:
        data += p(by.randrange(nodes), by.randrange(nodes))
    if by.random() < 0.5:
        return on_the_rays(data)
    return data + joined(w(by.randint(-4, 4), by.randint(-4, 4)) for _ in range(16))


def wide(seed):
    """A network by chance with numbers up to the largest: a chain with some ways past its nodes, and many corners."""
    by = random.Random(seed)
    nodes = by.randint(2, 9)
    most = by.randint(1, 8)
    data = n(nodes)
    for head in range(1, nodes):
        for tail in sorted({head - 1, by.randrange(head)}):
            size = by.choice([30, 1000, 10000])
            choices = {(by.randint(-size, size), by.randint(-size, size)) for _ in range(by.randint(1, most))}
            data += s(tail, head, *by.sample(sorted(choices), len(choices)))
    data += p(0, nodes - 1)
    if by.random() < 0.5:
        return on_the_rays(data)
    weights = [(by.randint(-6000000, 6000000), by.randint(-6000000, 6000000)) for _ in range(by.randint(1, 16))]
    return data + joined(w(a, b) for a, b in weights)


def crowded(seed):
    """A network by chance whose choices stand in rings, so that many have too many corners somewhere."""
    by = random.Random(seed)
    nodes = by.randint(4, 7)
    data = n(nodes)
    for head in range(1, nodes):
        for tail in [head - 1, by.randrange(head)][: by.randint(1, 2)]:
            choices = set(on_a_ring(by.randint(5, 8), by.randint(7000, 9000), by.random()))
            data += s(tail, head, *by.sample(sorted(choices), len(choices)))
    return on_the_rays(data + p(0, nodes - 1))


def damaged(seed):
    """A takeoff by chance with a byte changed, left out or put in, or cut short."""
    by = random.Random(seed)
    data = by.choice([drawn, tied, wide, crowded])(seed)
    at = by.randrange(len(data))
    byte = bytes([by.choice([0, 1, 2, 39, 128, 255, *b"NSPW", by.randrange(256)])])
    front = data[:at]
    return by.choice([front + byte + data[at + 1 :], front + data[at + 1 :], front + byte + data[at:], front])


def stored():
    """All the stored takeoffs in their order."""
    cases = list(edges()) + list(orders()) + list(conflicts())
    cases += [SAMPLE[:k] for k in range(len(SAMPLE))]
    cases += [drawn(seed) for seed in range(60)]
    for family in (chains, crowds, equals, flat, far, ends):
        cases += family()
    cases += [tied(seed) for seed in range(20)]
    cases += [wide(seed) for seed in range(16)]
    cases += [crowded(seed) for seed in range(12)]
    cases += [damaged(seed) for seed in range(6)]
    return cases


def main():
    cases = stored()
    with open("crates/corner_cases/stdin", "wb") as file:
        for data in cases:
            file.write(len(data).to_bytes(2, "big") + data)
    with open("crates/corner_cases/stdout", "w") as file:
        for number, data in enumerate(cases):
            file.write(f"case {number}\n" + answer(data))
    print(len(cases), "cases")


if __name__ == "__main__":
    main()
