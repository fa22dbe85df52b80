#!/usr/bin/env python3
"""Writes the stored lists of calls of crates/sessions and what plans must answer to them.

Each session is a takeoff and a list of calls to a plan over its network, in any order and with any arguments. What the
plan answers is worked out here from the costs of all routes, by the parts of the second program. Run it from the
repository's root; it writes crates/sessions/stdin and crates/sessions/stdout.
"""
import random

from cases import n, p, s
from second import Refused, Takeoff, alone_cheapest, costs_by_node, counterclockwise, ray, route, weighted

START, SETTLE, COUNT, CORNER, CONE, CHEAPEST, ROUTE = range(7)
PLACE = 48
BLANK = "9999.9"


class Plan:
    """A plan by its rules: the start, the settled nodes, and the costs of all routes to each of them."""

    def __init__(self, takeoff):
        self.takeoff = takeoff
        self.start = None
        self.found = []
        self.place = [BLANK] * PLACE

    def corners(self, v, lawful=True):
        if v >= self.takeoff.nodes:
            raise Refused("refused 5 at 0")
        if not lawful:
            raise Refused("refused 8 at 0")
        if self.start is None:
            raise Refused("refused 20 at 0")
        if v >= len(self.found):
            raise Refused("refused 22 at 0")
        return counterclockwise(alone_cheapest(self.found[v]))

    def settle(self):
        if self.start is None:
            raise Refused("refused 20 at 0")
        if len(self.found) == self.takeoff.nodes:
            raise Refused("refused 21 at 0")
        self.takeoff.points = (self.start, len(self.found))
        self.found = costs_by_node(self.takeoff)
        return "done"

    def answer(self, op, v, k, begin, long, weight):
        if op == START:
            if v >= self.takeoff.nodes:
                raise Refused("refused 5 at 0")
            self.start, self.found = v, []
            return "done"
        if op == SETTLE:
            return self.settle()
        corners = self.corners(v, op != CHEAPEST or all(abs(x) <= 6000000 for x in weight))
        if op == COUNT:
            return f"count {len(corners)}"
        if op == CHEAPEST and corners:
            costs = [weighted(weight, corner) for corner in corners]
            return f"least {min(costs)} corner {costs.index(min(costs))}"
        if op == CHEAPEST or k >= len(corners):
            raise Refused("refused 23 at 0")
        if op == CORNER:
            return f"corner {corners[k][0]} {corners[k][1]}"
        if op == CONE:
            arriving, leaving = ray(corners[k - 1], corners[k]), ray(corners[k], corners[(k + 1) % len(corners)])
            return " ".join(map(str, ["cone", *arriving, *leaving]))
        steps = route(self.found, v, corners[k])
        if len(self.place[begin : begin + long]) < len(steps):
            raise Refused("refused 10 at 0")
        self.place[begin : begin + len(steps)] = steps
        return f"steps {len(steps)}"


def told(takeoff, calls):
    """The lines that a session prints."""
    plan = Plan(Takeoff(takeoff))
    for call in calls:
        try:
            yield plan.answer(*call)
        except Refused as refused:
            yield str(refused)
    yield " ".join(["place", *plan.place])


def encoded(takeoff, calls):
    data = len(takeoff).to_bytes(2, "big") + bytes([len(calls)]) + takeoff
    for op, v, k, begin, long, weight in calls:
        data += bytes([op, v, k, begin, long]) + b"".join(part.to_bytes(4, "big", signed=True) for part in weight)
    return data


def any_network(chance):
    """A takeoff of a few nodes, with ties and unreached nodes."""
    nodes = chance.randint(1, 7)
    fields = [n(nodes)]
    for _ in range(chance.randint(0, 3 * nodes) if nodes > 1 else 0):
        tail = chance.randrange(nodes - 1)
        some = {(chance.randint(-4, 4), chance.randint(-4, 4)) for _ in range(chance.randint(1, 5))}
        fields.append(s(tail, chance.randint(tail + 1, nodes - 1), *chance.sample(sorted(some), len(some))))
    return nodes, b"".join(fields) + p(0, 0)


def any_call(chance, nodes):
    """A call with any arguments, most of them about what there is."""
    op = chance.choice([START] + 4 * [SETTLE] + 4 * [COUNT, CORNER, CONE] + 6 * [CHEAPEST] + 7 * [ROUTE])
    v = chance.randrange(nodes) if chance.random() < 0.95 else chance.choice([nodes, 127, 128, 255])
    if op == START and chance.random() < 0.7:
        v = 0
    begin, long = chance.choice([(0, 48), (0, 3), (chance.randrange(60), chance.randrange(60)), (255, 255), (47, 9)])
    weight = tuple(chance.choice([chance.randint(-9, 9), 0, 6000000, -6000000, 6000001, -6000001][: chance.choice([1, 2, 6])]) for _ in "ab")
    return op, v, chance.choice([0, 0, 0, 1, 1, 2, 3, 5]), begin, long, weight


def any_calls(chance, nodes):
    """Calls in any order; most lists begin with a start and some settles."""
    begins = [(START, 0, 0, 0, 0, (0, 0))] + chance.randint(0, nodes) * [(SETTLE, 0, 0, 0, 0, (0, 0))]
    return (begins if chance.random() < 0.9 else []) + [any_call(chance, nodes) for _ in range(chance.randint(0, 56))]


def chosen():
    """Sessions that are chosen, not drawn."""
    ask = [(op, v, 0, 0, 48, (1, 1)) for v in (0, 1, 9) for op in (COUNT, CORNER, CONE, CHEAPEST, ROUTE)]
    start, settle = (START, 0, 0, 0, 0, (0, 0)), (SETTLE, 0, 0, 0, 0, (0, 0))
    one = n(2) + s(0, 1, (2, 2), (1, 1), (3, 3)) + p(0, 0)
    yield one, ask + [settle, start] + ask + [settle] + ask + [settle] + ask
    yield one, [start, settle, settle, settle, start, (START, 2, 0, 0, 0, (0, 0)), (COUNT, 0, 0, 0, 0, (0, 0)), settle, (COUNT, 0, 0, 0, 0, (0, 0))]
    yield n(1) + p(0, 0), [settle, start, settle, settle] + ask
    chain = n(18) + b"".join(s(e, e + 1, (0, 0), (1, e + 1)) for e in range(17)) + p(0, 0)
    last = [(COUNT, 16, 0, 0, 0, (0, 0)), (COUNT, 17, 0, 0, 0, (0, 0)), (ROUTE, 16, 31, 0, 16, (0, 0)), (ROUTE, 16, 31, 20, 15, (0, 0))]
    yield chain, [start] + [settle] * 17 + [settle, settle] + last + [(START, 1, 0, 0, 0, (0, 0))] + [settle] * 18 + last


def main():
    chance = random.Random(20)
    sessions = list(chosen())
    for _ in range(150):
        nodes, takeoff = any_network(chance)
        sessions.append((takeoff, any_calls(chance, nodes)))
    with open("crates/sessions/stdin", "wb") as out:
        out.write(b"".join(encoded(takeoff, calls) for takeoff, calls in sessions))
    with open("crates/sessions/stdout", "w") as out:
        for number, (takeoff, calls) in enumerate(sessions):
            out.write("".join(line + "\n" for line in [f"session {number}", *told(takeoff, calls)]))


if __name__ == "__main__":
    main()
