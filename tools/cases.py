#!/usr/bin/env python3
"""Writes the stored takeoffs of crates/cases and what they must come to.

This is a second program: it reads a takeoff by itself and goes through the network in its own way (each node's best
cost from the heads' side, by recursion), so that the two can be held against each other. Run it from the repository's
root; it writes crates/cases/stdin (each takeoff behind two length bytes) and crates/cases/stdout.
"""
import random
from functools import lru_cache


def field(tag, value):
    return tag.encode() + len(value).to_bytes(2, "big") + bytes(value)


def n(nodes):
    return field("N", [nodes])


def s(tail, head, *choices):
    value = bytes([tail, head])
    for price, pressure in choices:
        value += price.to_bytes(2, "big", signed=True) + pressure.to_bytes(2, "big", signed=True)
    return field("S", value)


def p(start, target):
    return field("P", [start, target])


def w(a, b):
    return field("W", a.to_bytes(4, "big", signed=True) + b.to_bytes(4, "big", signed=True))


class Refused(Exception):
    def __init__(self, number, at):
        self.line = f"refused {number} at {at}"


def take(form, value, at, state):
    """One field whose tag, length and order are right."""
    if form == "N":
        if not 1 <= value[0] <= 128:
            raise Refused(5, at)
        state["n"] = value[0]
    elif form == "S":
        if len(state["segments"]) == 1024:
            raise Refused(11, at)
        tail, head = value[0], value[1]
        if not tail < head < state["n"]:
            raise Refused(5, at)
        numbers = [int.from_bytes(value[i : i + 2], "big", signed=True) for i in range(2, len(value), 2)]
        if any(abs(x) > 10000 for x in numbers):
            raise Refused(7, at)
        choices = list(zip(numbers[::2], numbers[1::2]))
        if len(set(choices)) < len(choices):
            raise Refused(12, at)
        state["segments"].append((tail, head, choices))
    elif form == "P":
        if value[0] >= state["n"] or value[1] >= state["n"]:
            raise Refused(5, at)
        state["points"] = (value[0], value[1])
    else:
        if len(state["weights"]) == 16:
            raise Refused(11, at)
        weight = tuple(int.from_bytes(value[i : i + 4], "big", signed=True) for i in (0, 4))
        if any(abs(x) > 6000000 for x in weight):
            raise Refused(8, at)
        state["weights"].append(weight)


def parse(data):
    state = {"n": None, "segments": [], "points": None, "weights": []}
    at = 0
    while at < len(data):
        if len(data) - at < 3 or len(data) - at - 3 < int.from_bytes(data[at + 1 : at + 3], "big"):
            raise Refused(1, at)
        size = int.from_bytes(data[at + 1 : at + 3], "big")
        form = chr(data[at])
        value = data[at + 3 : at + 3 + size]
        if form not in "NSPW":
            raise Refused(2, at)
        right = {"N": size == 1, "S": size in range(6, 35, 4), "P": size == 2, "W": size == 8}[form]
        if not right:
            raise Refused(3, at)
        if state["n"] is None:
            allowed = "N"
        elif state["points"] is None:
            allowed = "SP"
        else:
            allowed = "W"
        if form not in allowed:
            raise Refused(4, at)
        take(form, value, at, state)
        at += 3 + size
    if state["points"] is None:
        raise Refused(4, len(data))
    return state


def least(state, weight):
    start, target = state["points"]
    out = {}
    for tail, head, choices in state["segments"]:
        out.setdefault(tail, []).append((head, min(weight[0] * x + weight[1] * y for x, y in choices)))

    @lru_cache(maxsize=None)
    def onward(v):
        found = [0] if v == target else []
        found += [step + rest for head, step in out.get(v, []) for rest in [onward(head)] if rest is not None]
        return min(found) if found else None

    return onward(start)


def answer(data):
    try:
        state = parse(data)
    except Refused as refused:
        return [refused.line]
    start, target = state["points"]
    lines = [f"nodes {state['n']} segments {len(state['segments'])} start {start} target {target}"]
    for weight in state["weights"]:
        cost = least(state, weight)
        lines.append(f"weight {weight[0]} {weight[1]} " + ("none" if cost is None else f"least {cost}"))
    return lines


SAMPLE = n(3) + s(0, 1, (4, 1), (1, 3)) + s(0, 2, (3, 3)) + s(1, 2, (2, 2), (1, 6)) + p(0, 2) + w(0, 1)


def edges():
    yield SAMPLE
    yield SAMPLE + w(1, 1) + w(0, 0) + w(-1, 0) + w(0, -1) + w(-3, 2)
    yield n(1) + p(0, 0) + w(1, 1)
    yield n(2) + s(0, 1, (2, 2), (1, 1), (3, 3)) + p(0, 1) + w(1, 1) + w(-1, -1)
    for x in (10000, 10001, -10000, -10001):
        yield n(2) + s(0, 1, (x, 0)) + p(0, 1) + w(1, 0)
        yield n(2) + s(0, 1, (0, 0), (0, x)) + p(0, 1) + w(0, 1)
    for nodes in (0, 1, 128, 129, 255):
        yield n(nodes) + p(0, nodes - 1 if nodes else 0) + w(1, 1)
    for x in (6000000, 6000001, -6000000, -6000001):
        yield n(2) + s(0, 1, (10000, -10000)) + p(0, 1) + w(x, 0)
        yield n(2) + s(0, 1, (10000, -10000)) + p(0, 1) + w(0, x)
    yield n(2) + s(0, 1, *[(k, k) for k in range(8)]) + p(0, 1) + w(-1, 0)
    yield n(2) + s(0, 1, *[(k, k) for k in range(9)]) + p(0, 1)
    yield n(2) + s(0, 1) + p(0, 1)
    yield n(128) + b"".join(s(v, v + 1, (10000, -10000)) for v in range(127)) + p(0, 127) + w(6000000, -6000000) + w(-6000000, 6000000)
    yield n(128) + b"".join(s(e % 127, e % 127 + 1, (e % 7, e % 11)) for e in range(1024)) + p(0, 127) + w(1, 1)
    yield n(128) + b"".join(s(e % 127, e % 127 + 1, (e % 7, e % 11)) for e in range(1025)) + p(0, 127) + w(1, 1)
    yield n(2) + s(0, 1, (1, 2)) + p(0, 1) + b"".join(w(k, -k) for k in range(16))
    yield n(2) + s(0, 1, (1, 2)) + p(0, 1) + b"".join(w(k, -k) for k in range(17))
    yield n(3) + s(0, 1, (1, 1)) + p(2, 0) + w(1, 1)
    yield n(3) + s(0, 1, (1, 1)) + p(0, 2) + w(1, 1)
    yield n(2) + s(1, 1, (1, 1)) + p(0, 1)
    yield n(2) + s(0, 2, (1, 1)) + p(0, 1)
    yield n(2) + p(0, 2)
    yield n(2) + p(2, 0)


def orders():
    yield b""
    yield s(0, 1, (1, 1))
    yield p(0, 0)
    yield w(1, 1)
    yield n(2)
    yield n(2) + n(2)
    yield n(2) + w(1, 1)
    yield n(2) + p(0, 1) + p(0, 1)
    yield n(2) + p(0, 1) + s(0, 1, (1, 1))
    yield n(2) + p(0, 1) + n(2)
    yield n(2) + p(0, 1) + w(1, 1) + p(0, 1)
    yield SAMPLE + b"W"
    yield SAMPLE + b"\0"
    yield SAMPLE + field("T", [1, 2])
    yield field("n", [3]) + p(0, 0)


def conflicts():
    """Two things wrong in one field: the earlier check wins."""
    yield b"X\0\5\1"  # cut short, unknown tag
    yield b"N\0\5\1"  # cut short, wrong length
    yield b"S\0\6\1"  # cut short, out of order
    yield field("X", [1] * 300)  # unknown tag, no right length
    yield field("X", [0]) + n(3)  # unknown tag, out of order
    yield field("S", [0, 1])  # wrong length, out of order
    yield n(2) + field("N", [0, 0])  # wrong length, out of order
    yield n(2) + field("S", [1, 0, 1])  # wrong length, bad ends
    yield n(2) + n(0)  # out of order, bad count
    yield s(1, 0, (1, 1))  # out of order, bad ends
    yield n(2) + p(0, 1) + s(0, 1, (20000, 0), (20000, 0))  # out of order, range, equal choices
    yield n(2) + w(7000000, 0)  # out of order, weight range
    yield n(2) + s(1, 0, (20000, 0))  # ends, range
    yield n(2) + s(1, 0, (1, 1), (1, 1))  # ends, equal choices
    yield n(2) + s(0, 1, (5, 5), (5, 5), (20000, 0))  # range, equal choices
    yield n(2) + s(0, 1, (20000, 0), (20000, 0))  # range, equal choices
    many = n(2) + s(0, 1, (1, 1)) * 1024
    yield many + s(1, 0, (1, 1))  # too many, ends
    yield many + s(0, 1, (20000, 0))  # too many, range
    yield many + s(0, 1, (1, 1), (1, 1))  # too many, equal choices
    yield n(2) + p(0, 1) + w(1, 1) * 16 + w(7000000, 0)  # too many, weight range


def drawn(seed):
    """A network by chance, with negative prices and losses and some nodes that nothing reaches."""
    by = random.Random(seed)
    nodes = by.randint(2, 12)
    data = n(nodes)
    for _ in range(by.randint(0, 20)):
        tail = by.randrange(nodes - 1)
        head = by.randrange(tail + 1, nodes)
        choices = {(by.randint(-50, 50), by.randint(-50, 50)) for _ in range(by.randint(1, 8))}
        data += s(tail, head, *sorted(choices))
    start = by.randrange(nodes)
    data += p(start, by.randrange(start, nodes))
    for _ in range(by.randint(1, 6)):
        data += w(by.randint(-6000000, 6000000), by.randint(-9, 9))
    return data


def main():
    cases = list(edges()) + list(orders()) + list(conflicts())
    cases += [SAMPLE[:k] for k in range(len(SAMPLE))]
    cases += [drawn(seed) for seed in range(60)]
    with open("crates/cases/stdin", "wb") as file:
        for data in cases:
            file.write(len(data).to_bytes(2, "big") + data)
    with open("crates/cases/stdout", "w") as file:
        for number, data in enumerate(cases):
            file.write(f"case {number}\n" + "".join(line + "\n" for line in answer(data)))
    print(len(cases), "cases")


if __name__ == "__main__":
    main()
