#!/usr/bin/env python3
"""Answers a heat file by the rules, as a second solver beside the program of the same name.

    tools/beanbox.py < FILE

Whole numbers only. It shares nothing with the crates: files are compared by what both print.
"""
import sys

PARTS = {b"size": 1, b"a": 4, b"b": 3, b"u": 2}
SORTS = [b"size", b"a", b"b", b"u"]
ROUNDS = 64


class Refused(Exception):
    pass


def refuse(*values):
    raise Refused("refused " + " ".join(str(v) for v in values))


# The number that a word writes, or None.
def number(word):
    digits = word[1:] if word[:1] == b"-" else word
    if not 1 <= len(digits) <= 13 or any(c not in b"0123456789" for c in digits):
        return None
    if digits[:1] == b"0" and (len(digits) > 1 or word[:1] == b"-"):
        return None
    return int(word)


# The tag of a line and its numbers, or None.
def fields(line):
    tag, *words = line.split(b" ")
    numbers = [number(w) for w in words]
    return None if None in numbers else (tag, numbers)


# Where the data lines begin, and the lines.
def data_lines(file):
    if not 0 < len(file) <= 65535 or file[-1:] != b"\n":
        refuse(1, 0)
    trailer = file.rfind(b"\n", 0, len(file) - 1) + 1
    end = fields(file[trailer:-1])
    if end is None or end[0] != b"end" or len(end[1]) != 2:
        refuse(1, 0)
    place, count = end[1]
    if place < 0 or place > trailer or count < 0 or (place > 0 and file[place - 1:place] != b"\n"):
        refuse(1, 0)
    if file[place:trailer].count(b"\n") != count:
        refuse(1, 0)
    return place, file[place:trailer].split(b"\n")[:-1]


# Size, cells by row and column, and certificate.
def read(file):
    place, lines = data_lines(file)
    n, last, cells, weights = None, None, {}, {}
    if not lines:
        refuse(2, place)
    for line in lines:
        parsed = fields(line)
        if parsed is None or PARTS.get(parsed[0]) != len(parsed[1]) or (n is None and parsed[0] != b"size"):
            refuse(2, place)
        tag, z = parsed
        if tag == b"size":
            key = (0, 0, 0)
            if not 1 <= z[0] <= 32:
                refuse(3, place)
        else:
            nodes = z[:2] if tag == b"a" else z[:1]
            if any(not 1 <= i <= n for i in nodes):
                refuse(4, place)
            key = (SORTS.index(tag), *nodes, 0)[:3]
        if last is not None and key <= last:
            refuse(5, place)
        if tag in (b"a", b"b") and z[-2] > z[-1]:
            refuse(6, place)
        last = key
        if tag == b"size":
            n = z[0]
        elif tag == b"u":
            weights[z[0]] = z[1]
        else:
            cells[(z[0], z[1] if tag == b"a" else n + 1)] = (z[-2], z[-1])
        place += len(line) + 1
    table = {(i, j): cells.get((i, j), (0, 0)) for i in range(1, n + 1) for j in range(1, n + 2)}
    return n, table, {i: weights.get(i, 1) for i in range(1, n + 1)}


def magnitude(r):
    return max(abs(r[0]), abs(r[1]))


def mignitude(r):
    return 0 if r[0] <= 0 <= r[1] else min(abs(r[0]), abs(r[1]))


def first_box(n, table, u):
    nodes = range(1, n + 1)
    for i in nodes:
        for j in range(1, n + 2):
            limit = 2**20 if j <= n else 2**42
            if magnitude(table[i, j]) > limit:
                refuse(8, 1, i, j)
    for i in nodes:
        if not 1 <= u[i] <= 2**20:
            refuse(9, i)
    v = {i: mignitude(table[i, i]) * u[i] - sum(magnitude(table[i, j]) * u[j] for j in nodes if j != i) for i in nodes}
    for i in nodes:
        if v[i] < 1:
            refuse(10, i)
    k = {i: max(-(-u[i] * magnitude(table[j, n + 1]) // v[j]) for j in nodes) for i in nodes}
    for i in nodes:
        if k[i] > 2**30:
            refuse(11, i)
    return {i: (-k[i], k[i]) for i in nodes}


# What a row leaves of its node's range.
def row_step(n, table, box, i):
    low, high = table[i, n + 1]
    for j in range(1, n + 1):
        if j != i:
            products = [a * x for a in table[i, j] for x in box[j]]
            low, high = low - max(products), high - min(products)
    lower = min(m // a for m in (low, high) for a in table[i, i])
    upper = max(-(-m // a) for m in (low, high) for a in table[i, i])
    lower, upper = max(lower, box[i][0]), min(upper, box[i][1])
    if lower > upper:
        refuse(12, i)
    return lower, upper


def report(file):
    n, table, u = read(file)
    box = first_box(n, table, u)
    for _ in range(ROUNDS):
        before = dict(box)
        for i in range(1, n + 1):
            box[i] = row_step(n, table, box, i)
        if box == before:
            break
    try:
        rests = all(row_step(n, table, box, i) == box[i] for i in range(1, n + 1))
    except Refused:
        rests = False
    lines = [f"box {n}"] + [f"{i} {box[i][0]} {box[i][1]}" for i in range(1, n + 1)]
    return lines + ["rest yes" if rests else "rest no"]


# The bytes that a file is answered with.
def answer(file):
    try:
        lines = report(file)
    except Refused as refusal:
        lines = [str(refusal)]
    return "".join(line + "\n" for line in lines).encode()


if __name__ == "__main__":
    sys.stdout.buffer.write(answer(sys.stdin.buffer.read()))
