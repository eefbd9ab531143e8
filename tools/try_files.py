#!/usr/bin/env python3
"""Holds the program `beanbox` against `tools/beanbox.py` on many heat files, good and damaged.

    tools/try_files.py [COUNT [SEED]]

Files are made from a fixed seed: drums of 1 to 32 nodes whose certificates pass or fail, numbers at and beyond every limit, and then damage: torn
files, a byte changed, put in or taken out, lines exchanged, repeated, reversed or left out, trailers off by one, 65,535, 65,536 and 66,000 bytes.
What both print is compared byte for byte; a run that ends otherwise than with status 0 or takes longer than a second is a difference. Ends with 1
at the first difference and leaves that file beside the program. Run `(cd crates/beanbox && rt run)` before, which builds it.
"""
import collections
import pathlib
import random
import subprocess
import sys
import time

TOP = pathlib.Path(__file__).resolve().parent.parent
sys.path.insert(0, str(TOP / "tools"))
import beanbox

PROGRAM = TOP / "crates" / "beanbox" / "out" / "beanbox"
LIMITS = [0, 1, 2**20, 2**20 + 1, 2**30, 2**30 + 1, 2**37, 2**42, 2**42 + 1, 10**13 - 1, 10**13]


def ends(r, largest):
    a, b = r.randint(-largest, largest), r.randint(-largest, largest)
    return (min(a, b), max(a, b))


# The data lines of a drum: mostly dominated by its diagonal, so that rounds are made.
def drum(r):
    n = r.choice([1, 2, 2, 3, 3, 4, 5, 6, 8, 12, 16, 32])
    small = r.choice([1, 5, 40, 3000])
    lines = [f"size {n}"]
    for i in range(1, n + 1):
        for j in range(1, n + 1):
            if i == j:
                low = small * n * r.choice([1, 2, 4, 4, 8]) + r.randint(0, 9) - r.choice([0, 0, 0, 0, 99])
                high = low + r.choice([0, 1, small, 7 * small])
                if r.random() < 0.3:
                    low, high = -high, -low
            elif r.random() < 0.3:
                continue
            else:
                low, high = ends(r, small)
            lines.append(f"a {i} {j} {low} {high}")
    for i in range(1, n + 1):
        if r.random() < 0.9:
            low, high = ends(r, r.choice([0, 10, 10**4, 10**9, 2**42]))
            lines.append(f"b {i} {low} {high}")
    for i in range(1, n + 1):
        if r.random() < 0.4:
            u = r.choice([0, 2**20 + 1]) if r.random() < 0.01 else r.choice([1, 1, 1, 2, 3, r.randint(1, 9)])
            lines.append(f"u {i} {u}")
    return lines


def remarks(r):
    return r.choice([b"", b"", b"drum of the east row\n", b"two\nlines\n", b"\xff\x00\x80 bytes\n", b"end 0 1\n"])


def file_of(r, lines):
    front = remarks(r)
    body = "".join(line + "\n" for line in lines).encode()
    place, count = len(front), len(lines)
    if r.random() < 0.05:
        place, count = place + r.choice([-1, 0, 1]), count + r.choice([-1, 0, 1])
    return front + body + f"end {place} {count}\n".encode()


def damage_lines(r, lines):
    lines = list(lines)
    i, j = r.randrange(len(lines)), r.randrange(len(lines))
    kind = r.randrange(7)
    if kind == 0:
        lines[i], lines[j] = lines[j], lines[i]
    elif kind == 1:
        lines.insert(i, lines[j])
    elif kind == 2:
        lines = lines[:1] + lines[:0:-1]
    elif kind == 3:
        del lines[i]
    elif kind == 4:
        words = lines[i].split(" ")
        k = r.randrange(1, len(words))
        words[k] = str(r.choice(LIMITS) * r.choice([1, 1, -1]))
        lines[i] = " ".join(words)
    elif kind == 5:
        words = lines[i].split(" ")
        k = r.randrange(len(words))
        words[k] = r.choice(["", "-0", "01", "+1", "-", "size", "a", "b", "u", "1\r", "\t1", "33", "0", "size 2", words[k] + " "])
        lines[i] = " ".join(words)
    else:
        lines[i] = lines[i] + r.choice([" 1", " ", "x", "\r"])
    return lines


def damage_bytes(r, data):
    data = bytearray(data)
    kind = r.randrange(5)
    at = r.randrange(len(data))
    if kind == 0:
        data = data[:at]
    elif kind == 1:
        data[at] = r.randrange(256)
    elif kind == 2:
        data.insert(at, r.choice(b" \n-0123456789\xff"))
    elif kind == 3:
        del data[at]
    else:
        data = data[at:]
    return bytes(data)


# Filled up by remarks to just this length.
def long_file(r, lines):
    body = "".join(line + "\n" for line in lines).encode()
    length = r.choice([65_534, 65_535, 65_536, 66_000])
    front = length - len(body) - len(f"end 60000 {len(lines)}\n")
    unit = r.choice([b"x", b"\n", b"\x00"])
    return unit * (front - 1) + b"\n" + body + f"end {front} {len(lines)}\n".encode()


def make(r):
    lines = drum(r)
    kind = r.random()
    if kind < 0.35:
        return file_of(r, lines)
    if kind < 0.70:
        for _ in range(r.choice([1, 1, 2])):
            lines = damage_lines(r, lines)
        return file_of(r, lines)
    if kind < 0.97:
        return damage_bytes(r, file_of(r, lines))
    if kind < 0.99:
        return long_file(r, lines)
    return bytes(r.randrange(256) for _ in range(r.choice([0, 1, 100, 5000])))


def main():
    count = int(sys.argv[1]) if len(sys.argv) > 1 else 20_000
    r = random.Random(int(sys.argv[2]) if len(sys.argv) > 2 else 1)
    seen, slowest = collections.Counter(), 0.0
    for k in range(count):
        data = make(r)
        want = beanbox.answer(data)
        start = time.time()
        run = subprocess.run([PROGRAM], input=data, capture_output=True, timeout=20)
        took = time.time() - start
        slowest = max(slowest, took)
        if run.returncode != 0 or run.stdout != want or run.stderr or took > 1:
            path = PROGRAM.parent / "differs.heat"
            path.write_bytes(data)
            print(f"file {k} differs ({path}): status {run.returncode}, {took:.2f} s, {run.stdout[:60]!r}, and not {want[:60]!r}")
            sys.exit(1)
        words = want.split()
        seen["a box at rest" if want.endswith(b"yes\n") else "a box not at rest" if words[0] == b"box" else f"refused {words[1].decode()}"] += 1
    for what, how_often in sorted(seen.items()):
        print(f"{how_often:6} {what}")
    print(f"{count} files, no difference; the slowest took {slowest * 1000:.0f} ms")


main()
