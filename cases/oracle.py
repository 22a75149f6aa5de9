#!/usr/bin/env python3
"""What the program `plan` has to write, from document 01 alone: reads standard input, writes to standard output.

Independent of the Rattle sources: a set is a Python dict of chunks, a boundary is found by counting in a sorted list.
`oracle.py --all` makes NAME.out anew for each NAME.in beside this file.
"""
import os
import re
import sys

S_BITS, M, D, V, R, P, ROOM = 12, 64, 16, 16, 32, 16, 256


class Refused(Exception):
    pass


class Bad(Exception):
    pass


def lines_of(data):
    """The lines of the input: the last newline may be missing, and after it there is no line."""
    parts = data.split(b"\n")
    return parts[:-1] if parts[-1] == b"" else parts


def size_of(line):
    if not re.fullmatch(rb"[0-9]{1,20}", line) or int(line) >= 2**64:
        raise Bad
    return int(line)


def id_of(line):
    if not re.fullmatch(rb"-?[0-9]{1,19}", line) or not -(2**63) <= int(line) < 2**63:
        raise Bad
    return int(line)


def insert(chunks, x):
    if x < 0:
        return
    c, o = x >> S_BITS, x % 2**S_BITS
    if c in chunks and o in chunks[c][1]:
        return
    kind, members = chunks.get(c, ("sparse", frozenset()))
    members = members | {o}
    if len(members) > M:
        kind = "dense"
    after = dict(chunks)
    after[c] = (kind, members)
    if sum(k >= D for k in after) > V:
        raise Refused(6)
    if sum(k == "sparse" for k, _ in after.values()) > R:
        raise Refused(7)
    if sum(k == "dense" for k, _ in after.values()) > P:
        raise Refused(8)
    chunks[c] = after[c]


def answer(data):
    lines = lines_of(data)
    n = 1
    try:
        if not lines:
            raise Bad
        s = size_of(lines[0])
        chunks = {}
        for n, line in enumerate(lines[1:], 2):
            insert(chunks, id_of(line))
        members = sorted((c << S_BITS) + o for c, (_, m) in chunks.items() for o in m)
        total, s = len(members), max(1, s)
        parts = max(1, -(-total // s))
        if parts - 1 > ROOM:
            raise Refused(11)
    except Bad:
        return "bad line %d\n" % n
    except Refused as r:
        return "refused %d\n" % r.args[0]
    # the smallest id with k * s members strictly below it comes right after the (k * s)th member
    cuts = [members[k * s - 1] + 1 for k in range(1, parts)]
    out = ["plan %d %d" % (total, parts)]
    for k in range(parts):
        low = "min" if k == 0 else str(cuts[k - 1])
        high = "end" if k == parts - 1 else str(cuts[k])
        out.append("%d %s %s %d %d" % (k, low, high, k * s, min(s, total - k * s)))
    return "\n".join(out) + "\n"


if sys.argv[1:] == ["--all"]:
    here = os.path.dirname(os.path.abspath(__file__))
    for name in sorted(os.listdir(here)):
        if name.endswith(".in"):
            with open(os.path.join(here, name), "rb") as f:
                told = answer(f.read())
            with open(os.path.join(here, name[:-3] + ".out"), "w") as f:
                f.write(told)
else:
    sys.stdout.write(answer(sys.stdin.buffer.read()))
