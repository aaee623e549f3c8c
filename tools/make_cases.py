#!/usr/bin/env python3
"""Writes the image cases: make_cases.py DIRECTORY

`stdin` has an image to a line, in the words that the program image_cases reads,
and `stdout` what it should print, as the judge of card.py and the builder's own
lists decide it.
"""

import os
import struct
import sys

import card
from card import ONE_WAY, TWO_WAY, build, judge, numbers


def put(image, at, *values):
    """The image with other numbers from a byte on."""
    data = numbers(values)
    return image[:at] + data + image[at + len(data) :]


def offset(image, table):
    return struct.unpack_from("<I", image, 12 + 4 * table)[0]


CHAIN = build(ONE_WAY, 3, [(0, 1), (1, 2)])
# A self-loop, twins and a node without edges, of both kinds.
EDGES = [(0, 1), (1, 1), (0, 1), (2, 0), (1, 2), (1, 2)]
ONE = build(ONE_WAY, 4, EDGES)
TWO = build(TWO_WAY, 4, EDGES)
SHARED = build(TWO_WAY, 4, EDGES, shared=True)


def faults(name, image, n, m, d):
    """Each of 5 to 7 at its first and at its last possible field."""
    ends, out_starts, outs, in_starts, ins = (offset(image, t) for t in range(5))
    yield f"{name}-first-tail", put(image, ends, n)
    yield f"{name}-last-head", put(image, ends + 8 * m - 4, n)
    yield f"{name}-last-head-large", put(image, ends + 8 * m - 4, 2**32 - 1)
    for way, starts, entries in ("out", out_starts, outs), ("in", in_starts, ins):
        last = struct.unpack_from("<I", image, starts + 4 * n - 4)[0]
        yield f"{name}-{way}-first-start", put(image, starts, 1)
        yield f"{name}-{way}-second-start-falls", put(image, starts + 4, d, 0)
        yield f"{name}-{way}-last-start-short", put(image, starts + 4 * n, d - 1)
        yield f"{name}-{way}-last-start-long", put(image, starts + 4 * n, d + 1)
        yield f"{name}-{way}-start-passes", put(image, starts + 4 * n - 4, d + 1)
        yield f"{name}-{way}-start-huge", put(image, starts + 4, 2**32 - 1)
        yield f"{name}-{way}-first-entry-none", put(image, entries, m)
        yield f"{name}-{way}-last-entry-none", put(image, entries + 4 * d - 4, m)
        yield f"{name}-{way}-last-entry-huge", put(image, entries + 4 * d - 4, 2**32 - 1)
        first = struct.unpack_from("<I", image, entries)[0]
        yield f"{name}-{way}-entry-twice", put(image, entries + 4, first)
    yield f"{name}-all-at-once", put(put(put(image, ends, n), out_starts, 1), outs, m)
    yield f"{name}-start-before-entry", put(put(image, in_starts, 1), outs, m)


def small_cases():
    yield "show-chain", CHAIN
    yield "chain-cut", CHAIN[:95]
    yield "chain-long", CHAIN + b"\x07"
    for length in 0, 1, 31:
        yield f"length-{length}", bytes(length)
    yield "show-length-32", bytes(32)
    for kind in 2, 256, 2**32 - 1:
        yield f"kind-{kind}", put(CHAIN, 0, kind)
    yield "kind-and-nodes", put(CHAIN, 0, 2, 65536)
    for n in 65536, 2**32 - 1:
        yield f"nodes-{n}", put(CHAIN, 4, n)
    for m in 262145, 2**32 - 1:
        yield f"edges-{m}", put(CHAIN, 8, m)
    yield "nodes-and-edges", put(CHAIN, 4, 65536, 262145)
    # Each table ends at the last byte, or passes it.
    names = ["ends", "out-starts", "out-entries", "in-starts", "in-entries"]
    sizes = [16, 16, 8, 16, 8]
    parts = card.tables(ONE_WAY, 3, [(0, 1), (1, 2)])
    for t, (name, size) in enumerate(zip(names, sizes)):
        moved = put(CHAIN, 12 + 4 * t, 96) + parts[t]
        yield f"{name}-to-the-end", moved
        yield f"{name}-past-the-end", moved[:-1]
        # A 32-bit sum of offset and size would be small.
        yield f"{name}-wraps", put(CHAIN, 12 + 4 * t, 2**32 - size)
        yield f"{name}-wraps-more", put(CHAIN, 12 + 4 * t, 2**32 - 1)
    yield "two-tables-out", put(CHAIN, 16, 96, 96)
    # Overlapping, in the header, unaligned.
    yield "show-all-in-header", put(bytes(32), 12, 8, 8, 8, 8, 8)
    yield "show-overlap", build(ONE_WAY, 1, [(0, 0), (0, 0)], overlap=True)
    yield "show-overlap-two", build(TWO_WAY, 2, [(0, 1), (0, 1)], overlap=True)
    yield "show-unaligned", build(ONE_WAY, 3, [(0, 1), (1, 2)], gaps=(b"\1", b"\2\2", b"", b"\3\3\3", b"\4"))
    # No edges: the empty tables may lie at the end, and no further.
    none = put(bytes(44), 0, 0, 2, 0, 44, 32, 44, 32, 44)
    yield "show-empty-at-end", none
    yield "empty-ends-past", put(none, 12, 45)
    yield "empty-out-entries-past", put(none, 20, 45)
    yield "empty-in-entries-past", put(none, 28, 45)
    yield "no-nodes-start", put(put(bytes(36), 0, 0, 0, 0, 36, 32, 36, 32, 36), 32, 5)
    yield "no-nodes-edge", put(bytes(96), 8, 1)
    # A stored self-loop counts for D, whether or not it is a node.
    loop = build(TWO_WAY, 2, [(1, 1)])
    yield "show-two-way-loop", loop
    yield "loop-past-nodes", put(loop, offset(loop, 0), 7, 7)
    yield "loop-past-nodes-cut", put(loop, offset(loop, 0), 7, 7)[:-1]
    yield "ends-past-nodes", put(loop, offset(loop, 0), 7, 8)
    yield "show-one", ONE
    yield "show-two", TWO
    yield "show-shared", SHARED
    yield "one-sets-as-two", put(ONE, 0, 1)
    yield "two-sets-as-one", put(TWO, 0, 0)
    for name, image, d in ("one", ONE, 6), ("two", TWO, 11), ("shared", SHARED, 11):
        yield from faults(name, image, 4, 6, d)


def words(image):
    """The image in the words of a line; a last part of a number too."""
    whole = image + bytes(-len(image) % 4)
    return [str(len(image)), *map(str, struct.unpack(f"<{len(whole) // 4}I", whole))]


def large_cases():
    """Cases at the limits: words for the line, and the same image."""
    n, m = card.MAX_NODES, card.MAX_EDGES
    size = 32 + 4 * (n + 1)
    line = [size, 0, n, 0, 32, 32, 32, 32, 32]
    yield "nodes-most", line, numbers(line[1:]) + bytes(size - 32)
    line = [size - 1] + line[1:]
    yield "nodes-most-cut", line, numbers(line[1:]) + bytes(size - 33)
    # m self-loops at node 0: the edge table is all zero.
    for name, kind in ("edges-most", 0), ("edges-most-two-way", 1):
        ends, starts, entries = 32, 32 + 8 * m, 40 + 8 * m
        size = entries + 4 * m
        head = [kind, 1, m, ends, starts, entries, starts, entries]
        image = numbers(head) + bytes(8 * m) + numbers([0, m]) + numbers(list(range(m)))
        line = [size, *head, f"@{starts}", 0, m, 0, f"+{m - 1}"]
        yield name, line, image
        yield name + "-last-entry", line + [f"@{size - 4}", m - 2], put(image, size - 4, m - 2)
        yield name + "-last-end", line + [f"@{starts - 4}", 1], put(image, starts - 4, 1)
    # All nodes and all edges: edge e from e to e, then from the last node to itself.
    starts, entries = 32 + 8 * m, 32 + 8 * m + 4 * (n + 1)
    size = entries + 4 * m
    head = [0, n, m, 32, starts, entries, starts, entries]
    tail = [min(e, n - 1) for e in range(m)]
    image = (numbers(head) + numbers([end for t in tail for end in (t, t)])
             + numbers(list(range(n)) + [m]) + numbers(list(range(m))))
    assert judge(image) is None
    line = [size, *head, f"@{starts}", 0, f"+{n - 1}", m, 0, f"+{m - 1}"]
    # Without the ends every edge is a self-loop of node 0, so node 1's row is the first at fault.
    bare = numbers(head) + bytes(8 * m) + image[starts:]
    yield "rows-not-due", line, bare


def show(image):
    """What the graph's questions answer."""
    kind, n, m, *offsets = struct.unpack_from("<8I", image)
    ends = struct.unpack_from(f"<{2 * m}I", image, offsets[0])
    edges = list(zip(ends[0::2], ends[1::2]))
    yield f"  {['one-way', 'two-way'][kind]}, {n} nodes, {m} edges"
    for e, (tail, head) in enumerate(edges):
        yield f"  edge {e}: {tail} {head}"
    yield f"  edge {m}: none"
    for a in range(n + 1):
        yield f"  node {a}: {'true' if a < n else 'false'}"
        for way, near in ("out", 0), ("in", 1):
            due = [e for e, edge in enumerate(edges) if edge[near] == a or (kind == TWO_WAY and a in edge)]
            row = "".join(f" {p}:{e}:{edges[e][1] if edges[e][0] == a else edges[e][0]}" for p, e in enumerate(due))
            yield f"  {way} {a}:{row}"


def main():
    if len(sys.argv) != 2:
        sys.exit("usage: make_cases.py DIRECTORY")
    cases = [(name, words(image), image) for name, image in small_cases()]
    cases += large_cases()
    assert len({name for name, _, _ in cases}) == len(cases)
    lines, answers = [], []
    for name, line, image in cases:
        lines.append(" ".join([name, *map(str, line)]))
        fault = judge(image)
        answers.append(f"{name}: accepted" if fault is None else f"{name}: refused {fault[0]} at byte {fault[1]}")
        if fault is None and name.startswith("show-"):
            answers += show(image)
        assert fault is None or not name.startswith("show-"), name
    for file, text in ("stdin", lines), ("stdout", answers):
        with open(os.path.join(sys.argv[1], file), "w") as out:
            out.write("\n".join(text) + "\n")


if __name__ == "__main__":
    main()
