"""Card images: the bytes of a graph. A builder, and a judge of the rules.

Every number is 32 bits, little-endian. The header has eight: the kind (0
one-way, 1 two-way), the number of nodes N, the number of edges M, and the byte
offsets of five tables: the edges (a tail and a head each), the out starts, the
out entries, the in starts and the in entries. A start table has N + 1 numbers,
and row a has the entries from start[a] up to start[a + 1]. An entry is the
number of an edge.
"""

import struct

ONE_WAY, TWO_WAY = 0, 1
HEADER = 32
MAX_NODES = 65535
MAX_EDGES = 262144
EDGES, OUT_STARTS, OUT_ENTRIES, IN_STARTS, IN_ENTRIES = range(5)


def numbers(values):
    return struct.pack(f"<{len(values)}I", *values)


def count_entries(kind, edges):
    """How many entries each entry table has."""
    if kind == ONE_WAY:
        return len(edges)
    return 2 * len(edges) - sum(tail == head for tail, head in edges)


# The builder.


def row_tables(n, due):
    """The start table and the entry table, where `due` says for each edge in
    which rows it is."""
    rows = [[] for _ in range(n)]
    for edge, nodes in enumerate(due):
        for node in nodes:
            rows[node].append(edge)
    starts, entries = [0], []
    for row in rows:
        entries += row
        starts.append(len(entries))
    return numbers(starts), numbers(entries)


def tables(kind, n, edges):
    """The bytes of the five tables, in the order of the header."""
    ends = numbers([end for edge in edges for end in edge])
    if kind == ONE_WAY:
        outs = row_tables(n, [{tail} for tail, _ in edges])
        ins = row_tables(n, [{head} for _, head in edges])
    else:
        outs = ins = row_tables(n, [{tail, head} for tail, head in edges])
    return [ends, *outs, *ins]


def place(image, table, floor):
    """Where a table goes that may use bytes which are there from `floor` on."""
    at = image.find(table, floor)
    if at >= 0:
        return at
    for common in range(min(len(table), len(image) - floor), 0, -1):
        if image.endswith(table[:common]):
            return len(image) - common
    return len(image)


def write(image, at, table):
    image.extend(bytes(max(0, at + len(table) - len(image))))
    image[at : at + len(table)] = table


def build(kind, n, edges, *, order=range(5), gaps=(b"",) * 5, shared=False,
          overlap=False, offsets=None):
    """The image of a graph whose edges are given as (tail, head).

    The tables follow the header in `order`, each after its bytes of `gaps`.
    `shared`: the in tables are the out tables (for a two-way graph).
    `overlap`: a table also uses equal bytes that are already there, those of
    the header too. `offsets`: each table is written just there, over what was
    there before; the image may then be a wrong one.
    """
    parts = tables(kind, n, edges)
    # Overlap with the header first. Its offsets change while tables are
    # placed, so see that every table is still right, or stay clear of it.
    for floor in (0, HEADER):
        image = bytearray(numbers([kind, n, len(edges)] + [0] * 5))
        for t in order:
            if offsets is not None:
                at = offsets[t]
            elif shared and t in (IN_STARTS, IN_ENTRIES):
                continue
            else:
                image += gaps[t]
                at = place(image, parts[t], floor) if overlap else len(image)
            write(image, at, parts[t])
            image[12 + 4 * t : 16 + 4 * t] = numbers([at])
        if shared:
            image[24:32] = image[16:24]
        if not overlap or all(
            image[at : at + len(part)] == part
            for at, part in zip(struct.unpack_from("<5I", image, 12), parts)
        ):
            break
    return bytes(image)


# The judge.


def judge(image):
    """None for a card image, else the number and the offset of its refusal."""
    length = len(image)
    if length < HEADER:
        return 1, length
    kind, n, m, *offsets = struct.unpack_from("<8I", image)
    if kind > 1:
        return 2, 0
    if n > MAX_NODES:
        return 3, 4
    if m > MAX_EDGES:
        return 3, 8

    # Each table lies in the image. The edges are the first, for the rest
    # depend on how many entries there are.
    limit = min(length, 2**32)
    if offsets[EDGES] + 8 * m > limit:
        return 4, 12
    ends = struct.unpack_from(f"<{2 * m}I", image, offsets[EDGES])
    edges = list(zip(ends[0::2], ends[1::2]))
    d = count_entries(kind, edges)
    sizes = [8 * m, 4 * (n + 1), 4 * d, 4 * (n + 1), 4 * d]
    for t in range(5):
        if offsets[t] + sizes[t] > limit:
            return 4, 12 + 4 * t

    for i, end in enumerate(ends):
        if end >= n:
            return 5, offsets[EDGES] + 4 * i

    all_starts = {}
    for t in (OUT_STARTS, IN_STARTS):
        starts = struct.unpack_from(f"<{n + 1}I", image, offsets[t])
        all_starts[t] = starts
        before = 0
        for i, start in enumerate(starts):
            wrong = (
                (i == 0 and start != 0)
                or start < before
                or start > d
                or (i == n and start != d)
            )
            if wrong:
                return 6, offsets[t] + 4 * i
            before = start

    for t in (OUT_ENTRIES, IN_ENTRIES):
        starts = all_starts[t - 1]
        entries = struct.unpack_from(f"<{d}I", image, offsets[t])
        for node in range(n):
            for i in range(starts[node], starts[node + 1]):
                entry = entries[i]
                wrong = (
                    entry >= m
                    or not is_due(kind, t, edges[entry], node)
                    or (i > starts[node] and entry <= entries[i - 1])
                )
                if wrong:
                    return 7, offsets[t] + 4 * i
    return None


def is_due(kind, table, edge, node):
    """Whether the edge is to stand in the node's row of the entry table."""
    tail, head = edge
    if kind == TWO_WAY:
        return node in (tail, head)
    return node == (tail if table == OUT_ENTRIES else head)
