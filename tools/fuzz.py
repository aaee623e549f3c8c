#!/usr/bin/env python3
"""Compares the exported check with the rules, on random card images.

fuzz.py [--seed S] [--count C] [--check PROGRAM]

Fails when an answer differs, and also when the images were too few to mean
much: of all, of a refusal, of a feature or of a place of the fault.
"""

import argparse
import random
import struct
import subprocess
import sys
from collections import Counter

import card
from card import EDGES, HEADER, IN_ENTRIES, IN_STARTS, ONE_WAY, OUT_ENTRIES
from card import OUT_STARTS, TWO_WAY
from make_examples import examples

LEAST_IMAGES = 20000
LEAST_EACH = 500  # accepted, of each refusal, and accepted with each feature
LEAST_AT_PLACE = 50
SHOWN = 5  # mismatches that are printed
TOP = 2**32 - 1


class Layout:
    """Where the tables of an image lie. The edges must lie in the image."""

    def __init__(self, image):
        self.kind, self.n, self.m, *self.at = struct.unpack_from("<8I", image)
        ends = struct.unpack_from(f"<{2 * self.m}I", image, self.at[EDGES])
        self.edges = list(zip(ends[0::2], ends[1::2]))
        self.d = card.count_entries(self.kind, self.edges)
        self.fields = [2 * self.m, self.n + 1, self.d, self.n + 1, self.d]

    def size(self, table):
        return 4 * self.fields[table]


# Images without a fault.


def random_graph(rng):
    """The kind, the number of nodes and the edges."""
    if rng.random() < 0.02:
        # Numbers that do not fit a byte.
        n, m = rng.randint(200, 400), rng.randint(200, 400)
    else:
        n = rng.choice((0, 1, 1, 2, 2, 3, 3, 4, 5, 6, 9))
        m = rng.choice((0, 1, 1, 2, 2, 3, 4, 5, 6, 9)) if n > 0 else 0
    edges = []
    for _ in range(m):
        draw = rng.random()
        if edges and draw < 0.2:
            edge = rng.choice(edges)
        elif edges and draw < 0.25:
            edge = rng.choice(edges)[::-1]
        elif draw < 0.4:
            edge = (rng.randrange(n),) * 2
        else:
            edge = rng.randrange(n), rng.randrange(n)
        edges.append(edge)
    return rng.randrange(2), n, edges


def edge_in_header(rng):
    """An image whose only edge is two of the offsets in the header."""
    kind = rng.randrange(2)
    d = 1 + kind
    out_entries, in_entries, low = HEADER, HEADER + 4 * d, HEADER + 8 * d
    n = rng.randint(low + 1, low + 60)
    starts = [low, low + 4 * (n + 1)]
    at = rng.choice((12, 16, 20, 24))
    # The start table whose offset is an end comes first, to be below N.
    out_starts, in_starts = starts if at < 20 else starts[::-1]
    offsets = [at, out_starts, out_entries, in_starts, in_entries]
    first = (at - 12) // 4
    return card.build(kind, n, [tuple(offsets[first : first + 2])], offsets=offsets)


def whole(rng):
    if rng.random() < 0.05:
        image = bytearray(edge_in_header(rng))
    else:
        kind, n, edges = random_graph(rng)
        order = list(range(5))
        if rng.random() < 0.5:
            rng.shuffle(order)
        longest_gap = rng.choice((0, 0, 9))
        image = bytearray(card.build(
            kind, n, edges, order=order,
            gaps=[rng.randbytes(rng.randint(0, longest_gap)) for _ in range(5)],
            shared=kind == TWO_WAY and rng.random() < 0.5,
            overlap=rng.random() < 0.35,
        ))
        if rng.random() < 0.2:
            image += rng.randbytes(rng.randint(1, 9))
        if not edges:
            # An empty table lies anywhere, just behind the last byte too.
            for table in (EDGES, OUT_ENTRIES, IN_ENTRIES):
                put(image, 12 + 4 * table, rng.choice((len(image), rng.randint(0, len(image)))))
                if card.judge(image) is not None:  # a table used that field
                    return whole(rng)
    return image


def whole_with_edges(rng):
    while True:
        image = whole(rng)
        if Layout(image).m > 0:
            return image


# Damage. Each takes an image and its layout before any damage.


def put(image, at, value):
    """Writes a number, unless the image was cut off before there."""
    if at + 4 <= len(image):
        image[at : at + 4] = card.numbers([value & TOP])


def get(image, at):
    return int.from_bytes(image[at : at + 4], "little")


def first_last_or_any(rng, fields):
    return rng.choice((0, fields - 1, rng.randrange(fields)))


def cut_header(rng, image, lay):
    del image[rng.choice((0, HEADER - 1, rng.randrange(HEADER))) :]


def spoil_kind(rng, image, lay):
    put(image, 0, rng.choice((2, 3, 256, 257, 65536, 2**31, TOP, rng.randint(2, TOP))))


def spoil_counts(rng, image, lay):
    which = rng.choice(("nodes", "edges", "both"))
    if which != "edges":
        least = card.MAX_NODES + 1
        put(image, 4, rng.choice((least, least + lay.n, 2**30 - 1, TOP, rng.randint(least, TOP))))
    if which != "nodes":
        least = card.MAX_EDGES + 1
        put(image, 8, rng.choice((least, least + lay.m, 2**29, TOP, rng.randint(least, TOP))))


def spoil_offset(rng, image, lay):
    table = rng.randrange(5)
    size, draw = lay.size(table), rng.random()
    if draw < 0.1:
        del image[len(image) - min(len(image), rng.randint(1, 9)) :]
    elif draw < 0.2:
        put(image, 4, card.MAX_NODES)
    elif draw < 0.3:
        put(image, 8, card.MAX_EDGES)
    else:
        beyond = max(0, len(image) - size) + 1
        # The last two end just at, or just beyond, what 32 bits can hold.
        put(image, 12 + 4 * table, rng.choice((
            beyond, beyond + rng.randrange(8), len(image) + 1, TOP,
            2**32 - size, 2**32 - size + rng.randrange(HEADER),
        )))


def move_table(rng, image, lay):
    """Points a table at other bytes of the image, or at its very end."""
    table = rng.randrange(5)
    last = max(0, len(image) - lay.size(table))
    put(image, 12 + 4 * table, rng.choice((last, rng.randint(0, last), rng.randint(0, last))))


def spoil_end(rng, image, lay):
    loops = [i for i, (tail, head) in enumerate(lay.edges) if tail == head]
    if lay.m == 0:
        return
    if loops and rng.random() < 0.3:
        # Still a self-loop, for the number of entries, but of no node.
        at = lay.at[EDGES] + 8 * rng.choice(loops)
        end = rng.choice((lay.n, TOP, rng.randint(lay.n, TOP)))
        put(image, at, end)
        put(image, at + 4, end)
        return
    at = lay.at[EDGES] + 4 * first_last_or_any(rng, 2 * lay.m)
    old = get(image, at)
    put(image, at, rng.choice((
        lay.n, lay.n + 1, TOP, old + 256 * lay.n, old + 2**16, old + 2**31,
        rng.randint(lay.n, TOP),
    )))


def spoil_start(rng, image, lay):
    table = rng.choice((OUT_STARTS, IN_STARTS))
    at = lay.at[table] + 4 * first_last_or_any(rng, lay.n + 1)
    old = get(image, at)
    put(image, at, rng.choice((
        old + 1, old - 1, lay.d + 1, old + 256, old + 2**16, old + 2**31, TOP,
        0, lay.d, rng.randint(0, lay.d),
    )))


def move_row(rng, image, lay):
    """Moves where a row starts, no further than where those beside it do."""
    if lay.n < 2:
        return
    at = lay.at[rng.choice((OUT_STARTS, IN_STARTS))] + 4 * rng.randint(1, lay.n - 1)
    before, after = get(image, at - 4), get(image, at + 4)
    if before <= after:
        put(image, at, rng.randint(before, after))


def spoil_entry(rng, image, lay):
    if lay.d == 0:
        return
    table, i = rng.choice((OUT_ENTRIES, IN_ENTRIES)), first_last_or_any(rng, lay.d)
    at = lay.at[table] + 4 * i
    old, beside = get(image, at), at - 4 if i > 0 else at + 4
    if lay.d > 1 and rng.random() < 0.2:
        # Trade places.
        put(image, at, get(image, beside))
        put(image, beside, old)
        return
    put(image, at, rng.choice((
        lay.m, lay.m + 1, TOP, old + 256, old + 2**16, old + 2**31,
        old + 1, old - 1, get(image, beside), rng.randrange(lay.m),
    )))


def spoil_bytes(rng, image, lay):
    for _ in range(rng.randint(1, 3)):
        if image:
            image[rng.randrange(len(image))] ^= rng.choice((1, 2, 4, 128, rng.randint(1, 255)))


def change_length(rng, image, lay):
    if rng.random() < 0.5:
        image += rng.randbytes(rng.randint(1, 9))
    else:
        del image[len(image) - min(len(image), rng.randint(1, 9)) :]


# The first of several refusals is the answer, so the later ones more often.
SEVERAL = [
    spoil_kind, spoil_counts, spoil_offset, move_table, spoil_end, spoil_end,
    spoil_start, spoil_start, spoil_start, move_row, spoil_entry, spoil_entry,
    spoil_entry, spoil_bytes, change_length,
]


def damaged(rng, damages, base=whole):
    image = base(rng)
    lay = Layout(image)
    for damage in damages:
        damage(rng, image, lay)
    return image


# Images of other origin.


def noise(rng):
    """Random bytes, or random small numbers that look like an image."""
    if rng.random() < 0.3:
        return rng.randbytes(rng.randint(0, 200))
    fields = rng.randint(8, 40)
    most = rng.choice((1, 2, 4))
    image = bytearray(card.numbers(
        [rng.randrange(2), rng.randint(0, 4), rng.randint(0, 3)]
        + [rng.randint(0, 4 * fields) for _ in range(5)]
        + [rng.randint(0, most) for _ in range(fields - 8)]
    ))
    return image + rng.randbytes(rng.choice((0, 0, 2)))


def tangled(rng):
    """The tables of a graph, each written over the others."""
    kind, n, edges = random_graph(rng)
    low = rng.choice((8, 12, HEADER, HEADER))
    step = rng.choice((1, 4))
    offsets = [low + step * rng.randrange(12) for _ in range(5)]
    return card.build(kind, n, edges, offsets=offsets)


def several(rng):
    return damaged(rng, rng.choices(SEVERAL, k=rng.randint(2, 4)), whole_with_edges)


def sweep(image):
    """The image cut at each byte, and with each of its fields replaced."""
    lay = Layout(image)
    for length in range(len(image)):
        yield image[:length]
    for at in range(0, len(image), 4):
        old = get(image, at)
        for value in {0, 1, 2, old + 1, old - 1, lay.n, lay.m, lay.d,
                      len(image), len(image) + 1, TOP} - {old}:
            other = bytearray(image)
            put(other, at, value)
            yield other


def large(rng):
    """The most nodes and edges, without a fault and with one at the end."""
    n, m = card.MAX_NODES, card.MAX_EDGES
    yield card.build(ONE_WAY, n, [], overlap=True)
    edges = [(rng.randrange(n), rng.randrange(n)) for _ in range(m - 2)]
    edges += [(n - 1, n - 1), (0, n - 1)]
    for kind in (ONE_WAY, TWO_WAY):
        image = card.build(kind, n, edges, shared=kind == TWO_WAY)
        yield image
        yield image[:-1]
        lay = Layout(image)
        for table, wrong in ((EDGES, n), (IN_STARTS, lay.d - 1), (IN_ENTRIES, m)):
            other = bytearray(image)
            put(other, lay.at[table] + lay.size(table) - 4, wrong)
            yield other


# How many in a hundred, and how they are made.
WAYS = [
    (30, whole),
    (4, lambda rng: damaged(rng, [cut_header])),
    (4, lambda rng: damaged(rng, [spoil_kind])),
    (5, lambda rng: damaged(rng, [spoil_counts])),
    (9, lambda rng: damaged(rng, [spoil_offset])),
    (4, lambda rng: damaged(rng, [move_table])),
    (7, lambda rng: damaged(rng, [spoil_end], whole_with_edges)),
    (9, lambda rng: damaged(rng, [spoil_start], whole_with_edges)),
    (3, lambda rng: damaged(rng, [move_row], whole_with_edges)),
    (9, lambda rng: damaged(rng, [spoil_entry], whole_with_edges)),
    (3, lambda rng: damaged(rng, [spoil_bytes])),
    (2, lambda rng: damaged(rng, [change_length])),
    (6, several),
    (3, noise),
    (2, tangled),
]


def make_images(rng, count):
    images = [other for image in examples().values() for other in sweep(image)]
    images += large(rng)
    weights, makers = zip(*WAYS)
    while len(images) < count:
        images.append(rng.choices(makers, weights)[0](rng))
    return images


# What the images are.

FEATURES = [
    "one-way", "two-way", "self-loops", "twins", "shared tables",
    "overlapping tables", "a table in the header", "an unaligned table",
    "no nodes", "no edges",
]


def features(image):
    """Those of an image whose tables lie inside it."""
    lay = Layout(image)
    tables = [t for t in range(5) if lay.size(t) > 0]
    ends = Counter(tuple(sorted(e)) if lay.kind == TWO_WAY else e for e in lay.edges)
    has = {
        "one-way": lay.kind == ONE_WAY,
        "two-way": lay.kind == TWO_WAY,
        "self-loops": any(tail == head for tail, head in lay.edges),
        "twins": len(ends) < lay.m,
        "shared tables": lay.kind == TWO_WAY and lay.d > 0
        and lay.at[OUT_STARTS] == lay.at[IN_STARTS]
        and lay.at[OUT_ENTRIES] == lay.at[IN_ENTRIES],
        # Of two tables that start at the same byte nothing is said.
        "overlapping tables": any(
            lay.at[a] < lay.at[b] < lay.at[a] + lay.size(a) for a in tables for b in tables
        ),
        "a table in the header": any(lay.at[t] < HEADER for t in tables),
        "an unaligned table": any(lay.at[t] % 4 != 0 for t in tables),
        "no nodes": lay.n == 0,
        "no edges": lay.m == 0,
    }
    return [name for name in FEATURES if has[name]]


PLACES = {
    1: {"empty": 0, "31 bytes": 31},
    3: {"nodes": 4, "edges": 8},
    4: {"edges": 12, "out starts": 16, "out entries": 20, "in starts": 24, "in entries": 28},
    5: {"first": (EDGES, 0), "last": (EDGES, -1)},
    6: {"first out": (OUT_STARTS, 0), "last out": (OUT_STARTS, -1),
        "first in": (IN_STARTS, 0), "last in": (IN_STARTS, -1)},
    7: {"first out": (OUT_ENTRIES, 0), "last out": (OUT_ENTRIES, -1),
        "first in": (IN_ENTRIES, 0), "last in": (IN_ENTRIES, -1)},
}


def place_of(image, number, offset):
    """The name in PLACES of where the fault is, if it has one."""
    for name, place in PLACES.get(number, {}).items():
        if isinstance(place, tuple):
            lay = Layout(image)
            table, field = place
            place = lay.at[table] + 4 * (field % lay.fields[table])
        if offset == place:
            return name
    return None


# The comparison.


def ask(program, images):
    """The answers of the program, and what went wrong with it, if anything."""
    batch = b"".join(len(i).to_bytes(4, "little") + i for i in images)
    try:
        run = subprocess.run([program, "-"], input=batch, stdout=subprocess.PIPE, timeout=300)
    except (OSError, subprocess.TimeoutExpired) as error:
        return [], [f"{program} did not run: {error}"]
    answers = [int(line) for line in run.stdout.split()]
    faults = []
    if run.returncode != 0:
        faults.append(f"{program} ended with status {run.returncode}")
    if len(answers) != len(images):
        faults.append(f"{len(answers)} answers to {len(images)} images")
        if len(answers) < len(images):
            faults.append(f"the first without: {show(images[len(answers)])}")
    return answers, faults


def show(image):
    text = bytes(image[:500]).hex()
    return f"{len(image)} bytes {text}{'...' if len(image) > 500 else ''}"


def show_answer(answer):
    return f"refused {answer >> 32} at {answer & TOP}" if answer else "accepted"


def main():
    parser = argparse.ArgumentParser(description="Compares the exported check with the rules.")
    parser.add_argument("--seed", type=int, default=20240229)
    parser.add_argument("--count", type=int, default=24000)
    parser.add_argument("--check", default="target/interop/check", metavar="PROGRAM")
    options = parser.parse_args()

    images = make_images(random.Random(options.seed), options.count)
    numbers, places = Counter(), Counter()
    accepted, refused = Counter(), Counter()
    expected = []
    for image in images:
        number, offset = card.judge(image) or (0, 0)
        expected.append(number << 32 | offset)
        numbers[number] += 1
        if number in PLACES:
            places[number, place_of(image, number, offset)] += 1
        if number == 0:
            accepted.update(features(image))
        elif number >= 5:
            refused.update(features(image))
    answers, faults = ask(options.check, images)
    wrong = [i for i, (e, a) in enumerate(zip(expected, answers)) if e != a]

    print(f"seed {options.seed}, {len(images)} images")
    if len(images) < LEAST_IMAGES:
        faults.append(f"under {LEAST_IMAGES} images")
    for number in range(8):
        name = f"refused {number}" if number else "accepted"
        line = f"{name:22} {numbers[number]:6}"
        if numbers[number] < LEAST_EACH:
            faults.append(f"under {LEAST_EACH} images are {name}")
        for place in PLACES.get(number, {}):
            line += f"  {place} {places[number, place]}"
            if places[number, place] < LEAST_AT_PLACE:
                faults.append(f"under {LEAST_AT_PLACE} images are {name} at: {place}")
        print(line)
    print("with                 accepted  refused 5 to 7")
    for name in FEATURES:
        print(f"{name:22} {accepted[name]:6}  {refused[name]:6}")
        if accepted[name] < LEAST_EACH:
            faults.append(f"under {LEAST_EACH} accepted images have: {name}")
    print(f"mismatches {len(wrong)}")
    for i in wrong[:SHOWN]:
        print(f"  image {i}: {show(images[i])}")
        print(f"    the rules: {show_answer(expected[i])}; the check: {show_answer(answers[i])}")
    if wrong:
        faults.append(f"{len(wrong)} mismatches")
    for fault in faults:
        print(f"FAIL: {fault}")
    if not faults:
        print("PASS")
    sys.exit(1 if faults else 0)


if __name__ == "__main__":
    main()
