#!/usr/bin/env python3
"""Writes the example cards into data/, and what cardplan has to say of one of them: make_examples.py DIRECTORY

small.card      one-way, 0 -> 1 and 1 -> 2, the tables in the order of the header
pairs.card      two-way, 5 nodes, a doubled link, a self-loop and a node without
                links; both directions share one start table and one entry table
broken.card     small.card with byte 92 changed from 1 to 0: the last in entry,
                in the row of node 2, names edge 0 -> 1. Refused 7 at byte 92
circle.card     one-way, 0 -> 1, 1 -> 2, 2 -> 1: no order, 2 is on a cycle
recording.card  one-way, a card that was recorded on for some time
changed.bits    its blocks that are not on the card yet: the latest clips, the
                clips that were trimmed, and the directory

The file stdout has what cardplan prints for recording.card and changed.bits, by
the rules and not by the program; args has the two names.
"""

import os
import random
import struct
import sys

import card

BROKEN_AT = 92
BLOCKS = 3000
DIRECTORY = 4
EXTENTS_PER_INDEX = 24
LATEST, TRIMMED = 9, 5


class Recording:
    """A card in continuous recording: its links, each from a block to one that it needs on the card first.

    The first blocks are the directory. Clips take the blocks behind it in turn, from a place in
    the middle on, and two streams that are recorded at once take turns by short runs. The extents of a
    group are read by way of the group's first one. An index block names up to
    24 extents and the index block before it, and the last of a clip names its thumbnail. A clip that goes
    on with the one before it needs that one's last index block. A directory block names clips.
    """

    def __init__(self, chance):
        self.chance = chance
        start = chance.randrange(BLOCKS // 4, BLOCKS // 2)
        self.free = [*range(start, BLOCKS), *range(DIRECTORY, start)]
        self.free.reverse()
        self.links = []
        self.clips = []

    def record(self, sizes):
        """Clips that are recorded at once: how many extents each has."""
        clips = [[] for _ in sizes]
        while any(len(clip) < size for clip, size in zip(clips, sizes)):
            for clip, size in zip(clips, sizes):
                run = min(self.chance.randint(2, 6), size - len(clip))
                clip += [self.free.pop() for _ in range(run)]
        for extents in clips:
            self.close(extents)

    def close(self, extents):
        """The links of a clip's extents, and its index blocks and thumbnail."""
        key = 0
        for place, extent in enumerate(extents):
            if place - key >= self.chance.randint(4, 9):
                key = place
            if place > key:
                self.links.append((extent, extents[key]))
            if place > key + 1:
                self.links.append((extent, extents[place - 1]))
        thumbnail = self.free.pop()
        self.links.append((thumbnail, extents[0]))
        goes_on = bool(self.clips) and self.chance.random() < 0.3
        before = self.clips[-1][-1] if goes_on else None
        blocks = [*extents, thumbnail]
        for first in range(0, len(extents), EXTENTS_PER_INDEX):
            index = self.free.pop()
            self.links += [(index, extent) for extent in extents[first : first + EXTENTS_PER_INDEX]]
            if before is not None:
                self.links.append((index, before))
            before = index
            blocks.append(index)
        self.links.append((before, thumbnail))
        self.clips.append(blocks)

    def fill(self):
        """Records until few blocks are free, then writes the directory."""
        while len(self.free) > 240:
            self.record([self.chance.randint(8, 70) for _ in range(self.chance.choice([1, 1, 2]))])
        for number, blocks in enumerate(self.clips):
            self.links.append((number % DIRECTORY, blocks[-1]))
        self.links += [(0, other) for other in range(1, DIRECTORY)]

    def changed(self):
        """The blocks that are not on the card yet, as bits."""
        blocks = set(range(DIRECTORY))
        for clip in self.clips[-LATEST:]:
            blocks.update(clip)
        for clip in self.chance.sample(self.clips[:-LATEST], TRIMMED):
            blocks.update(clip[-self.chance.randint(2, 5) :])
        bits = sum(1 << block for block in blocks)
        return bits.to_bytes((BLOCKS + 7) // 8, "little")


def recording():
    """The card of the recording and its changed blocks."""
    made = Recording(random.Random(5))
    made.fill()
    # The card keeps its links in no order of the clips.
    made.chance.shuffle(made.links)
    return card.build(card.ONE_WAY, BLOCKS, made.links), made.changed()


def examples():
    small = card.build(card.ONE_WAY, 3, [(0, 1), (1, 2)])
    links = [(0, 1), (1, 2), (1, 2), (2, 3), (3, 3)]
    pairs = card.build(card.TWO_WAY, 5, links, shared=True)
    broken = small[:BROKEN_AT] + b"\0" + small[BROKEN_AT + 1 :]
    circle = card.build(card.ONE_WAY, 3, [(0, 1), (1, 2), (2, 1)])
    assert len(small) == 96 and small[BROKEN_AT] == 1
    assert card.judge(small) is None and card.judge(pairs) is None and card.judge(circle) is None
    assert card.judge(broken) == (7, BROKEN_AT)
    return {"small.card": small, "pairs.card": pairs, "broken.card": broken, "circle.card": circle}


def write_order(blocks, rows):
    """The finishing order of a depth-first search, reversed: blocks ascending,
    each row from its last entry to its first."""
    found, finished = set(), []

    def visit(block):
        found.add(block)
        for far in reversed(rows[block]):
            if far not in found:
                visit(far)
        finished.append(block)

    for block in blocks:
        if block not in found:
            visit(block)
    return finished[::-1]


def changed_order(image, changed):
    """The write order of the changed blocks. A row has those that need a block."""
    bits = int.from_bytes(changed, "little")
    blocks = [block for block in range(BLOCKS) if bits >> block & 1]
    count, at = struct.unpack_from("<2I", image, 8)
    ends = struct.unpack_from(f"<{2 * count}I", image, at)
    rows = {block: [] for block in blocks}
    links = [(tail, head) for tail, head in zip(ends[0::2], ends[1::2]) if tail in rows and head in rows]
    for tail, head in links:
        rows[head].append(tail)
    order = write_order(blocks, rows)
    place = {block: i for i, block in enumerate(order)}
    assert len(place) == len(blocks) and all(place[head] < place[tail] for tail, head in links)
    return order


def said(name, image, changed):
    """What cardplan prints for a one-way card whose tables are in the order of the header."""
    count, *offsets = struct.unpack_from("<6I", image, 8)
    yield f"card: {name}"
    yield f"size: {len(image)} bytes"
    yield from ("kind: one-way", f"blocks: {BLOCKS}", f"links: {count}", "tables:")
    names = ["links", "out starts", "out entries", "in starts", "in entries"]
    for table, at, end in zip(names, offsets, [*offsets[1:], len(image)]):
        yield f"  {table}: {end - at} bytes at byte {at}"
    yield f"accepted: one-way, {BLOCKS} blocks, {count} links"
    order = changed_order(image, changed)
    yield f"changed: {len(order)} of {BLOCKS} blocks"
    yield f"order: {len(order)} blocks"
    for first in range(0, len(order), 16):
        yield "  " + " ".join(map(str, order[first : first + 16]))
    yield "weak links and blocks: asked of two-way cards only"


def main():
    if len(sys.argv) != 2:
        sys.exit("usage: make_examples.py DIRECTORY")
    sys.setrecursionlimit(2 * BLOCKS)
    image, changed = recording()
    assert card.judge(image) is None
    lines = "\n".join([*said("recording.card", image, changed), ""])
    data = {**examples(), "recording.card": image, "changed.bits": changed}
    files = {os.path.join("data", name): content for name, content in data.items()}
    files |= {"stdout": lines.encode(), "args": b"recording.card\nchanged.bits\n"}
    os.makedirs(os.path.join(sys.argv[1], "data"), exist_ok=True)
    for name, content in files.items():
        with open(os.path.join(sys.argv[1], name), "wb") as file:
            file.write(content)


if __name__ == "__main__":
    main()
