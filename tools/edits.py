#!/usr/bin/env python3
"""Lines for the edits program: the edits at every kind of edge, on stores of several geometries.

    tools/edits.py > LINES              the lines: "=" and a geometry, or a compound in hexadecimal
    tools/edits.py --check ANSWERS      compares the answers to LINES with what document 01 says of them

A status, and used and owed blocks where they are given, are worked out by hand from document 01.
"""
import collections
import sys

from frames import (BADXDR, DATA, FBIG, HOLE, INVAL, LAST, NOSPC, NXIO, OK, STALE, allocate, both, clone, compound,
                    copy, deallocate, on, putfh, read, read_plus, savefh, seek, text, u32, u64, walk,
                    write)
from wire_check import Damaged, decode_reply, lines_of

BLOCKS = (512, 1024, 2048, 4096)
TOO_LARGE, GEOMETRY, HEADER, LINE = "too large", "-1", "-6", "-7"

# A line; the status of its reply, or what is answered instead; used and owed; the reply's last bytes.
Case = collections.namedtuple("Case", "line status counts tail", defaults=(None, b""))


def store(files, slots, blocks, block, answer=None):
    line = f"={files:04x}{slots:04x}{blocks:04x}{block:04x}"
    return Case(line, answer or line)


def ok(line, *counts, tail=b""):
    return Case(line, OK, counts or None, tail)


def fails(status, line, *counts):
    return Case(line, status, counts or None)


def whole(size):
    """Reads of a file of that size."""
    return [read_plus(at, 2048) for at in range(0, size, 2048)]


# Document 01, "Both sides of the line"

def sides():
    p1 = ok(on(0, allocate(0, 1024)), 0, 2)
    p3 = ok(on(0, write(0, b"x")), 1, 1)
    slot = both(0, 1, clone(0, 0, 512))
    yield store(4, 16, 2, 512)
    yield p1
    yield fails(NOSPC, on(1, write(0, b"x")), 0, 2)  # P2
    yield p3
    yield fails(NOSPC, slot, 1, 1)  # P4
    yield store(4, 16, 3, 512)
    yield p1
    yield p3
    yield ok(slot, 1, 2)  # P5
    yield ok(on(0, write(0, b"y")), 2, 1)  # P6
    yield ok(compound(putfh(0), read(0, 2), putfh(1), read(0, 2)), 2, 1)
    yield store(4, 16, 2, 512)
    yield fails(INVAL, on(0, allocate(0, 0)), 0, 0)  # P7
    yield ok(on(1, allocate(0, 512)), 0, 1)
    yield ok(on(1, seek(0, DATA)), 0, 1, tail=u32(1) + u64(512))  # P8
    yield ok(on(2, write(511, b"x"), deallocate(0, 512)), 0, 1)
    yield ok(on(2, seek(0, DATA)), 0, 1, tail=u32(1) + u64(512))  # P8, nothing reserved
    yield ok(on(2, read(512, 0)), 0, 1, tail=u32(1) + u32(0))  # P9
    yield ok(on(2, read(511, 0)), 0, 1, tail=u32(0) + u32(0))
    yield ok(on(3, read(0, 0)), 0, 1, tail=u32(1) + u32(0))  # P9, an empty file
    yield store(4, 16, 2, 512)
    yield ok(on(0, write(0, text(200))), 1, 0)  # P10
    yield fails(INVAL, both(0, 1, clone(0, 0, 100)), 1, 0)
    yield ok(both(0, 1, clone(0, 0, 200)), 1, 0)
    yield ok(on(1, read(0, 201)), 1, 0)


# Blocks that are shared inside one file

def self_shared(block):
    """Slot 1 is a clone of slot 0."""
    first, again = on(0, write(0, b"first")), both(0, 0, clone(0, block, block))
    sized, over = on(0, write(block - 1, b"!")), on(0, write(block - 2, b"over"), read_plus(block - 4, 8), read(0, 6))
    yield store(1, 4, 1, block)
    yield ok(first, 1, 0)
    yield fails(INVAL, again, 1, 0)  # past the source size
    yield ok(sized, 1, 0)
    yield ok(again, 1, 0)
    yield fails(NOSPC, over, 1, 0)  # both slots
    yield fails(NOSPC, on(0, write(0, b"x")), 1, 0)
    yield fails(NOSPC, on(0, write(2 * block - 1, b"x")), 1, 0)
    yield fails(NOSPC, on(0, deallocate(1, 1)), 1, 0)
    yield fails(NOSPC, on(0, allocate(0, 1)), 1, 0)  # owed 1
    yield ok(on(0, deallocate(0, block), read_plus(0, 8), read_plus(block - 2, 8)), 1, 0)  # one of two
    yield ok(on(0, write(block, b"alone"), read(block, 6)), 1, 0)
    yield ok(on(0, deallocate(block + 1, block), read_plus(block - 1, 8)), 1, 0)  # in part: no copy is due
    yield ok(on(0, deallocate(block, 2 * block), seek(0, DATA)), 0, 0)
    yield store(1, 4, 2, block)
    yield ok(first)
    yield ok(sized)
    yield ok(again, 1, 0)
    yield ok(over, 2, 0)  # the first slot takes a copy, the second keeps its block
    yield ok(again, 1, 0)
    yield ok(on(0, deallocate(1, block - 2), read_plus(0, 8), read_plus(block - 4, 16)), 2, 0)  # one of two, in part
    yield ok(both(0, 0, clone(block, 0, block), clone(0, 2 * block, 2 * block)), 1, 0)  # four slots
    yield fails(NOSPC, on(0, write(block - 1, b"xy")), 1, 0)
    yield fails(NOSPC, on(0, deallocate(1, 2 * block - 2)), 1, 0)
    yield ok(on(0, deallocate(1, 3 * block), read_plus(0, 4), read_plus(3 * block - 2, 8)), 2, 0)  # two edges share
    yield ok(both(0, 0, clone(0, 3 * block, block), write(3 * block + 1, b"end"), *whole(4 * block)[:1]), 2, 0)
    yield fails(INVAL, both(0, 0, clone(0, block, 2 * block)), 2, 0)  # overlapping
    yield ok(both(0, 0, clone(0, 2 * block, 2 * block), read_plus(2 * block, 8), read_plus(3 * block, 8)), 1, 0)


def self_shared_reserved(block):
    """Slots 0 and 1 are reserved, and slot 1 is a clone of slot 0."""
    both_slots = on(0, allocate(0, 2 * block), write(0, b"ab"), write(block, b"cd"))
    again = both(0, 0, clone(0, block, block))
    yield store(1, 4, 2, block)
    yield ok(both_slots, 2, 0)
    yield fails(NOSPC, again, 2, 0)  # 1 used, 2 owed
    yield ok(on(0, read(0, 4), read(block, 4)), 2, 0)
    yield store(1, 4, 3, block)
    yield ok(both_slots, 2, 0)
    yield ok(again, 1, 2)
    yield fails(NOSPC, both(0, 0, clone(0, 2 * block, block), allocate(2 * block, 1)), 1, 2)
    yield ok(on(0, write(block - 1, b"ef"), read_plus(block - 3, 8), read(0, 4)), 3, 0)  # slot 2 holds the block too
    yield ok(on(0, write(0, b"gh"), read(0, 4), read(2 * block, 4)), 3, 0)
    yield ok(on(0, deallocate(2 * block, 1), read_plus(2 * block - 2, 4)), 3, 0)
    yield ok(on(0, deallocate(2 * block, block), seek(block, HOLE)), 2, 0)
    yield ok(again, 1, 2)
    yield ok(on(0, deallocate(0, block), read(0, 4), read(block, 4)), 1, 0)  # its reservation went with it
    yield ok(both(0, 0, clone(block, 0, block)), 1, 1)  # slot 1 is reserved and shared
    yield ok(on(0, deallocate(block + 1, 1), read(0, 4), read(block, 4)), 2, 0)
    yield ok(on(0, allocate(0, 3 * block), read_plus(2 * block - 2, 8)), 2, 1)
    yield fails(NOSPC, again, 2, 1)  # 1 used, 3 owed
    yield fails(NOSPC, both(0, 0, clone(0, 2 * block, block)), 2, 1)  # 2 used, 2 owed
    yield ok(on(0, write(2 * block, b"mn"), *[read(k * block, 3) for k in range(3)]), 3, 0)


def shared_edges(block):
    """A DEALLOCATE whose two edges hold one block, with a middle that it gives back."""
    setup = [on(0, write(0, b"edge"), write(2 * block - 1, b"!")), both(0, 0, clone(0, 2 * block, block))]
    cut = on(0, deallocate(2, 2 * block), read_plus(0, 4), read_plus(block - 1, 2), read_plus(2 * block - 2, 6))
    yield store(2, 4, 2, block)
    yield ok(setup[0], 2, 0)
    yield ok(setup[1], 2, 0)
    yield fails(NOSPC, on(0, deallocate(2, block - 1)), 2, 0)  # an edge, and a part of the next slot
    yield ok(cut, 2, 0)  # the middle's block is the copy
    yield store(2, 4, 2, block)
    yield ok(setup[0], 2, 0)
    yield ok(setup[1], 2, 0)
    yield ok(both(0, 1, clone(0, 0, block)), 2, 0)
    yield fails(NOSPC, cut, 2, 0)  # a third holder: two copies, one block
    yield ok(on(1, deallocate(0, block)), 2, 0)
    yield ok(on(0, allocate(block, block)), 2, 0)
    yield ok(cut, 2, 0)  # the middle was reserved
    yield fails(NOSPC, on(0, allocate(block, 1)), 2, 0)  # its reservation went with it
    yield store(2, 4, 3, block)
    yield ok(setup[0], 2, 0)
    yield ok(setup[1], 2, 0)
    yield ok(both(0, 1, clone(0, 0, block)), 2, 0)
    yield ok(cut, 3, 0)
    yield ok(on(1, read(0, 5), read_plus(block - 2, 4)), 3, 0)


def shared_between(block):
    """COPY where source and target share their blocks, and CLONE onto what is shared already."""
    fill = on(0, write(0, b"zero"), write(block, b"one"), write(2 * block, b"two"))
    same, back = both(0, 1, clone(0, 0, 0)), both(1, 0, clone(0, 0, 0))
    yield store(2, 4, 5, block)
    yield ok(fill, 3, 0)
    yield ok(same, 3, 0)
    yield ok(same, 3, 0)
    yield ok(back, 3, 0)
    yield ok(both(0, 1, copy(1, block - 1, 4), read_plus(block - 3, 8)), 5, 0)  # two slots take copies
    yield ok(on(0, read(0, 4), read_plus(block - 3, 8)), 5, 0)
    yield fails(NOSPC, both(0, 1, copy(0, 2 * block, 1)), 5, 0)
    yield ok(both(0, 1, copy(2 * block - 2, 0, 5), read(0, 6)), 5, 0)
    yield ok(same, 3, 0)
    yield fails(NOSPC, both(0, 1, copy(0, 0, 0)), 3, 0)  # three copies, two blocks
    yield ok(both(0, 1, copy(block, block, block + 3), *whole(2 * block + 3)[:1], read_plus(2 * block - 2, 8)), 5, 0)


# Regions whose edges lie at and beside block boundaries. File 0 has two blocks and 5 bytes of text. File 1 is brought
# into one of the states below, is edited, and is read around every boundary.

STATES = ("own", "shared", "reserved", "reserved and shared", "hole", "reserved hole")
SHARED = ("shared", "reserved and shared")


def fill(block):
    piece, size = 5 * 251, 2 * block + 5  # text() repeats itself after 251 bytes
    yield ok(on(3, write(0, text(piece))))
    yield ok(both(3, 0, *[copy(0, at, min(piece, size - at)) for at in range(0, size, piece)]))
    yield ok(both(3, 1, *[copy(0, at, min(piece, size - at)) for at in range(0, size, piece)]))


def bring(state, size):
    """File 1 into that state, with file 0 saved."""
    operations = [putfh(0), savefh(), putfh(1), deallocate(0, LAST)]
    if state.startswith("reserved"):
        operations.append(allocate(0, size))
    if state in SHARED:
        operations.append(clone(0, 0, 0))
    elif not state.endswith("hole"):
        operations.append(copy(0, 0, 0))
    return operations


def look(block, state):
    """Reads around the boundaries; the smallest file whole; the other holder of a shared block."""
    around = [read_plus(0, 4), read_plus(block - 4, 8), read_plus(2 * block - 4, 12)]
    reads = whole(2 * block + 5) if block == 512 else around
    return reads + [putfh(0), read_plus(block - 2, 4)] * (state in SHARED)


def beside(block):
    """Offsets at the first boundary, ends at the second."""
    return [(block + a, 2 * block + b) for a in (-1, 0, 1) for b in (-1, 0, 1)]


def inner(block):
    """These, and others inside the size."""
    size = 2 * block + 5
    return beside(block) + [(0, block), (0, block + 1), (block - 1, block), (block - 1, block + 1), (1, size),
                            (2 * block - 1, 2 * block + 1), (2 * block, size - 1), (2 * block, size)]


def short(regions):
    """Those that a line can write; of a longer one its two ends."""
    ends = [((offset, end),) if end - offset < 2100 else ((offset, offset + 2000), (end - 2000, end))
            for offset, end in regions]
    return list(dict.fromkeys(region for pair in ends for region in pair))


def edited(block, turn, regions, edit):
    """One line a region, the state before it in turn; then one edit of two shared blocks, read whole."""
    size = 2 * block + 5
    for at, (offset, end) in enumerate(regions):
        state = STATES[(at + turn) % len(STATES)]
        yield ok(compound(*bring(state, size), edit(offset, end), *look(block, state)))
    yield ok(compound(*bring("shared", size), edit(block - 1, block + 1)))
    yield ok(on(1, *whole(size)))


def copied(block, offset, count):
    """A COPY from beside the first boundary, or from as far on as the source goes."""
    return copy(min(block - 1 + offset % 3, 2 * block + 5 - count), offset, count)


def edges(block, turn):
    size = 2 * block + 5
    yield store(4, 3, 16, block)
    yield from fill(block)
    past = [(2 * block - 1, size + 1), (2 * block, LAST), (size, size + 9)]
    yield from edited(block, turn, inner(block) + past, lambda offset, end: deallocate(offset, end - offset))
    yield from edited(block, turn + 1, short(inner(block)),
                      lambda offset, end: write(offset, text(end - offset)[::-1]))
    yield from edited(block, turn + 2, inner(block), lambda offset, end: copied(block, offset, end - offset))
    for source, count in (0, size + 1), (block, block + 6), (size, 1), (size + 1, 0):
        yield fails(INVAL, both(0, 1, copy(source, 0, count)))
    yield fails(INVAL, both(1, 1, copy(0, 2 * block, 1)))  # the same file
    yield ok(both(0, 1, copy(size, 1, 0), copy(size - 1, 0, 0), read(0, 2)))  # no bytes, one byte
    yield from edited(block, turn + 3, beside(block), lambda offset, end: allocate(offset, end - offset))
    yield from clones(block, turn)
    yield ok(on(0, *whole(size)))


def clones(block, turn):
    size = 2 * block + 5
    good = [(0, 0, block), (block, 0, block), (0, block, block), (0, 0, 2 * block), (block, 0, 0), (2 * block, 0, 5),
            (2 * block, block, 0), (2 * block, 2 * block, 5), (0, 0, size), (size - 5, 2 * block, 0)]
    for at, (source, target, count) in enumerate(good):
        state = STATES[(at + turn) % len(STATES)]
        yield ok(compound(*bring(state, size), clone(source, target, count), *look(block, state)))
    bad = [(block - 1, 0, block), (block + 1, 0, block), (0, block - 1, block), (0, block + 1, block),
           (0, 0, block - 1), (0, 0, block + 1), (block, 0, block + 4), (block, 0, block + 6), (size, 0, 0)]
    for source, target, count in bad:
        yield fails(INVAL, both(0, 1, clone(source, target, count)))
    yield fails(FBIG, both(0, 1, clone(0, block, 0)))
    yield fails(FBIG, both(0, 1, clone(2 * block, 3 * block, 0)))
    yield ok(both(0, 1, clone(2 * block, 2 * block, 0), clone(block, 2 * block, block), read_plus(2 * block - 2, 8)))


# Edits that make a file longer, up to its largest size and past it

def growth(block):
    ends = [k * block + b for k in (1, 2, 3) for b in (-1, 0, 1)]
    yield store(4, 3, 12, block)
    yield ok(on(0, write(0, b"source")))
    for file, edit in (1, lambda end: write(end - 2, b"gr")), (2, lambda end: allocate(end - 2, 2)):
        yield ok(on(file, *[step for end in ends[:4] for step in (edit(end), read_plus(end - 4, 8))]))
        yield ok(on(file, *[step for end in ends[4:8] for step in (edit(end), read_plus(end - 4, 8))]))
        yield fails(FBIG, on(file, edit(ends[8])))
    for part in ends[:4], ends[4:8]:
        yield ok(both(0, 3, *[step for end in part for step in (copy(1, end - 2, 2), read_plus(end - 4, 8))]))
    yield fails(FBIG, both(0, 3, copy(1, ends[8] - 2, 2)))
    yield ok(compound(*[step for file in range(4) for step in (putfh(file), seek(0, DATA), seek(0, HOLE))]))


# Reads: data, a hole and a reserved hole, data and a hole, data to an uneven end

def reads(block):
    yield store(1, 8, 8, block)
    yield ok(on(0, write(block - 3, b"123"), allocate(2 * block, block), write(3 * block, b"456"),
                write(5 * block, b"789"), write(6 * block, b"0")), 4, 1)
    near = ((-1, 1), (-1, 2), (-1, 3), (0, 1), (0, 2), (1, 1), (1, 2))
    for k in range(1, 7):
        yield ok(on(0, *[read_plus(k * block + at, count) for at, count in near],
                    *[seek(k * block + at, what) for at in (-1, 0) for what in (DATA, HOLE)]))
    for _, line, tail in walk(0, (DATA, block), (HOLE, 2 * block), (DATA, block), (HOLE, block), (DATA, block + 1)):
        yield ok(line, tail=tail)
    yield fails(NXIO, on(0, seek(6 * block + 1, HOLE), seek(6 * block + 2, HOLE)))
    span = min(block, 2048)
    for a in (-1, 0, 1):  # over the two holes, as far as is granted
        yield ok(on(0, *[read_plus(block + a, 2 * block - a + b) for b in (-1, 0, 1)],
                    *[read_plus(3 * block - span + b, span + a) for b in (-1, 0, 1)]))
    yield ok(on(0, read_plus(4 * block - 1, 3), read_plus(6 * block - 1, 3), read_plus(6 * block + 1, 3),
                read(2 * block - 1, 3), read(6 * block - 1, 3), read(6 * block, 0), read(6 * block + 1, 0)))


# A pool filled to its last block, and then one more. Each line says what is used and owed.

def pool(block):
    last = lambda at: read_plus(at * block, 8)
    yield store(4, 4, 4, block)
    yield ok(on(0, write(0, b"a"), write(block, b"b"), write(2 * block, b"c")), 3, 0)
    yield fails(NOSPC, on(1, write(block - 1, b"xy")), 3, 0)  # two more
    yield ok(on(1, write(block - 1, b"x"), last(0), read_plus(block - 4, 8)), 4, 0)  # the last block
    yield fails(NOSPC, on(1, write(block, b"y")), 4, 0)
    yield fails(NOSPC, on(1, write(block - 1, b"xy")), 4, 0)
    yield fails(NOSPC, on(1, allocate(block, 1)), 4, 0)
    yield fails(NOSPC, on(1, allocate(block - 1, 2)), 4, 0)
    yield fails(NOSPC, both(0, 1, copy(0, block, 1)), 4, 0)
    yield fails(NOSPC, both(0, 1, copy(0, block - 1, 2)), 4, 0)
    yield ok(on(1, read_plus(0, 8), read_plus(block - 4, 8)), 4, 0)  # all or nothing
    yield ok(on(1, write(0, b"own"), allocate(0, block), read(0, 4)), 4, 0)  # what needs no block
    yield ok(both(0, 1, copy(2 * block, 1, 1), clone(0, block, block), last(0), last(1)), 4, 0)
    yield fails(NOSPC, on(1, write(block, b"z")), 4, 0)  # shared blocks
    yield fails(NOSPC, on(0, write(1, b"z")), 4, 0)
    yield fails(NOSPC, on(0, write(2 * block - 1, b"zz"), write(0, b"z")), 4, 0)  # the second of two
    yield fails(NOSPC, both(1, 0, copy(0, 0, 1)), 4, 0)
    yield fails(NOSPC, on(0, allocate(0, 1)), 4, 0)
    yield fails(NOSPC, on(1, allocate(2 * block - 1, 1)), 4, 0)
    yield fails(NOSPC, on(0, deallocate(1, 1)), 4, 0)  # a shared edge
    yield fails(NOSPC, on(0, deallocate(1, block)), 4, 0)
    yield fails(NOSPC, both(1, 2, clone(0, 0, block)), 4, 0)  # of a reserved slot: 4 used, 1 owed
    yield ok(both(0, 1, clone(block, 0, block), last(0), last(1)), 3, 1)  # onto a reserved slot
    yield fails(NOSPC, on(2, write(0, b"x")), 3, 1)  # a block is free, and owed
    yield fails(NOSPC, on(0, deallocate(1, 1)), 3, 1)
    yield ok(on(0, write(block, b"x"), last(1)), 4, 0)  # the other holder takes the block, and nothing is owed
    yield ok(both(0, 1, clone(block, 0, block), last(0)), 3, 1)
    yield ok(on(1, write(0, b"r"), last(0)), 4, 0)  # the owed block
    yield ok(compound(putfh(0), last(0), last(1), last(2), putfh(1), last(0), last(1)), 4, 0)
    yield from middles(block, last)


def middles(block, last):
    """A full pool: file 0 holds a shared block, its own, its own; file 1 a reserved one and the shared one."""
    yield fails(NOSPC, on(1, deallocate(1, block)), 4, 0)  # an own edge, a shared edge, no middle
    yield ok(on(0, deallocate(1, 2 * block - 1), last(0), last(1), last(2)), 4, 0)  # the middle's block is the copy
    yield ok(on(1, last(0), last(1)), 4, 0)
    yield ok(both(0, 3, clone(0, 0, 0), last(0), last(1), last(2)), 4, 0)  # file 3 shares both blocks
    yield fails(NOSPC, on(3, deallocate(1, 2 * block)), 4, 0)  # two shared edges, a hole between
    yield ok(on(1, deallocate(0, block), last(0), last(1)), 3, 0)  # a block given back, reserved
    yield fails(NOSPC, on(3, deallocate(1, 2 * block - 1), write(2 * block, b"x")), 4, 0)
    yield ok(on(3, deallocate(0, 2 * block + 1), last(0), last(2)), 3, 0)  # to the last
    yield ok(on(1, write(0, b"again"), last(0)), 4, 0)
    yield fails(NOSPC, on(1, write(2 * block, b"more")), 4, 0)


# Reserved slots that are cloned

def reserved(block):
    two = lambda file: (putfh(file), read_plus(0, 8), read_plus(block - 2, 8))
    yield store(4, 4, 6, block)
    yield ok(on(0, allocate(0, 2 * block), write(0, b"a"), *two(0)), 1, 1)
    yield ok(both(0, 1, clone(0, 0, 2 * block), *two(1)), 1, 2)  # file 0 owes for its shared slot and its hole
    yield ok(on(1, allocate(0, 2 * block), *two(1)), 1, 4)
    yield ok(both(1, 2, clone(0, 0, 2 * block), *two(2)), 1, 4)
    yield ok(both(1, 2, clone(0, 2 * block, block), allocate(2 * block, 1)), 1, 5)
    yield fails(NOSPC, on(2, allocate(0, 1)), 1, 5)  # 1 used, 6 owed
    yield fails(NOSPC, on(3, write(0, b"x")), 1, 5)
    yield ok(on(1, write(block - 1, b"bc"), *two(1), *two(0)), 3, 3)
    yield fails(NOSPC, on(2, write(1, b"d")), 3, 3)  # not reserved
    yield fails(NOSPC, both(1, 3, clone(0, 0, 2 * block)), 3, 3)  # both of file 1's slots would owe
    yield ok(both(0, 1, clone(block, 0, block), *two(1)), 2, 4)  # a hole onto a reserved slot
    yield fails(NOSPC, both(1, 0, clone(block, 0, block)), 2, 4)  # a reserved block onto a reserved slot: 5 owed
    yield fails(NOSPC, on(3, write(0, b"x")), 2, 4)
    yield ok(on(0, deallocate(0, 1), *two(0), *two(2)), 3, 3)  # a shared reserved edge takes its copy
    yield ok(on(1, deallocate(0, 2 * block), *two(1)), 2, 2)
    yield ok(both(0, 2, clone(0, 2 * block, block), read_plus(2 * block - 2, 8)), 2, 3)  # reserved onto reserved
    yield ok(on(2, write(2 * block + 1, b"e"), read_plus(2 * block - 2, 8), *two(0)), 3, 1)
    yield ok(on(3, write(block - 1, b"xy"), *two(3)), 5, 1)
    yield ok(both(3, 1, clone(0, 0, 0), *two(1)), 5, 1)
    yield fails(NOSPC, on(1, allocate(0, 1)), 5, 1)


# COPY keeps holes (request K7). File 0 is the image: data in slots 1 and 3, holes elsewhere, and an uneven size in slot 5.

def image(block):
    return on(0, write(block, b"one"), write(3 * block, b"three"), allocate(5 * block, 9), deallocate(5 * block, 9))


def sought(place, size):
    """The end of a reply whose last operation is a SEEK that finds this place."""
    return u32(place == size) + u64(place)


def sparse(block):
    """A pool of four: the image takes two, its copy the others."""
    size = 5 * block + 9
    yield store(3, 6, 4, block)
    yield ok(image(block), 2, 0)
    yield ok(both(0, 1, copy(0, 0, 0)), 4, 0)  # two blocks for six slots
    for _, line, tail in walk(1, (HOLE, block), (DATA, block), (HOLE, block), (DATA, block), (HOLE, block + 9)):
        yield ok(line, tail=tail)
    yield ok(on(1, *[read(k * block, 6) for k in range(6)]), 4, 0)
    yield fails(NOSPC, on(2, write(0, b"x")), 4, 0)
    yield ok(both(0, 1, copy(0, 0, 0)), 4, 0)  # again, in a full pool
    yield ok(both(0, 1, copy(0, block, block), seek(0, DATA)), 3, 0, tail=sought(3 * block, size))  # a hole over data
    yield ok(on(2, write(0, b"x")), 4, 0)  # the block that it freed
    yield fails(NOSPC, both(0, 1, copy(0, 0, 2 * block)), 4, 0)
    yield ok(both(0, 1, copy(block, 2 * block, 2 * block), seek(0, DATA)), 4, 0,
             tail=sought(2 * block, size))  # slot 2 takes what slot 3 frees
    yield ok(both(0, 1, copy(0, 2 * block, 2 * block), seek(0, DATA)), 4, 0,
             tail=sought(3 * block, size))  # and slot 3 what slot 2 frees
    yield fails(NOSPC, both(0, 1, copy(block, 2 * block, 3 * block)), 4, 0)  # two take a block, one is freed
    yield ok(on(1, read_plus(2 * block - 2, 4), read_plus(3 * block, 6)), 4, 0)  # nothing has changed
    yield ok(both(0, 1, copy(4 * block, 3 * block, 0), seek(0, DATA)), 4, 0,
             tail=sought(4 * block, size))  # to the image's end: slot 4 is cut, and takes what slot 3 frees
    yield ok(both(0, 1, copy(4 * block, 4 * block, 0), seek(0, DATA)), 3, 0, tail=sought(size, size))  # to both ends


def outside(block):
    """Slots of which a byte below the size lies outside; and the last slot, to the old and the new end."""
    size = 2 * block + 9
    yield store(3, 6, 8, block)
    yield ok(image(block), 2, 0)
    yield ok(on(1, allocate(size - 1, 1), deallocate(0, LAST)), 2, 0)  # file 1 is holes
    for source, target, count in (1, 1, block - 1), (0, 0, block - 1), (1, 1, block - 2):
        yield ok(both(0, 1, copy(source, target, count), seek(0, HOLE)), 3, 0, tail=sought(block, size))  # holes in both
        yield ok(both(0, 1, copy(0, 0, block), seek(0, DATA)), 2, 0, tail=sought(size, size))
    yield ok(both(0, 1, copy(2 * block, 2 * block, 8), seek(0, DATA)), 3, 0, tail=sought(2 * block, size))
    yield ok(both(0, 1, copy(2 * block, 2 * block, 9), seek(0, DATA)), 2, 0, tail=sought(size, size))  # to the old end
    yield ok(on(1, write(size - 1, b"!")), 3, 0)
    yield ok(both(0, 1, copy(2 * block, 2 * block, 10), seek(0, DATA)), 2, 0, tail=sought(size + 1, size + 1))  # the new
    yield ok(both(0, 1, copy(2 * block, size + 1, 1), seek(0, DATA)), 3, 0, tail=sought(2 * block, size + 2))
    yield ok(both(0, 1, copy(2 * block, 4 * block, 1), seek(3 * block, DATA)), 3, 0,
             tail=sought(4 * block + 1, 4 * block + 1))  # past the end
    yield ok(both(0, 1, copy(2 * block, 2 * block, block), seek(0, DATA)), 2, 0, tail=sought(4 * block + 1, 4 * block + 1))
    yield ok(both(0, 1, copy(4 * block, block - 1, block + 2), seek(0, HOLE)), 4, 0,
             tail=sought(block, 4 * block + 1))  # two edges and a middle
    yield ok(both(0, 1, copy(4 * block, 0, block + 9), seek(0, HOLE)), 4, 0, tail=sought(0, 4 * block + 1))  # slot 1 is cut


def apart(block):
    """Offsets that differ within a block: a slot meets two slots of the image."""
    yield store(3, 6, 8, block)
    yield ok(image(block), 2, 0)
    for source, used in ((1, 3), (block - 1, 3), (block + 1, 3), (2 * block - 1, 3), (2 * block + 1, 3), (4 * block - 1, 3),
                         (4 * block + 1, 2), (4 * block + 8, 2)):
        yield ok(both(0, 1, copy(source, 0, block), read_plus(0, 6), read_plus(block - 2, 4)), used, 0)
        yield ok(on(1, deallocate(0, LAST)), 2, 0)
    yield ok(both(0, 1, copy(4 * block + 1, block - 1, block + 1)), 3, 0)  # the first of two slots is cut
    yield ok(on(1, seek(0, HOLE), seek(0, DATA), seek(block, DATA)), 3, 0, tail=sought(2 * block, 2 * block))
    yield ok(both(0, 1, copy(3 * block + 1, 2 * block, 2 * block), seek(2 * block, HOLE)), 4, 0,
             tail=sought(3 * block, 4 * block))  # a part of data, then holes
    yield ok(both(0, 1, copy(1, 4 * block, block - 1), seek(4 * block, DATA)), 4, 0,
             tail=sought(5 * block - 1, 5 * block - 1))  # the data behind it is not copied
    yield ok(both(0, 1, copy(1, 4 * block, block), seek(4 * block, DATA)), 5, 0, tail=sought(4 * block, 5 * block))
    yield ok(both(0, 1, copy(2 * block, 5 * block + 1, block - 1), seek(5 * block, DATA)), 6, 0,
             tail=sought(5 * block, 6 * block))
    yield ok(on(1, *[read_plus(k * block - 2, 4) for k in range(1, 6)], read_plus(0, 4)), 6, 0)


def sparse_reserved(block):
    """Reserved slots that become holes are owed, and a WRITE into them has its block."""
    size = 5 * block + 9
    yield store(3, 6, 6, block)
    yield ok(image(block), 2, 0)
    yield ok(on(1, allocate(0, 3 * block), write(0, b"a"), write(block, b"b")), 4, 1)
    yield ok(both(0, 1, copy(0, 0, 3 * block), seek(0, DATA)), 3, 2, tail=sought(block, 3 * block))  # slot 0 is owed
    yield ok(on(2, write(0, b"x")), 4, 2)
    yield fails(NOSPC, on(2, write(block, b"x")), 4, 2)  # the pool is full
    yield fails(NOSPC, both(0, 1, copy(0, 3 * block, block + 1)), 4, 2)  # a slot for data, which isn't reserved
    yield ok(both(0, 1, copy(block, 0, block), read(0, 4)), 5, 1)  # into the hole that is
    yield ok(on(1, write(2 * block, b"c"), read_plus(2 * block - 2, 4)), 6, 0)
    yield ok(both(0, 1, copy(0, 2 * block, block), seek(2 * block, DATA)), 5, 1, tail=sought(3 * block, 3 * block))
    yield fails(NOSPC, on(2, write(block, b"x")), 5, 1)  # the block is free, and owed
    yield fails(NOSPC, both(0, 1, copy(0, 2 * block, 2 * block)), 5, 1)
    yield ok(on(1, write(2 * block + 1, b"d"), read_plus(2 * block - 2, 6)), 6, 0)
    yield ok(on(0, allocate(block, block)), 6, 0)  # the image's own slots are reserved
    yield fails(NOSPC, on(0, allocate(2 * block, 1)), 6, 0)
    yield ok(on(2, deallocate(0, LAST)), 5, 0)
    yield ok(on(0, allocate(2 * block, 1)), 5, 1)
    yield ok(both(0, 1, copy(2 * block, 2 * block, block), seek(2 * block, DATA)), 4, 2,
             tail=sought(3 * block, 3 * block))  # a reserved hole is a hole
    yield fails(NOSPC, both(0, 1, copy(0, 0, 0)), 4, 2)  # 4 used, 3 owed
    yield ok(on(1, deallocate(2 * block, block)), 4, 1)
    yield ok(both(0, 1, copy(0, 0, 0), seek(0, DATA), seek(4 * block, DATA)), 4, 2, tail=sought(size, size))


def sparse_shared(block):
    """Holes over blocks that the source, the target itself or another file holds too."""
    yield store(3, 6, 4, block)
    yield ok(image(block), 2, 0)
    yield ok(both(0, 1, clone(0, 0, 4 * block)), 2, 0)
    yield ok(both(0, 1, copy(0, block, block), seek(0, DATA)), 2, 0, tail=sought(3 * block, 4 * block))  # the image's block
    yield ok(on(0, read(block, 4)), 2, 0)
    yield ok(both(0, 1, copy(0, 0, 4 * block)), 4, 0)  # slot 3 takes a copy of its own
    yield ok(both(1, 1, clone(block, 0, block)), 4, 0)  # slots 0 and 1 hold one block
    yield ok(both(0, 1, copy(0, 0, 2 * block), seek(0, DATA)), 4, 0, tail=sought(block, 4 * block))  # slot 1 keeps it
    yield ok(both(1, 1, clone(block, 2 * block, block)), 4, 0)
    yield ok(both(0, 1, copy(block, block, 2 * block), seek(block, HOLE)), 4, 0, tail=sought(2 * block, 4 * block))
    yield ok(both(1, 1, clone(block, 0, block), clone(block, 2 * block, block)), 4, 0)  # three slots
    yield fails(NOSPC, both(0, 1, copy(block, 0, 2 * block)), 4, 0)  # slots 0 and 2 share
    yield ok(both(1, 2, clone(0, 0, block)), 4, 0)
    yield fails(NOSPC, both(0, 1, copy(0, 0, 3 * block)), 4, 0)  # slot 1 and the other file
    yield ok(both(0, 1, copy(0, block, block), copy(0, 0, block), seek(0, DATA)), 4, 0, tail=sought(2 * block, 4 * block))
    yield ok(on(2, deallocate(0, LAST)), 4, 0)
    yield ok(both(0, 1, copy(2 * block, 2 * block, block), seek(0, DATA)), 3, 0,
             tail=sought(3 * block, 4 * block))  # its last holder


# Geometries and lines

def geometries():
    yield store(1, 1, 1, 512)  # the smallest
    yield ok(on(0, write(0, text(512))), 1, 0)
    yield fails(FBIG, on(0, write(511, b"xy")), 1, 0)
    yield fails(STALE, on(1, read(0, 1)), 1, 0)
    yield ok(on(0, write(511, b"x"), read(508, 8), allocate(0, 512), deallocate(1, 510), read(0, 512)), 1, 0)
    for wrong in ((0, 1, 1, 512), (1, 0, 1, 512), (1, 1, 0, 512), (1, 1, 1, 0), (1, 1, 1, 513), (1, 1, 1, 8192)):
        yield store(*wrong, answer=GEOMETRY)
    for wrong in ((5, 1, 1, 512), (4, 17, 1, 512), (4, 16, 33, 4096), (0xffff,) * 4):
        yield store(*wrong, answer=TOO_LARGE)
    for wrong in ("=", "=000400100020020", "=00040010002002000", "=000400100020020g"):
        yield Case(wrong, GEOMETRY)
    yield ok(on(0, read(508, 8)), 1, 0)  # the store is still there
    yield Case("", HEADER, (1, 0))
    yield Case("zz", LINE, (1, 0))
    yield Case(compound()[1:], LINE, (1, 0))
    yield Case("0" * 8194, LINE, (1, 0))
    yield fails(BADXDR, compound(count=1), 1, 0)
    for files, slots, blocks, block in ((3, 5, 7, 1024), (4, 16, 32, 4096), (1, 64, 256, 512)):
        top = slots * block
        yield store(files, slots, blocks, block)
        yield ok(on(files - 1, write(top - 2, b"yz"), read(top - 4, 8)), 1, 0)
        yield ok(on(files - 1, allocate(0, top - block), read_plus(top - block - 2, 4)), 1, slots - 1)
        yield fails(FBIG, on(0, write(top - 1, b"xy")))
        yield fails(STALE, on(files, read(0, 1)))


CASES = [*sides(), *self_shared(512), *self_shared_reserved(512), *shared_edges(512), *shared_between(512)]
for place, size_of_block in enumerate(BLOCKS):
    CASES += [*edges(size_of_block, place), *growth(size_of_block), *reads(size_of_block), *pool(size_of_block),
              *reserved(size_of_block), *sparse(size_of_block), *outside(size_of_block), *apart(size_of_block),
              *sparse_reserved(size_of_block), *sparse_shared(size_of_block)]
CASES += geometries()


def fault(case, answer):
    """How an answer differs from the case, or None."""
    if case.line.startswith("="):
        return None if answer == case.status else f"expected {case.status}, answered {answer}"
    reply, *counts = answer.split(" ")
    status = reply
    if not reply.startswith("-"):
        try:
            _, status, _ = decode_reply(bytes.fromhex(reply))
        except Damaged as damage:
            return str(damage)
    if status != case.status:
        return f"expected {case.status}, answered {status}"
    if case.counts and counts != [str(count) for count in case.counts]:
        return f"expected {case.counts}, answered {counts}"
    return None if reply.endswith(case.tail.hex()) else f"expected the end {case.tail.hex()}, answered {reply}"


def check(answers):
    """Prints what differs; whether nothing does."""
    faults = [f"{len(CASES)} lines, {len(answers)} answers"] * (len(answers) != len(CASES))
    for at, (case, answer) in enumerate(zip(CASES, answers), 1):
        found = fault(case, answer.decode())
        if found:
            faults.append(f"line {at}: {found}")
    print(f"{len(answers)} answers, {len(faults)} faults", *faults, sep="\n")
    return not faults


def main():
    if len(sys.argv) == 1:
        # The last line has no newline.
        sys.stdout.write("\n".join(case.line for case in CASES))
    elif len(sys.argv) == 3 and sys.argv[1] == "--check":
        sys.exit(not check(lines_of(sys.argv[2])))
    else:
        sys.exit(__doc__)


if __name__ == "__main__":
    main()
