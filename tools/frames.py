#!/usr/bin/env python3
"""Request lines for the frames program: every operation, status and refusal that a line can reach.

    tools/frames.py > LINES                 the lines, in hexadecimal
    tools/frames.py --coverage ANSWERS      compares the answers to LINES with the statuses expected here

The store is empty at the start: 4 files of 16 slots, 32 blocks of 512 bytes.
"""
import collections
import itertools
import sys

from wire_check import Damaged, counted, decode_reply, lines_of, name_of

BLOCK = 512
TOP = 16 * BLOCK  # the largest size of a file
LAST = 2**64 - 1

OK, NXIO, INVAL, FBIG, NOSPC, STALE = 0, 6, 22, 27, 28, 70
BADHANDLE, NOTSUPP, NOFILEHANDLE, MINOR_VERS_MISMATCH = 10001, 10004, 10020, 10021
BAD_STATEID, BADXDR, OP_ILLEGAL, SEQUENCE_POS = 10025, 10036, 10044, 10064
TOO_MANY_OPS, UNION_NOTSUPP = 10070, 10090
HEADER, LINE = -6, -7

ZEROS, ONES, OTHER = bytes(16), b"\xff" * 16, bytes(15) + b"\x01"
DATA, HOLE = 0, 1

SUPPORTED_ATTRS, SIZE, SPACE_USED, CLONE_BLKSIZE, SPACE_FREED = 0, 4, 45, 77, 78


# XDR (RFC 4506)

def u32(n):
    return n.to_bytes(4, "big")


def u64(n):
    return n.to_bytes(8, "big")


def opaque(data, pad=b"\0"):
    return u32(len(data)) + data + pad * (-len(data) % 4)


def bitmap(*bits, words=0):
    """A bitmap4 of these bits, with at least so many words."""
    count = max([words] + [bit // 32 + 1 for bit in bits])
    return u32(count) + b"".join(u32(sum(1 << bit % 32 for bit in bits if bit // 32 == at)) for at in range(count))


# Operations (RFC 5662, RFC 7862)

def gauge(*attributes, words=0):
    """GETATTR; Python has a getattr of its own."""
    return u32(9) + bitmap(*attributes, words=words)


SPACE = gauge(SIZE, SPACE_USED, SPACE_FREED)


def getfh():
    return u32(10)


def putfh(file):
    return handle(u32(file))


def handle(name, pad=b"\0"):
    return u32(22) + opaque(name, pad)


def restorefh():
    return u32(31)


def savefh():
    return u32(32)


def read(offset, count, stateid=ZEROS):
    return u32(25) + stateid + u64(offset) + u32(count)


def write(offset, data, stateid=ZEROS, stable=2, pad=b"\0"):
    return u32(38) + stateid + u64(offset) + u32(stable) + opaque(data, pad)


def allocate(offset, length, stateid=ZEROS):
    return u32(59) + stateid + u64(offset) + u64(length)


def copy(source, target, count, source_stateid=ZEROS, stateid=ZEROS, consecutive=1, synchronous=1, servers=0):
    return (u32(60) + source_stateid + stateid + u64(source) + u64(target) + u64(count)
            + u32(consecutive) + u32(synchronous) + u32(servers))


def deallocate(offset, length, stateid=ZEROS):
    return u32(62) + stateid + u64(offset) + u64(length)


def read_plus(offset, count, stateid=ZEROS):
    return u32(68) + stateid + u64(offset) + u32(count)


def seek(offset, what, stateid=ZEROS):
    return u32(69) + stateid + u64(offset) + u32(what)


def clone(source, target, count, source_stateid=ZEROS, stateid=ZEROS):
    return u32(71) + source_stateid + stateid + u64(source) + u64(target) + u64(count)


# Compounds, as lines

def compound(*operations, tag=b"", minor=2, count=None, tail=b""):
    count = len(operations) if count is None else count
    return (opaque(tag) + u32(minor) + u32(count) + b"".join(operations) + tail).hex()


def on(file, *operations):
    return compound(putfh(file), *operations)


def both(source, target, *operations):
    """With `source` saved and `target` current."""
    return compound(putfh(source), savefh(), putfh(target), *operations)


def cut(line, count):
    """Without its last bytes."""
    return line[:-2 * count]


def text(count):
    """Bytes that tell their place."""
    return bytes(at % 251 + 1 for at in range(count))


def told(values):
    """What GETATTR answers with these attributes, in rising order."""
    return bitmap(*values) + opaque(b"".join(values.values()))


def space(size, used, freed):
    """What SPACE is answered; space in blocks."""
    return told({SIZE: u64(size), SPACE_USED: u64(used * BLOCK), SPACE_FREED: u64(freed * BLOCK)})


def walk(file, *pieces):
    """SEEKs for data and hole by turns over a file of these pieces, each (what, bytes), and two more at its size."""
    starts = list(itertools.accumulate((length for _, length in pieces), initial=0))
    place, what, size = 0, DATA, starts.pop()
    asked = []
    while not asked or place < size:
        asked.append(seek(place, what))
        ahead = [max(place, at) for (kind, length), at in zip(pieces, starts) if kind == what and place < at + length]
        place, what = min(ahead, default=size), HOLE if what == DATA else DATA
        yield OK, on(file, asked[-1]), u32(place == size) + u64(place)
    yield OK, on(file, seek(size, DATA)), u32(1) + u64(size)
    yield OK, on(file, seek(size, HOLE)), u32(1) + u64(size)


# File 0's attributes at the first GETATTR: 2,049 bytes in 3 blocks of its own, nothing reserved
FILE_0 = {
    SUPPORTED_ATTRS: u32(3) + u32(0x11) + u32(0x2000) + u32(0x6000),
    SIZE: u64(2049),
    SPACE_USED: u64(1536),
    CLONE_BLKSIZE: u32(512),
    SPACE_FREED: u64(1536),
}


# The status of a line's answer, the line and, where they are told, the answer's last bytes
LINES = [
    # document 01's three lines: file 1 is one reserved hole of 512
    (OK, on(1, allocate(0, BLOCK))),
    (OK, on(1, read_plus(0, 16))),
    (LINE, "zz"),

    # lines
    (LINE, compound()[:-1]),  # an odd number of digits
    (LINE, compound()[:-1] + "g"),  # no digit
    (LINE, compound() + "\r"),  # a carriage return
    (LINE, compound(tail=bytes(4085))),  # 8,194 digits
    (OK, on(3, getfh(), read(10, 11, ONES)).upper()),  # upper case

    # the header
    (HEADER, ""),  # an empty line
    (HEADER, "0000"),  # cut in the tag's length
    (HEADER, cut(compound(), 8)),  # no minor version
    (HEADER, cut(compound(), 4)),  # no operation count
    (HEADER, cut(compound(tag=b"abc"), 9)),  # a tag without its pad
    (HEADER, (opaque(b"a", b"\1") + u32(2) + u32(0)).hex()),  # a nonzero tag pad
    (HEADER, compound(tag=bytes(1025))),  # a tag longer than 1,024
    (OK, compound()),  # no operation
    (OK, compound(getfh(), count=0, tag=text(1024))),  # none is counted; the longest tag
    (OK, compound(putfh(0), tag=b"a tag")),
    (OK, compound(putfh(0), tag=b"\xff\0\r")),  # a tag that isn't text

    # the compound
    (MINOR_VERS_MISMATCH, compound(putfh(0), minor=1, tag=b"one")),
    (MINOR_VERS_MISMATCH, compound(*[putfh(0)] * 13, minor=3)),  # before the count
    (TOO_MANY_OPS, compound(*[putfh(0)] * 13, tag=b"many")),
    (TOO_MANY_OPS, compound(count=2**32 - 1)),
    (OK, compound(*[putfh(0), getfh()] * 6)),  # 12 operations
    (BADXDR, compound(count=1)),  # no operation number
    (BADXDR, compound(putfh(0), getfh(), count=3, tail=bytes(2))),  # half a number, after two results

    # numbers that aren't served
    (SEQUENCE_POS, compound(u32(53) + bytes(32))),
    (SEQUENCE_POS, on(0, u32(53))),  # at another place, its arguments missing
    (OP_ILLEGAL, compound(u32(2))),
    (NOTSUPP, compound(u32(3))),  # the first number
    (NOTSUPP, on(0, u32(24))),  # PUTROOTFH
    (NOTSUPP, on(0, u32(34) + ZEROS + u32(0) + u32(0))),  # SETATTR
    (NOTSUPP, on(0, u32(70))),
    (OP_ILLEGAL, on(0, u32(72))),  # past the last
    (OP_ILLEGAL, on(0, u32(10044))),
    (OP_ILLEGAL, compound(u32(2**32 - 1))),

    # handles
    (NOFILEHANDLE, compound(getfh())),
    (NOFILEHANDLE, compound(savefh())),
    (NOFILEHANDLE, on(0, restorefh())),
    (OK, compound(putfh(2), savefh(), putfh(1), getfh(), restorefh(), getfh())),
    (BADHANDLE, compound(handle(b""))),  # other lengths than four
    (BADHANDLE, compound(handle(bytes(3)))),
    (BADHANDLE, on(0, handle(bytes(128)))),  # the longest that decodes
    (BADXDR, compound(handle(bytes(129)))),
    (BADXDR, compound(handle(bytes(3), b"\1"))),  # a nonzero pad
    (BADXDR, cut(on(0), 1)),  # a byte missing
    (BADXDR, cut(on(0), 5)),  # its length cut
    (STALE, on(4, write(0, b"not run"))),  # what follows isn't run
    (STALE, on(2**32 - 1)),

    # WRITE and READ
    (NOFILEHANDLE, compound(write(LAST, b"no", OTHER))),  # before BAD_STATEID
    (BAD_STATEID, on(0, write(LAST, b"no", ONES))),  # before INVAL
    (BAD_STATEID, on(0, write(0, b"no", OTHER))),
    (INVAL, on(0, write(LAST, b"x"))),  # the sum
    (FBIG, on(0, write(TOP, b"x"))),  # the end
    (FBIG, on(0, write(LAST - 1, b"x"))),  # the largest sum
    (BADXDR, compound(write(0, b"no", stable=3))),  # before NOFILEHANDLE
    (BADXDR, on(0, write(0, b"no", pad=b"\1"))),  # a nonzero pad
    (BADXDR, cut(on(0, write(0, b"nono")), 1)),  # a byte missing
    (BADXDR, on(0, u32(38) + ZEROS + u64(0) + u32(2) + u32(2**32 - 1))),  # data that isn't there
    (OK, on(0, write(LAST, b""), read(0, 1))),  # no bytes
    (OK, on(1, write(0, b"reserved"), read(0, 600))),  # into its reserved hole
    (OK, on(0, write(510, b"edge", stable=0), read(509, 5), read(0, 2048))),  # over a block boundary
    (OK, on(0, write(2048, b"!", stable=1), read(2047, 2), read(2048, 0), read(2049, 0), read(LAST, 1, ONES))),  # eof
    (NOFILEHANDLE, compound(read(0, 1, OTHER))),
    (BAD_STATEID, on(0, read(0, 1, OTHER))),
    (BADXDR, cut(on(0, read(0, 1)), 1)),

    # READ_PLUS and SEEK: file 0 has data, a hole from 1,024, data from 2,048 to 2,049
    (OK, on(0, read_plus(0, 4096), read_plus(1, 2048), read_plus(1023, 2, ONES), read_plus(1024, 1024))),
    (OK, on(0, read_plus(2048, 1), read_plus(2048, 0), read_plus(2049, 1), read_plus(LAST, 2**32 - 1))),
    (NOFILEHANDLE, compound(read_plus(0, 1, OTHER))),
    (BAD_STATEID, on(0, read_plus(0, 1, OTHER))),
    (BADXDR, cut(on(0, read_plus(0, 1)), 4)),
    (OK, on(0, seek(0, DATA), seek(0, HOLE), seek(1023, HOLE), seek(1024, HOLE, ONES), seek(1024, DATA),
            seek(2047, DATA), seek(2048, HOLE))),
    (NOFILEHANDLE, compound(seek(0, 2, OTHER))),
    (BAD_STATEID, on(0, seek(0, 2, OTHER))),
    (UNION_NOTSUPP, on(0, seek(2049, 2))),  # at the size
    (UNION_NOTSUPP, on(0, seek(LAST, 2))),  # before NXIO
    (NXIO, on(0, seek(2049, HOLE), seek(2050, HOLE))),  # past the size
    (NXIO, on(0, seek(2049, DATA), seek(LAST, DATA))),
    (NXIO, on(3, seek(0, HOLE), seek(1, HOLE))),  # an empty file
    (BADXDR, cut(on(0, seek(0, DATA)), 1)),

    # walks over a sparse file, an empty one and one that ends in data
    *walk(0, (DATA, 1024), (HOLE, 1024), (DATA, 1)),
    *walk(3),
    *walk(1, (DATA, 512)),

    # GETATTR
    *[(OK, on(0, gauge(attribute)), told({attribute: value})) for attribute, value in FILE_0.items()],
    (OK, on(0, gauge(*FILE_0)), told(FILE_0)),
    (OK, on(0, gauge()), told({})),  # no word
    (OK, on(0, gauge(1, 33, 79, 96, 127)), told({})),  # none that we have
    (OK, on(0, gauge(3, SIZE, 5, 44, SPACE_USED, 46, 76)), told({SIZE: u64(2049), SPACE_USED: u64(1536)})),
    (OK, on(0, gauge(SIZE, words=4)), told({SIZE: u64(2049)})),  # three words of zeros
    (OK, on(0, gauge(*range(128))), told(FILE_0)),  # four words of ones
    (BADXDR, on(0, gauge(SIZE, words=5))),
    (BADXDR, compound(u32(9) + u32(2**32 - 1))),  # before NOFILEHANDLE
    (BADXDR, cut(on(0, gauge()), 1)),  # its count cut
    (BADXDR, cut(on(0, gauge(*FILE_0)), 1)),  # a word cut
    (NOFILEHANDLE, compound(gauge(SIZE))),

    # COPY
    (NOFILEHANDLE, on(0, copy(0, 0, 0, OTHER))),  # no saved handle
    (NOFILEHANDLE, compound(copy(0, 0, 0))),
    (BAD_STATEID, both(0, 2, copy(0, 0, 0, OTHER))),
    (BAD_STATEID, both(0, 2, copy(0, 0, 0, ZEROS, ONES))),  # ones don't pass for the target
    (INVAL, both(0, 0, copy(0, 4096, 512))),  # the same file
    (INVAL, both(0, 2, copy(2050, 0, 0))),  # the source offset past the size
    (INVAL, both(0, 2, copy(1, 0, 2049))),  # the source end past the size
    (INVAL, both(0, 2, copy(1, 0, LAST))),  # the source sum
    (INVAL, both(0, 2, copy(0, LAST, 1))),  # the target sum
    (FBIG, both(0, 2, copy(0, TOP - 3, 4))),
    (BADXDR, both(0, 2, copy(0, 0, 0, consecutive=2, servers=1))),  # before NOTSUPP
    (BADXDR, both(0, 2, copy(0, 0, 0, synchronous=2))),
    (BADXDR, cut(both(0, 2, copy(0, 0, 0)), 4)),
    (NOTSUPP, compound(copy(0, 0, 0, servers=1))),  # a source server, its list unread
    (OK, both(0, 2, copy(2049, LAST, 0))),  # no bytes
    (OK, both(0, 2, copy(0, 0, 0, ONES), read_plus(0, 2048), seek(0, HOLE))),  # to the end, the hole too
    (OK, on(2, write(1024, bytes(1024)), read_plus(0, 2048), seek(0, HOLE))),  # zeros that are written are data
    (OK, both(0, 2, copy(510, TOP - 4, 4, consecutive=0, synchronous=0), read(TOP - 5, 8), read_plus(TOP - 514, 600))),

    # CLONE
    (NOFILEHANDLE, on(0, clone(0, 0, 0, OTHER))),
    (NOFILEHANDLE, compound(clone(0, 0, 0))),
    (BAD_STATEID, both(0, 3, clone(0, 0, 0, OTHER))),
    (BAD_STATEID, both(0, 3, clone(0, 0, 0, ZEROS, ONES))),
    (INVAL, both(0, 3, clone(2560, 0, 0))),  # the source offset past the size
    (INVAL, both(0, 3, clone(0, 0, 2560))),  # the source end past the size
    (INVAL, both(0, 3, clone(0, LAST, 1))),  # the target sum
    (INVAL, both(0, 3, clone(1, 0, 512))),  # the source offset uneven
    (INVAL, both(0, 3, clone(0, 1, 512))),  # the target offset uneven
    (INVAL, both(0, 3, clone(0, 0, 511))),  # the length uneven before the source end
    (INVAL, both(0, 3, clone(2049, 0, 0))),  # no bytes, the source offset uneven
    (INVAL, both(0, 0, clone(0, 512, 1024))),  # overlapping
    (FBIG, both(0, 3, clone(0, TOP - 512, 1024))),
    (BADXDR, cut(both(0, 3, clone(0, 0, 0)), 1)),
    (OK, both(2, 3, clone(TOP, LAST - 511, 0))),  # no bytes
    (OK, both(0, 3, clone(0, 0, 0, ONES), read_plus(0, 2048), seek(512, HOLE))),  # to the end, the hole too
    (OK, both(0, 2, clone(2048, 512, 1), read(500, 600))),  # zeros from an uneven end, inside the old size
    (OK, both(1, 1, clone(0, 512, 512), write(510, b"self"), read(505, 15))),  # a block shared with itself
    (OK, both(1, 1, clone(0, 1024, 512), write(0, text(1536)), read(0, 1537))),  # again, then both slots

    # DEALLOCATE; file 1 has 1,536 bytes, its slot 0 reserved
    (NOFILEHANDLE, compound(deallocate(0, 0, OTHER))),
    (BAD_STATEID, on(1, deallocate(0, 0, ONES))),
    (INVAL, on(1, deallocate(0, 0))),
    (INVAL, on(1, deallocate(1, LAST))),  # the sum
    (BADXDR, cut(on(1, deallocate(0, 1)), 1)),
    (OK, on(1, deallocate(1536, 1), deallocate(LAST - 1, 1), read_plus(0, 2048))),  # past the size
    (OK, on(1, deallocate(511, 514), read(508, 8), read_plus(0, 2048))),  # two edges and a middle
    (OK, on(1, deallocate(1024, LAST - 1024), read_plus(0, 2048), seek(0, HOLE))),  # cut at the size
    *walk(1, (DATA, 512), (HOLE, 1024)),  # it ends in a hole
    (OK, on(3, deallocate(2, 510), read(0, 4), deallocate(2000, 48), read_plus(1024, 2048))),  # a shared edge; a hole
    (OK, compound(putfh(0), read(508, 4), putfh(3), read(508, 4))),  # the other holder is unchanged
    (OK, on(3, deallocate(2048, 1), read_plus(1, 2048), deallocate(0, 1024), seek(0, DATA))),  # the last slot, uneven

    # ALLOCATE, and the pool to its last block
    (NOFILEHANDLE, compound(allocate(0, 0, OTHER))),
    (BAD_STATEID, on(3, allocate(0, 0, ONES))),
    (INVAL, on(3, allocate(0, 0))),
    (INVAL, on(3, allocate(LAST, 1))),  # the sum
    (FBIG, on(3, allocate(TOP, 1))),
    (BADXDR, cut(on(3, allocate(0, 1)), 8)),
    (OK, on(3, allocate(0, TOP), read_plus(0, 2048))),  # 9 used, 16 owed
    (NOSPC, on(1, allocate(512, 8 * BLOCK))),  # 8 more
    (OK, on(1, allocate(511, 3074), seek(512, DATA))),  # 7 more, and one that has its block: 9 used, 23 owed
    (OK, on(0, allocate(512, 512))),  # it has its block
    (NOSPC, on(0, allocate(2048, 1))),  # its block is shared
    (NOSPC, on(0, write(1024, b"x"))),  # a hole
    (NOSPC, on(0, write(2048, b"x"))),  # a shared block
    (FBIG, on(0, write(TOP - 1, b"xx"))),  # before NOSPC
    (NOSPC, on(0, write(1020, b"x" * 8))),  # the second of two slots
    (OK, on(0, read_plus(1018, 2048), write(512, b"own"))),  # all or nothing
    (OK, on(3, write(510, b"room"), read_plus(0, 2048))),  # 11 used, 21 owed
    (NOSPC, both(1, 0, copy(0, 1024, 1))),
    (NOSPC, both(1, 0, clone(0, 1024, 512))),  # the source slot is reserved
    (OK, both(0, 3, clone(0, 2048, 512), write(2050, b"room"), read(2048, 5))),  # the target slot is
    (NOSPC, on(2, deallocate(512, 1))),  # a shared edge
    (OK, on(2, deallocate(513, 1023), read_plus(512, 1024))),  # a shared edge, and a block given back
    (OK, both(2, 3, copy(0, 0, 0))),  # 14 used, 18 owed: the holes of file 2 stay reserved in file 3
    (OK, both(2, 1, copy(0, 512, 3073))),  # 18 used, 14 owed
    (NOSPC, on(0, write(1024, b"x"))),
    (OK, on(3, deallocate(0, 512))),
    (OK, on(0, write(1024, b"last"), read_plus(1020, 516))),  # the block given back, zeroed
    (NOSPC, on(3, write(511, b"x"))),  # its reservation went with it
    (OK, on(3, write(512, text(4036)))),  # 8,192 digits
    (OK, compound(putfh(3), *[read_plus(512 + n, 2048) for n in range(11)], tag=text(1024))),  # 23,924 bytes

    # the space of files, all of it given back first
    (OK, compound(*[putfh(file) + deallocate(0, LAST) for file in range(4)], SPACE, count=9), space(TOP, 0, 0)),
    (OK, on(0, write(0, text(1024)), SPACE), space(2049, 2, 2)),
    (OK, both(0, 0, clone(0, 1024, 512), SPACE), space(2049, 3, 2)),  # slots 0 and 2 hold one block
    (OK, on(0, allocate(0, 2048), SPACE), space(2049, 4, 2 + 3)),  # slots 0, 2 and 3 are owed
    (OK, both(0, 1, clone(512, 0, 512), SPACE), space(3585, 1, 0)),  # the block of slot 1, in another file
    (OK, on(0, SPACE), space(2049, 4, 1 + 4)),  # so slot 1 is owed
    (OK, on(1, write(0, b"own"), SPACE), space(3585, 1, 1)),
    (OK, on(0, deallocate(0, LAST), SPACE), space(2049, 0, 0)),

    # RFC 7862's example of space_freed: two files of ten blocks, six of them shared
    (OK, on(2, *[write(BLOCK * slot, b"a") for slot in range(10)], SPACE), space(TOP, 10, 10)),
    (OK, both(2, 3, clone(0, 0, 6 * BLOCK), *[write(BLOCK * slot, b"b") for slot in range(6, 10)], SPACE), space(TOP, 10, 4)),
    (OK, on(2, SPACE), space(TOP, 10, 4)),
    (OK, on(2, deallocate(0, LAST), putfh(3), SPACE), space(TOP, 10, 10)),
    (OK, compound(*[putfh(file) + seek(0, HOLE) for file in range(4)], count=8)),

    # COPY keeps holes (request K7): file 2 has data in slots 1 and 4
    (OK, compound(*[putfh(file) + deallocate(0, LAST) for file in range(4)], SPACE, count=9), space(TOP, 0, 0)),
    (OK, on(2, write(512, text(512)), write(2048, b"four"), SPACE), space(TOP, 2, 2)),
    (OK, both(2, 0, copy(0, 0, 2560), read_plus(0, 2048), SPACE), space(2560, 2, 2)),  # two blocks for five slots
    *walk(0, (HOLE, 512), (DATA, 512), (HOLE, 1024), (DATA, 512)),
    (OK, both(2, 0, copy(1024, 2560, 100), SPACE), space(2660, 2, 2)),  # the last slot, to the new end
    (OK, on(0, write(2600, b"last"), SPACE), space(2660, 3, 3)),
    (OK, both(2, 0, copy(1024, 2560, 99), SPACE), space(2660, 3, 3)),  # a byte below the size lies outside
    (OK, both(2, 0, copy(1948, 2560, 100), seek(2560, DATA)), u32(1) + u64(2660)),  # to the old end, up to data
    (OK, both(2, 0, copy(1025, 1025, 511), read_plus(1024, 512), SPACE), space(2660, 3, 3)),  # a byte outside, both holes
    (OK, both(2, 0, copy(1024, 1024, 512), seek(1024, DATA)), u32(0) + u64(2048)),  # none
    (OK, both(2, 0, copy(1537, 1024, 512), read_plus(1024, 512), SPACE), space(2660, 3, 3)),  # a hole and a byte of data
    (OK, both(2, 0, copy(1025, 1024, 512), SPACE), space(2660, 2, 2)),  # two holes
    (OK, both(2, 0, copy(1023, 1024, 512), read_plus(1024, 512), SPACE), space(2660, 3, 3)),  # a byte of data and a hole
    (OK, both(2, 0, copy(1025, 1024, 512), seek(1024, DATA)), u32(0) + u64(2048)),
    (OK, on(2, write(3072, bytes(9)), savefh(), putfh(0), copy(3072, 1024, 512), SPACE), space(2660, 3, 3)),  # zeros
    (OK, on(2, deallocate(3072, 9), savefh(), putfh(0), copy(3072, 1024, 512), SPACE), space(2660, 3, 3)),
    (OK, on(2, deallocate(3072, 512), savefh(), putfh(0), copy(3072, 1024, 512), SPACE), space(2660, 2, 2)),

    # the same over reserved slots and in a full pool
    (OK, on(1, allocate(0, 1024), write(0, text(1024)), SPACE), space(3585, 2, 2)),
    (OK, both(2, 1, copy(0, 0, 1024), seek(0, DATA), SPACE), space(3585, 2, 1 + 1)),  # slot 0 is owed
    (OK, on(2, allocate(2560, 512), SPACE), space(TOP, 3, 2 + 1)),
    (OK, both(2, 1, copy(2560, 0, 1024), SPACE, seek(0, DATA)), u32(1) + u64(3585)),  # reserved or not: both are owed
    (OK, on(2, deallocate(2560, 512))),
    (OK, on(3, *[write(BLOCK * slot, b"a") for slot in range(11)])),
    (OK, on(3, *[write(BLOCK * slot, b"a") for slot in range(11, 16)])),
    (OK, on(1, *[write(BLOCK * slot, b"b") for slot in range(2, 12)])),  # 30 used, 2 owed
    (NOSPC, on(0, write(0, b"x"))),
    (OK, on(1, write(510, b"room"), read_plus(508, 8))),  # into both holes: 32 used
    (OK, both(2, 0, copy(2560, 512, 512), SPACE), space(2660, 1, 1)),  # a hole over data: 31 used
    (OK, on(0, write(0, b"x"), SPACE), space(2660, 2, 2)),  # the block that was freed
    (NOSPC, both(2, 0, copy(512, 512, 1024))),  # data and a hole onto two holes
    (OK, both(2, 0, copy(512, 1536, 1024), seek(512, DATA), SPACE), space(2660, 2, 2)),  # slot 3 takes slot 4's block
    (OK, both(2, 0, copy(0, 0, 1024), seek(0, DATA), SPACE), space(2660, 2, 2)),  # slot 1 takes slot 0's
    (NOSPC, both(2, 0, copy(512, 1024, 2048))),  # two slots take a block, one gives its own
    (OK, both(0, 0, clone(512, 0, 512), SPACE), space(2660, 3, 2)),  # slots 0 and 1 hold one block
    (OK, both(2, 0, copy(512, 0, 1024), read_plus(508, 8), SPACE), space(2660, 2, 2)),  # slot 1 is a hole, slot 0 keeps it
    (OK, compound(*[putfh(file) + seek(0, HOLE) for file in range(4)], count=8)),  # no newline follows
]


# What each operation can answer; "compound" without a result, and refused lines

EDIT = {OK, BADXDR, NOFILEHANDLE, BAD_STATEID, INVAL, NOSPC}
READING = {OK, BADXDR, NOFILEHANDLE, BAD_STATEID}
REACHED = {
    "compound": {OK, MINOR_VERS_MISMATCH, TOO_MANY_OPS},
    "GETATTR": {OK, BADXDR, NOFILEHANDLE},
    "GETFH": {OK, NOFILEHANDLE},
    "PUTFH": {OK, BADXDR, BADHANDLE, STALE},
    "READ": READING,
    "RESTOREFH": {OK, NOFILEHANDLE},
    "SAVEFH": {OK, NOFILEHANDLE},
    "SETATTR": {NOTSUPP},
    "WRITE": EDIT | {FBIG},
    "SEQUENCE": {SEQUENCE_POS},
    "ALLOCATE": EDIT | {FBIG},
    "COPY": EDIT | {FBIG, NOTSUPP},
    "DEALLOCATE": EDIT,
    "READ_PLUS": READING,
    "SEEK": READING | {UNION_NOTSUPP, NXIO},
    "CLONE": EDIT | {FBIG},
    "ILLEGAL": {BADXDR, OP_ILLEGAL},
    "refused line": {HEADER, LINE},
}


def coverage(answers):
    """Prints what was answered, and what differs from this file; whether nothing does."""
    seen, faults = collections.defaultdict(collections.Counter), []
    if len(answers) != len(LINES):
        faults.append(f"{len(LINES)} lines, {len(answers)} answers")
    for at, ((expected, _, *tail), answer) in enumerate(zip(LINES, answers), 1):
        if answer.startswith(b"-"):
            status = int(answer)
            seen["refused line"][status] += 1
        else:
            try:
                _, status, results = decode_reply(bytes.fromhex(answer.decode()))
            except Damaged as damage:
                faults.append(f"line {at}: {damage}")
                continue
            for operation, result in results or [(0, status)]:
                seen[name_of(operation)][result] += 1
        if status != expected:
            faults.append(f"line {at}: expected {expected}, answered {status}")
        elif tail and not answer.endswith(tail[0].hex().encode()):
            faults.append(f"line {at}: the answer doesn't end in {tail[0].hex()}")
    for name, statuses in REACHED.items():
        faults += [f"{name}: {status} not reached" for status in sorted(statuses - set(seen[name]))]
    for name in [*REACHED, *sorted(set(seen) - set(REACHED))]:
        print(f"{name:14}{counted(seen[name])}")
    print(f"\n{len(answers)} answers, {len(faults)} faults", *faults, sep="\n")
    return not faults


def main():
    if len(sys.argv) == 1:
        # The last line has no newline.
        sys.stdout.buffer.write("\n".join(line for _, line, *_ in LINES).encode())
    elif len(sys.argv) == 3 and sys.argv[1] == "--coverage":
        sys.exit(not coverage(lines_of(sys.argv[2])))
    else:
        sys.exit(__doc__)


if __name__ == "__main__":
    main()
