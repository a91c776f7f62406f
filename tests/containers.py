"""Containers made for the programs' runs."""
import itertools
import struct


def word(n):
    return struct.pack("<I", n)


def words(*numbers):
    return b"".join(word(n) for n in numbers)


def box(parts, magic=b"DXBC", version=(1, 0), size=None, count=None, offsets=None, gaps=()):
    """A container of (name, data) pairs, one right after the other but for gaps of so many bytes before them; fields can be set wrong."""
    at = 32 + 4 * len(parts)
    places, body = [], b""
    for (name, data), gap in itertools.zip_longest(parts, gaps, fillvalue=0):
        places.append(at + gap)
        body += bytes(gap) + name + word(len(data)) + data
        at += gap + 8 + len(data)
    header = magic + bytes(16) + struct.pack("<HH", *version)
    header += word(at if size is None else size) + word(len(parts) if count is None else count)
    return header + words(*(offsets or places)) + body


def psv0(size=52, stage=5, view=0, vectors=(0, 0, 0, 0), counts=(0, 0, 0), indices=b"", stride=16, elements=b"", name=1):
    """PSV0 data with the strings of box C."""
    record = bytearray(size)
    record[24], record[25] = stage, view
    record[28:31], record[32:36] = bytes(counts), bytes(vectors)
    if size >= 52:
        record[48:52] = word(name)
    data = word(size) + bytes(record) + word(0) + word(8) + b"\0main\0\0\0" + word(len(indices) // 4) + indices
    return data + (word(stride) + elements if sum(counts) else b"")


PROGRAM = (b"DXIL", bytes([1, 2, 3, 4]))
EDITION_0 = (b"PSV0", word(24) + bytes(24) + word(0))
M = box([PROGRAM, EDITION_0])
LONGEST = box([PROGRAM, EDITION_0, (b"PRIV", bytes(65432))])


def with_psv0(data):
    return box([PROGRAM, (b"PSV0", data)])


def signature(elements, tail, offset=8):
    """Data of a signature part: elements of nine numbers, name offset second, and the bytes after them."""
    records = b"".join(words(*e[:6]) + bytes([*e[6:8], 1, 2]) + word(e[8]) for e in elements)
    return words(len(elements), offset) + bytes(offset - 8) + records + tail


def root_signature():
    """Data of a root signature in 1.1 with every kind of item: a table of two ranges, constants, a descriptor, a table without ranges at the
    data's end, and two static samplers, whose LODs are NaNs, quiet and signalling, an infinity, -0, a subnormal and 1.5."""
    most = 0xFFFFFFFF
    types = [(0, 5, 72), (1, 0, 80), (4, most, 92), (0, 7, 104)]
    data = words(2, len(types), 24, 2, 160, 0x80000001) + b"".join(words(*t) for t in types)
    data += words(2, 112) + words(3, 4, 5) + words(6, 7, 8) + words(0, 264)
    data += words(0, 1, 2, 3, 0, most) + words(most, most, most, most, 65536, 4)
    samplers = [(0x7FC00001, 0xFFA00000, 0x7F800000), (0x80000000, 1, 0x3FC00000)]
    for bias, least, greatest in samplers:
        data += words(21, 1, 2, most, bias, 16, 4, 2, least, greatest, 8, 9, 5)
    return data


def hull():
    """A hull shader with something at every line of `show`: PSV0 data off every multiple of 4, records longer than the known ones,
    strings with bytes that don't print and a letter of two bytes, index arrays of 0 (at the table's end), 1 and 3 numbers, view and input
    masks. ISG1: PSV0's name, no name, and one past PSV0's list; OSG1: an empty name, in the header, as PSV0 has it; PSG1: a bad name, the
    second. RTS0: every kind of item. Three PRIV parts, and gaps of 1 and 4 bytes."""
    stage, view, patch = 3, 1, 2
    record = bytes(range(16)) + words(4, 0xFFFFFFFF) + bytes([stage, view, patch, 0, 2, 1, 1, 1, 9, 0, 0, 0]) + words(7, 8, 9, 21)
    resources = words(2, 0, 0, 0, 13, 0, 99) + words(3, 1, 5, 0xFFFFFFFF, 2, 1, 99)
    strings = b"\0A \"\\\x1f\x7f\xc3\xbf~\0!TexCoord\0main\0"
    strings += bytes(-len(strings) % 4)
    indices = words(40, 0, 1, 0xFFFFFFFF)
    elements = b"".join(
        words(name, index) + bytes(fields) + b"more"
        for name, index, fields in [
            (1, 0, [1, 0, 0x74, 0, 3, 2, 0x3F, 0]),
            (11, 3, [1, 1, 0xC3, 16, 1, 8, 0x10, 7]),
            (0, 1, [3, 2, 0x51, 3, 9, 0, 0x25, 255]),
            (10, 4, [0, 255, 0x00, 25, 0, 1, 0x00, 0]),
        ]
    )
    masks = words(0x12345678, 1) + words(3) + words(*range(8)) + words(*range(256, 260))
    data = words(52) + record + words(2, 28) + resources + words(len(strings)) + strings
    data += words(len(indices) // 4) + indices + words(20) + elements + masks + b"\xee"
    most = 0xFFFFFFFF
    inputs = [(0, 105, 0, 1, 2, 3, 15, 3, 4), (most, 0, most, most, most, most, 255, 254, most), (3, 115, 2, 0, 0, 0, 0, 0, 0)]
    outputs = [(0, 3, 1, 64, 3, 0, 7, 0, 1)]
    patches = [(0, 74, 0, 0, 0, 0, 0, 0, 0), (0, 75, 0, 0, 0, 0, 0, 0, 0)]
    return box(
        [
            (b"PRIV", b"one"),
            (b"SFI0", b"\1\2\3\4"),
            (b"PRIV", b""),
            (b"DXIL", b"\5"),
            (b"PSV0", data),
            (b"!\x20\x7f\xff", b""),
            (b"ISG1", signature(inputs, strings[1:11] + b"!\xe2\x82\xac\0", 9)),
            (b"OSG1", signature(outputs, b"")),
            (b"PSG1", signature(patches, b"ab\0c")),
            (b"RTS0", root_signature()),
            (b"PRIV", b"three"),
        ],
        gaps=[1, 0, 4],
    )
