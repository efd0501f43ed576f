"""PE32+ images to measure on, and the text that `peinfo list` has to print of them.

The image is one for x64 and has one section, .rdata, with a debug table and after it a function table. It is filled up to a number of
bytes if that is more. Without entries a table has no directory. Every field of an entry is other than zero and varies from entry to
entry. The types are of those that have no record of their own to be read (as CodeView's have), and pointers and addresses lie in the
section, so that other readers take the image too.
"""

import struct

HEADERS = 0x200
ADDRESS = 0x1000
BASE = 0x140000000
ROW = 28
FUNCTION = 12
# COFF, FPO, misc, exception, fixup, omap (two), Borland, class id, ILTCG, MPX, portable PDB, PDB checksum, perfmap.
TYPES = [1, 3, 4, 5, 6, 7, 8, 9, 11, 14, 15, 17, 19, 21]


def rounded_up(number, step):
    return -(-number // step) * step


def entry(i, room):
    """The eight fields of entry i, where the section has `room` bytes."""
    size = 1 + i * 7 % 48
    place = i * 52361 % (room - 64) + 1
    return (1 + i, 0x40000000 + i * 2654435761 % 0x3FFFFFFF, 1 + i % 9, 1 + i % 31, TYPES[i % len(TYPES)], size,
            ADDRESS + place, HEADERS + place)


def function(i):
    """The three fields of function i: functions stand one after the other."""
    return (ADDRESS + 16 * i, ADDRESS + 16 * i + 16, ADDRESS + i % 0x4000 * 4)


def raw_size(entries, total, functions=0):
    tables = entries * ROW + functions * FUNCTION
    return rounded_up(max(tables, total - HEADERS, 0x200), 0x200)


def image(entries, total, functions=0):
    """The bytes of an image."""
    raw = raw_size(entries, total, functions)
    table = b"".join(struct.pack("<IIHHIIII", *entry(i, raw)) for i in range(entries))
    table += b"".join(struct.pack("<III", *function(i)) for i in range(functions))
    # What follows the table is no zeros, so that no file system keeps holes in its place.
    piece = bytes((i * 167 + 13) % 251 + 1 for i in range(65536))
    body = (table + piece * ((raw - len(table)) // len(piece) + 1))[:raw]
    dos = b"MZ" + bytes(58) + struct.pack("<I", 0x40)
    coff = struct.pack("<HHIIIHH", 0x8664, 1, 0x5F3759DF, 0, 0, 240, 0x22)
    standard = struct.pack("<HBBIIIII", 0x20B, 14, 0, 0, raw, 0, ADDRESS, ADDRESS)
    windows = struct.pack("<QIIHHHHHHIIIIHHQQQQII", BASE, 0x1000, 0x200, 6, 0, 0, 0, 6, 0, 0,
                          rounded_up(ADDRESS + raw, 0x1000), HEADERS, 0, 3, 0x8160,
                          0x100000, 0x1000, 0x100000, 0x1000, 0, 16)
    directories = [(0, 0)] * 16
    if entries:
        directories[6] = (ADDRESS, entries * ROW)
    if functions:
        directories[3] = (ADDRESS + entries * ROW, functions * FUNCTION)
    section = struct.pack("<8sIIIIIIHHI", b".rdata", raw, ADDRESS, raw, HEADERS, 0, 0, 0, 0, 0x40000040)
    head = dos + b"PE\0\0" + coff + standard + windows + b"".join(struct.pack("<II", *d) for d in directories) + section
    return head.ljust(HEADERS, b"\0") + body


def listing(entries, total, functions=0):
    """What `peinfo list` prints of it."""
    raw = raw_size(entries, total, functions)
    lines = [f"image 64 entry {ADDRESS:08x} base {BASE:016x}\n"]
    for i in range(entries):
        *_, kind, size, address, pointer = entry(i, raw)
        lines.append(f"debug {kind} {size} {address:08x} {pointer:08x}\n")
    for i in range(functions):
        lines.append("function {:08x} {:08x} {:08x}\n".format(*function(i)))
    return "".join(lines)
