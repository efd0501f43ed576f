#!/usr/bin/env python3
"""Writes PDB files that cost a reader as much as their bytes can: make_pdbs.py KIND BYTES FILE

Each is a PDB 7.0 whose streams stand in blocks of 4,096 bytes; what a kind is of is some half of its bytes or more, and the rest is
mostly what leads to it.
"""

import struct
import sys

BLOCK = 4096
TEXT = b"Microsoft C/C++ MSF 7.00\r\n\x1aDS\0\0\0"
GUID = bytes(range(16))
NONE = 0xFFFF
# Streams by their numbers: those of the format, and then ours.
INFO, DBI, SYMBOLS, SECTIONS, NAMES, MODULE = 1, 3, 5, 6, 7, 8
LINES, FILES = 0xF2, 0xF4


def padded(data, to=4):
    return bytes(data) + bytes(-len(data) % to)


class Msf:
    """The streams of a file by their numbers, and the blocks of each: those of their own, unless they are named."""

    def __init__(self):
        self.streams, self.blocks, self.sizes = [b""] * MODULE, {}, {}

    def add(self, data):
        self.streams.append(bytes(data))
        return len(self.streams) - 1

    def made(self):
        """The file. A directory of many blocks has a map of several."""
        body, first, lists = [], 3, {}
        for number, data in enumerate(self.streams):
            count = -(-len(data) // BLOCK)
            lists[number] = self.blocks.get(number) or list(range(first, first + count))
            if number not in self.blocks:
                body.append(padded(data, BLOCK))
                first += count
        sizes = [self.sizes.get(number, len(it)) for number, it in enumerate(self.streams)]
        directory = struct.pack(f"<{1 + len(sizes)}I", len(sizes), *sizes)
        directory += b"".join(struct.pack(f"<{len(lists[it])}I", *lists[it]) for it in range(len(sizes)))
        count = -(-len(directory) // BLOCK)
        map_blocks = -(-4 * count // BLOCK)
        blocks = range(first, first + count)
        at = first + count
        body += [padded(directory, BLOCK), padded(struct.pack(f"<{count}I", *blocks), BLOCK)]
        # The superblock has the blocks of the map, which follow one another.
        head = TEXT + struct.pack("<5I", BLOCK, 1, at + map_blocks, len(directory), 0)
        head += struct.pack(f"<{map_blocks}I", *range(at, at + map_blocks))
        return padded(head, BLOCK) + bytes(2 * BLOCK) + b"".join(body)


def info(named=((b"/names", NAMES),)):
    """The info stream, with a table of named streams."""
    texts, pairs = b"", []
    for name, number in named:
        pairs.append(struct.pack("<2I", len(texts), number))
        texts += name + b"\0"
    count, words = len(pairs), -(-len(pairs) // 32)
    present = b"".join(struct.pack("<I", 2**32 - 1 if 32 * (i + 1) <= count else 2 ** (count % 32) - 1) for i in range(words))
    table = struct.pack("<2I", count, 32 * words) + struct.pack("<I", words) + present + struct.pack("<I", 0) + b"".join(pairs)
    return struct.pack("<3I", 20000404, 1, 1) + GUID + struct.pack("<I", len(texts)) + texts + table + struct.pack("<2I", 0, 20140508)


def module(stream, symbols, lines, name=b"a.obj", files=1):
    head = bytes(32) + struct.pack("<2H3I2H3I", 0, stream, symbols, 0, lines, files, 0, 0, 0, 0)
    return padded(head + name + b"\0" + name + b"\0")


def dbi(modules, parts=(), sections=SECTIONS, omap=NONE):
    """The DBI stream: of other parts than the modules the debug header alone."""
    debug = struct.pack("<11H", *[NONE] * 3, omap, omap, sections, *[NONE] * 5)
    sizes = [len(modules), 0, 0, 0, 0, 0, len(debug), 0]
    for index, size in parts:
        sizes[index] = size
    head = struct.pack("<iII6H", -1, 19990903, 1, NONE, 0x8E0B, NONE, 0, SYMBOLS, 0)
    return head + struct.pack("<5iI2i", *sizes[:5], sizes[5], *sizes[6:]) + struct.pack("<2HI", 0, 0x8664, 0) + modules + debug


def record(kind, content):
    content = padded(struct.pack("<H", kind) + content + b"\0\0", 4)[:-2]
    return struct.pack("<H", len(content)) + content


def procedure(offset, size, name=b"a", section=1):
    return record(0x1110, struct.pack("<7IIHB", 0, 0, 0, size, 0, 0, 0, offset, section, 0) + name + b"\0")


def public(offset, name, section=1):
    return record(0x110E, struct.pack("<2IH", 2, offset, section) + name + b"\0")


def sections(count=1):
    """Section headers, each of 2^28 bytes of code: of many the last."""
    return b"".join(struct.pack("<8s6I2HI", b".text", 1 << 28, 0x1000, 0, 0, 0, 0, 0, 0, 0x60000020) for _ in range(count))


def subsection(kind, content):
    return struct.pack("<2I", kind, len(content)) + padded(content)


def rows(offsets_and_lines, file=0, start=0, size=1 << 24):
    """A subsection of lines of one file."""
    block = b"".join(struct.pack("<2I", offset, line) for offset, line in offsets_and_lines)
    return subsection(LINES, struct.pack("<I2HI", start, 1, 0, size) + struct.pack("<3I", file, len(block) // 8, 12 + len(block)) + block)


def whole(module_stream, line_size=0, names=b"\0a.c\0", publics=b"", mod=None, of_info=None, head=None, many=1):
    """A file of one module, or of so many that have its stream."""
    made = Msf()
    made.streams[INFO], made.streams[SECTIONS] = of_info or info(), head or sections()
    made.streams[SYMBOLS] = publics
    made.streams[NAMES] = struct.pack("<3I", 0xEFFEEFFE, 1, len(names)) + names + bytes(4)
    number = made.add(module_stream)
    made.streams[DBI] = dbi((mod or module(number, len(module_stream) - line_size, line_size)) * many)
    return made.made()


def wrong_text(size):
    return b"Microsoft C/C++ MSF 7.00\r\n\x1aDS\0\0\1" + bytes(size - 32)


def block_size(size):
    return TEXT + struct.pack("<6I", 65536, 1, size // BLOCK, 64, 0, 3) + bytes(size - 56)


def directory(size):
    """A directory as large as the file, of streams that have no bytes."""
    made = Msf()
    made.streams = [b""] * (size // 4)
    made.streams[INFO], made.streams[DBI] = info(()), dbi(b"", sections=NONE)
    return made.made()


def one_block(size):
    """As many streams as fit, each of all blocks but the first ones: together far more bytes than the file."""
    made = Msf()
    made.streams[INFO], made.streams[SECTIONS] = info(()), sections()
    large = made.add(bytes(size // 2))
    made.streams[DBI] = b""
    count = size // 2 // (4 * (size // 2 // BLOCK) + 64)
    for number in range(count):
        made.streams.append(made.streams[large])
        made.blocks[number + large + 1] = [1] * (size // 2 // BLOCK)
    made.streams[DBI] = dbi(b"".join(module(large + 1 + it, size // 2, 0) for it in range(count)))
    return made.made()


def long_stream(size):
    """A stream of more blocks than the file has, each the same one."""
    made = Msf()
    made.streams[INFO], made.streams[SECTIONS] = info(()), sections()
    made.streams.append(b"")
    count = min(size // 4, 2**32 // BLOCK - 1)
    made.blocks[MODULE] = [1] * count
    made.sizes[MODULE] = BLOCK * count
    made.streams[DBI] = dbi(module(MODULE, 64, 0))
    return made.made()


def dbi_parts(size):
    made = Msf()
    made.streams[INFO], made.streams[SECTIONS] = info(()), sections()
    made.streams[DBI] = dbi(bytes(size), parts=((0, -8), (1, 2**31 - 1)))
    return made.made()


def modules_of_one_stream(size):
    """As many modules as fit into half of the file, all of one stream, which is the other half."""
    stream = struct.pack("<I", 4) + procedure(0, 16) * (size // 2 // len(procedure(0, 16)))
    return whole(stream, mod=module(MODULE, len(stream), 0), many=size // 2 // len(module(MODULE, 0, 0)))


def damaged_modules(size):
    """The same of modules whose symbols pass their stream."""
    return whole(bytes(size // 2), mod=module(MODULE, size, 0), many=size // 2 // len(module(MODULE, 0, 0)))


def small_records(size):
    return whole(struct.pack("<I", 4) + struct.pack("<2H", 2, 6) * (size // 4))


def procedures(size):
    """Procedures that all start at one RVA, each with a scope that never ends."""
    one = procedure(0x20, 1 << 20, b"f")
    return whole(struct.pack("<I", 4) + one * (size // len(one)))


def procedures_downwards(size):
    """Procedures in descending order, each longer than all before it."""
    length = len(procedure(0, 1))
    count = size // length
    return whole(struct.pack("<I", 4) + b"".join(procedure(16 * (count - it), 16 * count, b"f") for it in range(count)))


def publics(size):
    one = len(public(0, b"f"))
    return whole(struct.pack("<I", 4), publics=b"".join(public(it * 7919 % (1 << 24), b"f") for it in range(size // one)))


def inline_sites(size):
    """Inlined functions in one another, each of the whole procedure."""
    site = record(0x114D, struct.pack("<3I", 0, 0, 0x1000) + b"\x0b\x20\x04\x7f\0\0\0\0")
    body = site * (size // len(site))
    return whole(struct.pack("<I", 4) + procedure(0, 1 << 20) + body)


def inline_rows(size):
    """Procedures of a thousand inlined functions side by side, each of four bytes."""
    def site(offset):
        number = (0xC0000000 | offset).to_bytes(4, "big")
        return record(0x114D, struct.pack("<3I", 0, 0, 0x1000) + b"\x03" + number + b"\x04\x04\0\0\0") + record(0x114E, b"")
    sites = b"".join(site(4 * it) for it in range(1000)) + record(6, b"")
    return whole(struct.pack("<I", 4) + b"".join(procedure(4000 * it, 4000) + sites for it in range(size // len(sites))))


def rows_at_one_offset(size):
    lines = rows([(0, 7)] * (size // 8)) + subsection(FILES, struct.pack("<IBB2x", 1, 0, 0))
    return whole(struct.pack("<I", 4) + procedure(0, 1 << 20) + lines, len(lines))


def rows_of_functions(size):
    """A procedure and a row for each few bytes, and each row in a subsection that reaches to the end of all."""
    count = size // 100
    body = b"".join(procedure(4 * it, 1 << 22) for it in range(count))
    lines = b"".join(rows([(0, it + 1)], start=4 * it, size=1 << 22) for it in range(count))
    lines += subsection(FILES, struct.pack("<IBB2x", 1, 0, 0))
    return whole(struct.pack("<I", 4) + body + lines, len(lines))


def names_of_files(size, has_end=True):
    """Lines that change their file each, and files that all have one long name, from another byte on."""
    count = size // 32
    files = b"".join(struct.pack("<IBB2x", 1 + it % 64, 0, 0) for it in range(count))
    lines = b"".join(rows([(4 * it, 7)], file=8 * it) for it in range(count))
    body = lines + subsection(FILES, files)
    names = b"\0" + b"n" * (size // 4) + (b"\0" if has_end else b"")
    return whole(struct.pack("<I", 4) + procedure(0, 1 << 20) + body, len(body), names=names)


def names_without_end(size):
    return names_of_files(size, False)


def named_streams(size):
    """A table of as many named streams as fit, whose names are one text."""
    count = size // 12
    texts = b"x" * (size // 4) + b"\0"
    words = -(-count // 32)
    table = struct.pack("<3I", count, 32 * words, words) + b"\xff\xff\xff\xff" * words + struct.pack("<I", 0)
    table += b"".join(struct.pack("<2I", it % (size // 8), 9) for it in range(count))
    start = struct.pack("<3I", 20000404, 1, 1) + GUID + struct.pack("<I", len(texts)) + texts
    return whole(struct.pack("<I", 4), of_info=start + table + struct.pack("<2I", 0, 20140508))


def omap(size):
    made = Msf()
    made.streams[INFO], made.streams[SECTIONS] = info(()), sections()
    moved = made.add(b"".join(struct.pack("<2I", it, 0) for it in range(size // 8)))
    made.streams[DBI] = dbi(b"", omap=moved)
    return made.made()


def many_sections(size):
    """Section headers as many as fit into a half, and public symbols of the last ones."""
    count = size // 80
    body = b"".join(public(it, b"f", section=min(count, 65535) - it % 256) for it in range(size // 2 // len(public(0, b"f"))))
    return whole(struct.pack("<I", 4), publics=body, head=sections(count))


def long_names(size):
    """Names of megabytes with control characters, of which a record has 64 KB."""
    one = procedure(0, 16, b"\x1b[2J\xe2\x80\xae" * 8000)
    return whole(struct.pack("<I", 4) + b"".join(procedure(16 * it, 16, b"\x1b[2J\xe2\x80\xae" * 8000) for it in range(size // len(one))))


def module_names(size):
    made = Msf()
    made.streams[INFO], made.streams[SECTIONS] = info(()), sections()
    made.streams[DBI] = dbi(module(NONE, 0, 0, b"m" * (size // 4)) * 2)
    return made.made()


def dump(rvas):
    """A minidump with a frame at each of these RVAs of a module that names any such file, as a.pdb: by frame pointers, without the image."""
    base, stack, start = 0x180000000, 0x100000, 32 + 4 * 12
    context = bytearray(1232)
    struct.pack_into("<I", context, 48, 0x10000B)
    struct.pack_into("<2Q", context, 120 + 8 * 4, stack, stack)
    struct.pack_into("<Q", context, 248, base + rvas[0])
    frames = b"".join(struct.pack("<2Q", stack + 16 * (it + 1), base + rva) for it, rva in enumerate(rvas[1:])) + bytes(16)
    name, record = "a.dll".encode("utf-16-le"), b"RSDS" + GUID + struct.pack("<I", 1) + b"a.pdb\0"
    parts, places = [bytes(context), struct.pack("<I", len(name)) + name + bytes(2), record, frames], []
    for part in parts:
        places.append(start + sum(len(padded(it, 8)) for it in parts[:len(places)]))
    streams = [
        (7, struct.pack("<HHHBB4IIHH24x", 9, 0, 0, 1, 1, 10, 0, 0, 2, 0, 0, 0)),
        (3, struct.pack("<I4I2Q4I", 1, 1, 0, 0, 0, 0, stack, len(frames), places[3], len(context), places[0])),
        (4, struct.pack("<IQIIII52xII8x16x", 1, base, 1 << 28, 0, 7, places[1], len(record), places[2])),
        (5, struct.pack("<IQII", 1, stack, len(frames), places[3]))]
    body, directory = b"".join(padded(it, 8) for it in parts), b""
    for kind, content in streams:
        directory += struct.pack("<3I", kind, len(content), start + len(body))
        body += padded(content, 8)
    return struct.pack("<4sIIIIIQ", b"MDMP", 0xA793, len(streams), 32, 0, 0, 0) + directory + body


KINDS = {it.__name__.replace("_", "-"): it for it in (
    wrong_text, block_size, directory, one_block, long_stream, dbi_parts, modules_of_one_stream, damaged_modules, small_records, procedures,
    procedures_downwards, publics, inline_sites, inline_rows, rows_at_one_offset, rows_of_functions, names_of_files, names_without_end,
    named_streams, omap, many_sections, long_names, module_names)}


def make(kind, size):
    return KINDS[kind](size)


if __name__ == "__main__":
    if len(sys.argv) != 4 or sys.argv[1] not in KINDS:
        sys.exit(f"{__doc__}\nkinds: {' '.join(KINDS)}")
    with open(sys.argv[3], "wb") as out:
        out.write(make(sys.argv[1], int(sys.argv[2])))
