#!/usr/bin/env python3
"""Writes PE32+ images whose names or sections are made to cost a reader much: make_names.py KIND BYTES FILE

The header, the sections and one directory come first, with as many entries as some share of the bytes takes; the rest
is what their addresses lead to. Each image has one section that covers the whole file, so an address is 0x1000 more
than its offset; in `sections` it stands after 65,534 that cover nothing.
"""

import struct
import sys

KINDS = {
    "exports-one-text": "all export names at places inside one long text",
    "exports-two-texts": "export names by turns inside two long texts",
    "exports-ordinary": "export names of 20 bytes, side by side",
    "imports-one-place": "all import records and entries naming one long text",
    "imports-one-text": "all import records and entries at places inside one long text",
    "imports-ordinary": "libraries of 30 imports with names of 20 bytes, side by side",
    "sections": "export names under 65,535 sections, of which the last covers them",
    "libraries-falling": "libraries in falling order",
    "libraries-equal": "libraries all equal, at one place",
    "libraries-same": "libraries all equal, each at a place of its own",
    "libraries-one-text": "libraries at places inside one long text of one letter",
}
BASE = 0x1000


def headers(kind, size):
    """The DOS, COFF and optional header and the sections; the directory's address is filled in later."""
    empty = 65_534 if kind == "sections" else 0
    out = bytearray(0x40)
    out[0:2] = b"MZ"
    struct.pack_into("<I", out, 0x3C, 0x40)
    out += b"PE\0\0" + struct.pack("<HHIIIHH", 0x8664, empty + 1, 0, 0, 0, 240, 0x22)
    optional = bytearray(240)
    struct.pack_into("<H", optional, 0, 0x20B)
    struct.pack_into("<I", optional, 32, 0x1000)
    struct.pack_into("<I", optional, 36, 0x200)
    struct.pack_into("<I", optional, 108, 16)
    out += optional
    out += struct.pack("<8sIIIIIIHHI", b"empty", 0, BASE, 0, 0, 0, 0, 0, 0, 0) * empty
    out += struct.pack("<8sIIIIIIHHI", b".rdata", size, BASE, size, 0, 0, 0, 0, 0, 0)
    out += bytes(-len(out) % 16)
    return out


def exports(kind, out, size):
    """An export directory with as many names as an eighth of the bytes has room for entries of ten bytes."""
    directory = len(out)
    struct.pack_into("<I", out, 0x58 + 112, BASE + directory)
    count = size // 8 // 10 if kind != "exports-ordinary" else (size - directory) // 32
    if kind == "sections":
        count = (size - directory) // 32
    tables = directory + 40
    text = tables + 4 + 6 * count
    length = size - text - 2
    if kind == "exports-one-text":
        places = [text + length - 1 - i * (length // count) for i in range(count)]
        texts = b"a" * length + b"\0"
    elif kind == "exports-two-texts":
        half = length // 2
        step = half // count
        places = [text + (i & 1) * (half + 1) + i * step for i in range(count)]
        texts = b"a" * half + b"\0" + b"b" * half + b"\0"
    else:
        places = [text + 20 * i for i in range(count)]
        texts = b"".join(b"a_name_of_%08x\0\0" % i for i in range(count))
    out += struct.pack("<IIHHIIIIIII", 0, 0, 0, 0, 0, 1, 1, count, BASE + tables, BASE + tables + 4,
                       BASE + tables + 4 + 4 * count)
    out += struct.pack("<I", BASE)
    out += b"".join(struct.pack("<I", BASE + place) for place in places)
    out += bytes(2 * count)
    out += texts


def imports(kind, out, size):
    """Records with lists of their own; the lists' entries lead to names."""
    directory = len(out)
    struct.pack_into("<I", out, 0x58 + 112 + 8, BASE + directory)
    libraries = kind.startswith("libraries")
    if libraries:
        per_record, width = 0, {"libraries-equal": 20, "libraries-one-text": 30}.get(kind, 40)
        count = (size - directory) // width * 3 // 4
    elif kind == "imports-ordinary":
        per_record = 30
        count = (size - directory) // (20 + 20 + 8 * (per_record + 1) + 20 * per_record)
    else:
        per_record = 1
        count = size // 8 // (20 + 8 * (per_record + 1))
    lists = directory + 20 * (count + 1)
    list_size = 8 * (per_record + 1)
    text = lists + (8 if libraries else list_size * count)
    length = size - text - 2
    names, entries = [], []
    if libraries:
        entries = [0]
        if kind == "libraries-equal":
            names = [text] * count
            texts = b"a" * length + b"\0"
        elif kind == "libraries-one-text":
            names = [text + length // count * i for i in range(count)]
            texts = b"a" * length + b"\0"
        else:
            name = {"libraries-falling": lambda i: b"library%08d.dll\0" % (count - i),
                    "libraries-same": lambda i: b"library_of_a_name\0"}[kind]
            texts = b"".join(name(i) for i in range(count))
            names = [text + len(name(0)) * i for i in range(count)]
    elif kind == "imports-ordinary":
        texts = b"".join(b"library%06d.dll\0\0\0" % i for i in range(count))
        names = [text + 20 * i for i in range(count)]
        following = text + len(texts)
        texts += b"".join(b"\1\0name_of_%08x\0\0" % i for i in range(per_record * count))
        for i in range(count):
            entries += [BASE + following + 20 * (per_record * i + k) for k in range(per_record)] + [0]
    else:
        step = length // (2 * count + 2)
        texts = b"a" * length + b"\0"
        for i in range(count):
            inside = text + (2 * i * step if kind == "imports-one-text" else 0)
            names.append(inside)
            entries += [BASE + inside + step, 0]
    for i, name in enumerate(names):
        at = BASE + lists + (0 if libraries else list_size * i)
        out += struct.pack("<IIIII", at, 0, 0, BASE + name, at)
    out += bytes(20)
    out += struct.pack("<%dQ" % len(entries), *entries)
    out += texts


def make(kind, size):
    """The bytes of an image of this kind, of about this size."""
    size = max(size, 4_000_000) if kind == "sections" else size
    out = headers(kind, size)
    (exports if kind.startswith("exports") or kind == "sections" else imports)(kind, out, size)
    out += bytes(max(0, size - len(out)))
    return bytes(out)


if __name__ == "__main__":
    if len(sys.argv) != 4 or sys.argv[1] not in KINDS:
        sys.exit(__doc__ + "\n" + "\n".join("    %-20s %s" % item for item in KINDS.items()))
    with open(sys.argv[3], "wb") as file:
        file.write(make(sys.argv[1], int(sys.argv[2])))
