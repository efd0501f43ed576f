"""Made images: of some hundred KB, whose lists and names are one and the same bytes, many times over; and of what the other
images of the tests do not have. `hostile.py FOLDER` writes the latter into a folder, for tools/compare_pefile."""
import os
import struct
import sys

RVA, OFFSET = 0x1000, 0x400
EXPORT, IMPORT, RESOURCE, LOAD_CONFIG, DELAY_IMPORT = 0, 1, 2, 10, 13
BASE = 0x180000000


def image(body, directories):
    """An x64 image with one section, and its directories: RVA and size of each by its index."""
    body = bytes(body) + bytes(-len(body) % 0x200)
    size = len(body)
    head = bytearray(OFFSET)
    head[:2] = b"MZ"
    struct.pack_into("<I4sHHIIIHH", head, 0x3C, 0x40, b"PE\0\0", 0x8664, 1, 0, 0, 0, 240, 0x2022)
    struct.pack_into("<HBBIIIII", head, 0x58, 0x20B, 0, 0, size, 0, 0, RVA, RVA)
    struct.pack_into("<QII", head, 0x70, BASE, 0x1000, 0x200)
    struct.pack_into("<HHHHHHIIIIHH", head, 0x80, 6, 0, 0, 0, 6, 0, 0, RVA + size, OFFSET, 0, 3, 0)
    struct.pack_into("<QQQQII", head, 0xA0, 0, 0, 0, 0, 0, 16)
    for index, place in directories.items():
        struct.pack_into("<II", head, 0xC8 + 8 * index, *place)
    struct.pack_into("<8sIIIIIIHHI", head, 0x148, b".text", size, RVA, size, OFFSET, 0, 0, 0, 0, 0x60000020)
    return bytes(head) + body


def exports(names, length, letter=b"A"):
    """Names of exports that share one text of such letters."""
    functions = RVA + 40
    table, ordinals = functions + 4, functions + 4 + 4 * names
    text = ordinals + 2 * names
    body = bytearray(text - RVA + length + 8)
    struct.pack_into("<IIHHIIIIIII", body, 0, 0, 0, 0, 0, text, 1, 1, names, functions, table, ordinals)
    struct.pack_into("<I", body, 40, RVA)
    struct.pack_into(f"<{names}I", body, table - RVA, *(text + i % 8 for i in range(names)))
    body[text - RVA:text - RVA + length] = letter * length
    return image(body, {EXPORT: (RVA, len(body))})


def unmapped(names):
    """Names of exports at an RVA that no section maps."""
    data = bytearray(exports(names, 9))
    struct.pack_into(f"<{names}I", data, OFFSET + 44, *[0x7FFFFFF0] * names)
    return bytes(data)


def block_of(key, value, children):
    """A block of version information."""
    def padded(data):
        return data + bytes(-len(data) % 4)
    data = padded(struct.pack("<HHH", 0, len(value), 0) + key.encode("utf-16-le") + b"\0\0") + value
    for it in children:
        data = padded(data) + it
    return struct.pack("<H", len(data)) + data[2:]


def version_tables(count):
    """A resource of version information with so many tables of strings, each without a name and a string."""
    fixed = struct.pack("<I", 0xFEEF04BD) + bytes(48)
    content = block_of("VS_VERSION_INFO", fixed, [block_of("StringFileInfo", b"", [block_of("", b"", [])] * count)])
    tree = b"".join(struct.pack("<IIIIII", 0, 0, 0, 1 << 16, number, below)
                    for number, below in ((16, 1 << 31 | 24), (1, 1 << 31 | 48), (0x409, 72)))
    body = tree + struct.pack("<IIII", RVA + 88, len(content), 0, 0) + content
    return image(body, {RESOURCE: (RVA, len(body))})


def imports(libraries, names):
    """Libraries that share one list, whose imports share one name."""
    table = RVA + 20 * (libraries + 1)
    table += -table % 8
    hint = table + 8 * (names + 1)
    body = bytearray(hint + 32 - RVA)
    for i in range(libraries):
        struct.pack_into("<IIIII", body, 20 * i, table, 0, 0, hint + 16, table)
    struct.pack_into(f"<{names}Q", body, table - RVA, *[hint] * names)
    body[hint + 2 - RVA:hint + 7 - RVA] = b"Sleep"
    body[hint + 16 - RVA:hint + 21 - RVA] = b"k.dll"
    return image(body, {IMPORT: (RVA, 20 * (libraries + 1))})


def refused_imports(libraries, length, names=0):
    """Libraries whose lists all start with an import that is refused: by its name, so long and no text, or, with a list of so many
    others after it, since its RVA is unmapped."""
    table = RVA + 20 * (libraries + 1)
    table += -table % 8
    name = table + 8 * (names + 2)
    body = bytearray(name - RVA) + b"k.dll\0\0\0" + b"A" * length + b"\xff\0"
    for i in range(libraries):
        struct.pack_into("<IIIII", body, 20 * i, table, 0, 0, name, table)
    struct.pack_into(f"<{1 + names}Q", body, table - RVA, 0x7FFFFFF0 if names else name + 6, *[1 << 63 | 1] * names)
    return image(body, {IMPORT: (RVA, 20 * (libraries + 1))})


def refused_delay_imports(libraries, length):
    """Libraries that are loaded later, whose functions all start with one whose name is so long and no text."""
    table = RVA + 32 * (libraries + 1)
    body = bytearray(table + 16 - RVA) + b"k.dll\0\0\0" + b"A" * length + b"\xff\0"
    for i in range(libraries):
        struct.pack_into("<IIIIIIII", body, 32 * i, 1, table + 16, 0, 0, table, 0, 0, 0)
    struct.pack_into("<QQ", body, table - RVA, table + 16 + 6, 0)
    return image(body, {DELAY_IMPORT: (RVA, 32 * (libraries + 1))})


def object_with_names(symbols, sections, strings):
    """An object with so many symbols and sections, whose names start in a string table of such bytes, each a byte after the one
    before."""
    start = 20 + 40 * sections
    data = bytearray(struct.pack("<HHIIIHH", 0x8664, sections, 0, start, symbols, 0, 0))
    for i in range(sections):
        data += struct.pack("<8s32x", b"/%d" % (4 + i))
    for i in range(symbols):
        data += struct.pack("<II10x", 0, 4 + i % len(strings))
    return bytes(data) + struct.pack("<I", 4 + len(strings)) + strings


def resources(*counts):
    """A tree of three levels with so many entries, all of which lead to the same directory of the next level."""
    starts = [sum(16 + 8 * it for it in counts[:i]) for i in range(4)]
    body = bytearray(starts[3] + 16)
    for level, count in enumerate(counts):
        leads_to = starts[level + 1] | (1 << 31 if level < 2 else 0)
        struct.pack_into("<IIHHHH", body, starts[level], 0, 0, 0, 0, 0, count)
        for i in range(count):
            struct.pack_into("<II", body, starts[level] + 16 + 8 * i, i + 1, leads_to)
    struct.pack_into("<IIII", body, starts[3], RVA, 4, 0, 0)
    return image(body, {RESOURCE: (RVA, len(body))})


def named_forwarders(count, length, letter):
    """Exports with one short name that forward to one text of such letters."""
    names = RVA + 40 + 4 * 8
    ordinals, name = names + 4 * count, names + 6 * count
    text = name + 2
    body = bytearray(text - RVA + length + 8)
    struct.pack_into("<IIHHIIIIIII", body, 0, 0, 0, 0, 0, name, 1, 8, count, RVA + 40, names, ordinals)
    struct.pack_into("<8I", body, 40, *(text + i for i in range(8)))
    struct.pack_into(f"<{count}I", body, names - RVA, *[name] * count)
    struct.pack_into(f"<{count}H", body, ordinals - RVA, *(i % 8 for i in range(count)))
    body[name - RVA:text - RVA] = b"f\0"
    body[text - RVA:text - RVA + length] = letter * length
    return image(body, {EXPORT: (RVA, len(body))})


def forwarders(count, length):
    """Exports without names that forward to one text, which is not UTF-8."""
    body = bytearray(40 + 4 * count + length + 8)
    text = RVA + 40 + 4 * count
    struct.pack_into("<IIHHIIIIIII", body, 0, 0, 0, 0, 0, text, 1, count, 0, RVA + 40, 0, 0)
    struct.pack_into(f"<{count}I", body, 40, *(text + i % 8 for i in range(count)))
    body[40 + 4 * count:40 + 4 * count + length] = b"\xff" * length
    return image(body, {EXPORT: (RVA, len(body))})


def with_sections(data, count):
    """The image with so many sections, all but the first without bytes, and the first as the last of them."""
    head, own, body = data[:OFFSET], data[0x148:0x170], data[OFFSET:]
    start = 0x148 + 40 * count
    start += -start % 0x200
    moved = bytearray(head[:0x148] + bytes(40 * (count - 1)) + own)
    struct.pack_into("<H", moved, 0x46, count)
    struct.pack_into("<I", moved, 0x148 + 40 * (count - 1) + 20, start)
    return bytes(moved) + bytes(start - len(moved)) + body


def long_names(count, length, letter):
    """Sections whose names are one string of the COFF string table."""
    data = bytearray(with_sections(image(bytes(16), {}), count))
    for i in range(count):
        data[0x148 + 40 * i:0x148 + 40 * i + 8] = b"/4\0\0\0\0\0\0"
    struct.pack_into("<I", data, 0x40 + 12, len(data))
    return bytes(data) + struct.pack("<I", length + 5) + letter * length + b"\0"


def block(key, children=b""):
    """A block of version information without a value."""
    body = key.encode("utf-16-le") + b"\0\0"
    body += bytes(-(6 + len(body)) % 4) + children
    return struct.pack("<HHH", 6 + len(body), 0, 0) + body + bytes(-len(body) - 6 & 3)


def versions(names, languages, blocks):
    """So many resources of version information, all the same, with so many blocks of which none is known."""
    data = resources(1, names, languages)
    struct.pack_into("<I", data := bytearray(data), OFFSET + 16, 16)
    content, body = block("VS_VERSION_INFO", block("A", block("B") * blocks)), data[OFFSET:]
    entry = 48 + 8 * (1 + names + languages)
    struct.pack_into("<II", body, entry, RVA + len(body), len(content))
    return image(body + content, {RESOURCE: (RVA, len(body))})


def guards(entries):
    """A load configuration whose guarded functions, guarded IAT entries, jumps and continuations are one table."""
    body = bytearray(280 + 4 * entries)
    struct.pack_into("<I", body, 0, 280)
    for place in (128, 160, 176, 264):
        struct.pack_into("<QQ", body, place, BASE + RVA + 280, entries)
    return image(body, {LOAD_CONFIG: (RVA, 280)})


def together(*parts):
    """An image with the directories of several: of each its function, arguments and directory."""
    global RVA
    own, body, directories = RVA, b"", {}
    for make, arguments, index in parts:
        RVA = own + len(body)
        one = make(*arguments)
        directories[index] = struct.unpack_from("<II", one, 0xC8 + 8 * index)
        body += one[OFFSET:]
    RVA = own
    return image(body, directories)


def ordinals():
    """Three exports without names, of which the second is unused."""
    body = bytearray(64)
    struct.pack_into("<IIHHIIIIIII", body, 0, 0, 0, 0, 0, RVA + 56, 5, 3, 0, RVA + 40, 0, 0)
    struct.pack_into("<III4s", body, 40, RVA, 0, RVA + 4, b"")
    body[56:62] = b"a.dll\0"
    return image(body, {EXPORT: (RVA, 40)})


def reversed_sections():
    """Two sections, of which the second has the lower RVA."""
    data = bytearray(resources(1, 1, 1))
    data[0x46] = 2
    struct.pack_into("<8sIIIIIIHHI", data, 0x170, b".low", 0x100, 0x800, 0, 0, 0, 0, 0, 0, 0xC0000080)
    return bytes(data)


def version_blocks(depth):
    """A version block in a version block, so many times."""
    block = b""
    for _ in range(depth):
        length = 12 + len(block)
        block = struct.pack("<HHHHHH", min(length, 0xFFFC), 0, 0, ord("A"), 0, 0) + block
    return block


def main():
    made = {"ordinals": ordinals(), "reversed": reversed_sections(), "languages": resources(1, 1, 300)}
    for name, data in made.items():
        with open(os.path.join(sys.argv[1], f"{name}.bin"), "wb") as file:
            file.write(data)


if __name__ == "__main__":
    main()
