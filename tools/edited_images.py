"""Images that random_edits makes by chance and changes: what may stand beside their resources, and in them.

`Made(chance)` draws some of HAZARDS, and has the bytes of an image with them, what its resources are, and its hazards. Whoever reads
`bytes` finds what is said in `leaves`; nothing here is read from what `pe` writes."""

import collections
import struct

PAGE, SECTOR = 0x1000, 0x200
RESOURCES, CERTIFICATES, RELOCATIONS, DEBUG, DIRECTORIES = 2, 4, 5, 6, 16
VERSION, MANIFEST, RCDATA = 16, 24, 10
HIGHLOW, DIR64 = 3, 10
DATA, CODE, ZEROS, GONE = 0x40000040, 0x60000020, 0xC0000080, 0x42000040
SIGNATURE = struct.pack("<II", 0xFEEF04BD, 0x10000)
# How often an image has each, and what `pe` may say where it refuses an edit of an image that has it.
HAZARDS = {
    "debug data in the slack": (0.25, None),
    "debug entries in the slack": (0.08, None),
    "debug data after the image": (0.2, None),
    "a section without data after it": (0.35, None),
    "no resource directory, and a section at RVA 0": (0.12, None),
    "base relocations into the section": (0.25, None),
    "one content for many": (0.35, None),
    "too many copies of one content": (0.03, "contents of the resources, which share bytes, are too large"),
    "version information": (0.5, None),
    "symbols": (0.2, None),
    "an overlay": (0.5, None),
    "a checksum": (0.5, None),
    "a section after it": (0.5, None),
    "headers without room": (0.08, "headers have no room for another section header"),
    "certificates": (0.04, "image has certificates"),
    "two directories": (0.02, "image has no resource directory"),
    "a language by a name": (0.03, "resource has a range outside of the array, or an id or language above 65,535"),
    "a leaf twice": (0.03, "resource is not sorted after the one before it"),
    # These two come with the slack: the section has more data in the file than pages in memory, and as many pages would end after the
    # image; and the debug entries are there.
    "data that reach past the image": (0, "section shares bytes or pages with the resource section or headers, or is after it"),
    "debug entries past the image": (0, "the entry point, a directory or a base relocation leads where the resources go"),
}
# Without a directory there are no resources, and where there are none nothing is in their section.
ALONE = "no resource directory, and a section at RVA 0"
OF_SECTION = {"debug data in the slack", "debug entries in the slack", "a section without data after it", "base relocations into the section",
              "one content for many", "too many copies of one content", "version information", "a language by a name", "a leaf twice"}

Leaf = collections.namedtuple("Leaf", "kind name language page content")


def rounded(number, unit):
    return -(-number // unit) * unit


# ---- version information

WORDS = ["CompanyName", "FileDescription", "FileVersion", "ProductName", "ProductVersion", "Comments", "Own", "\u00c4rger"]


def in_other_case(chance, text):
    return chance.choice([text, text, text.lower(), text.upper(), text.swapcase()])


def block(key, kind, value, children=()):
    """A block of version information: its length, that of its value (in code units of a text), whether it is a text, the key, the
    value, and blocks in it, each at a multiple of four bytes."""
    out = bytearray(6) + key.encode("utf-16-le") + b"\0\0"
    out += bytes(-len(out) % 4) + value
    for child in children:
        out += bytes(-len(out) % 4) + child
    struct.pack_into("<HHH", out, 0, len(out), len(value) // (2 if kind else 1), kind)
    return bytes(out)


def unknown(chance, levels):
    """A block that no reader knows, with others in it."""
    inner = [unknown(chance, levels - 1) for _ in range(chance.randrange(3))] if levels else []
    return block(chance.choice(["Custom", "X", "translation"]), 0, chance.randbytes(2 * chance.randrange(9)), inner)


def string(chance, name):
    """A string; some are marked as binary, and some have a block in them."""
    text = "".join(chance.choice("ab 1\u00e9\U0001F600") for _ in range(chance.randrange(9)))
    inner = [unknown(chance, 1)] if chance.random() < 0.15 else []
    return block(in_other_case(chance, name), int(chance.random() < 0.85), text.encode("utf-16-le") + b"\0\0", inner)


def string_info(chance):
    tables = [block(key, 1, b"", [string(chance, it) for it in chance.sample(WORDS, chance.randrange(5))])
              for key in chance.choice([["040904b0"], ["040904B0", "040704b0"], ["no number"], []])]
    return block(in_other_case(chance, "StringFileInfo"), 1, b"", tables)


def version(chance):
    """Version information with blocks that are not always there, or not as often."""
    more = [unknown(chance, 3)] if chance.random() < 0.4 else []
    pairs = block("Translation", 0, struct.pack("<HH", 0x409, 1200) * chance.randrange(3))
    variables = [pairs] + [block("Other", 0, b"\1\2\3\4")] * (chance.random() < 0.3)
    blocks = [string_info(chance) for _ in range(chance.choice([0, 1, 1, 1, 2]))] + [block("VarFileInfo", 1, b"", variables)] + more
    chance.shuffle(blocks)
    fixed = SIGNATURE + chance.randbytes(44) + chance.randbytes(4 * chance.choice([0, 0, 0, 1]))
    return block("VS_VERSION_INFO", 0, fixed if chance.random() < 0.9 else b"", blocks)


# ---- the tree of resources

def order(key):
    """Names before ids; these names are in the order of their code units."""
    return isinstance(key, int), key


class Tree:
    """The bytes of a resource section. Leaves whose contents are one object share its bytes."""

    def __init__(self, leaves):
        self.leaves = sorted(leaves, key=lambda it: (order(it.kind), order(it.name), order(it.language)))
        self.kinds = {}
        for leaf in self.leaves:
            self.kinds.setdefault(leaf.kind, {}).setdefault(leaf.name, []).append(leaf)
        self.places, self.end = {}, 0
        self.place()

    def put(self, what, size, unit=1):
        if what not in self.places:
            self.end = rounded(self.end, unit)
            self.places[what] = self.end
            self.end += size

    def place(self):
        """Directories, data entries, names and contents, in this order."""
        self.put("root", 16 + 8 * len(self.kinds))
        for kind, names in self.kinds.items():
            self.put(("kind", kind), 16 + 8 * len(names))
        for kind, names in self.kinds.items():
            for name, leaves in names.items():
                self.put(("name", kind, name), 16 + 8 * len(leaves))
        for number in range(len(self.leaves)):
            self.put(("leaf", number), 16)
        for leaf in self.leaves:
            for key in (leaf.kind, leaf.name, leaf.language):
                if isinstance(key, str):
                    self.put(("text", key), 2 + 2 * len(key), 2)
        for leaf in self.leaves:
            self.put(("content", id(leaf.content)), len(leaf.content), 8)

    def key(self, key):
        return 1 << 31 | self.places["text", key] if isinstance(key, str) else key

    def directory(self, out, where, rows):
        """A directory, of keys and of what they lead to."""
        names = sum(isinstance(key, str) for key, _ in rows)
        struct.pack_into("<IIHHHH", out, where, 0, 0, 0, 0, names, len(rows) - names)
        for index, (key, place) in enumerate(rows):
            struct.pack_into("<II", out, where + 16 + 8 * index, self.key(key), place)

    def bytes(self, rva):
        out, number, below = bytearray(self.end), 0, 1 << 31
        self.directory(out, 0, [(kind, below | self.places["kind", kind]) for kind in self.kinds])
        for kind, names in self.kinds.items():
            self.directory(out, self.places["kind", kind], [(name, below | self.places["name", kind, name]) for name in names])
            for name, leaves in names.items():
                rows = [(leaf.language, self.places["leaf", number + index]) for index, leaf in enumerate(leaves)]
                self.directory(out, self.places["name", kind, name], rows)
                number += len(leaves)
        for number, leaf in enumerate(self.leaves):
            place = self.places["content", id(leaf.content)]
            struct.pack_into("<IIII", out, self.places["leaf", number], rva + place, len(leaf.content), leaf.page, 0)
            out[place:place + len(leaf.content)] = leaf.content
        for what, place in self.places.items():
            if what[0] == "text":
                struct.pack_into("<H", out, place, len(what[1]))
                out[place + 2:place + 2 + 2 * len(what[1])] = what[1].encode("utf-16-le")
        return bytes(out)


def leaves_of(chance, hazards):
    """The leaves, and maybe one of the odd ones."""
    kinds, names, languages = [RCDATA, 23, MANIFEST, "CONFIG", "Blob"], [1, 2, 7, 900, "ALPHA", "Beta", "ZED"], [0, 0x407, 0x409, 0x40C]
    shared, found = chance.randbytes(chance.randrange(1, 400)), {}
    for _ in range(chance.randrange(1, 9)):
        place = chance.choice(kinds), chance.choice(names), chance.choice(languages)
        own = chance.randbytes(chance.choice([0, 1, 7, 64, 300, 900]))
        is_shared = "one content for many" in hazards and chance.random() < 0.6
        found[place] = Leaf(*place, chance.choice([0, 1252]), shared if is_shared else own)
    if "version information" in hazards:
        for language in chance.choice([[0x409], [0x407], [0, 0x40C]]):
            found[VERSION, 1, language] = Leaf(VERSION, 1, language, 0, version(chance))
    if "too many copies of one content" in hazards:
        large = chance.randbytes(60_000)
        found.update({("LARGE", number, 0): Leaf("LARGE", number, 0, 0, large) for number in range(400)})
    leaves = list(found.values())
    if "a language by a name" in hazards:
        leaves.append(Leaf(RCDATA, 5, "EN", 0, b"named"))
    return leaves + leaves[:1] if "a leaf twice" in hazards else leaves


# ---- the image

class Section:
    def __init__(self, name, content, flags=DATA, size=None):
        self.name, self.content, self.flags = name, bytearray(content), flags
        self.size = len(content) if size is None else size
        self.rva = self.pointer = 0


def checksum(bytes_, field):
    """The sum of 16-bit words with their carries, without the field, and the length."""
    data = bytearray(bytes_) + bytes(len(bytes_) % 2)
    data[field:field + 4] = bytes(4)
    total = sum(struct.unpack(f"<{len(data) // 2}H", data))
    while total >> 16:
        total = (total & 0xFFFF) + (total >> 16)
    return total + len(bytes_)


def record_of(chance):
    """A CodeView record, by which a debugger finds the PDB."""
    return b"RSDS" + chance.randbytes(16) + struct.pack("<I", chance.randrange(1, 9)) + b"a.pdb\0"


class Made:
    def __init__(self, chance):
        self.chance = chance
        self.hazards = {name for name, (often, _) in HAZARDS.items() if often and chance.random() < often}
        if ALONE in self.hazards:
            self.hazards -= OF_SECTION
        elif "two directories" in self.hazards:
            self.hazards.discard("two directories")
        self.is_wide, self.is_dll, self.alignment = chance.random() < 0.6, chance.random() < 0.5, chance.choice([SECTOR, SECTOR, PAGE])
        self.leaves = [] if ALONE in self.hazards else leaves_of(chance, self.hazards)
        self.tree = Tree(self.leaves)
        self.own = None
        self.directories = [(0, 0)] * DIRECTORIES
        # Debug entries as (RVA, file offset, record), where the record is put once all places are known.
        self.records = []
        self.make_sections()
        self.lay_out()
        self.fill()
        self.bytes = self.written()

    def make_sections(self):
        chance, has = self.chance, self.hazards.__contains__
        self.code = Section(".text", chance.randbytes(chance.randrange(64, 0x600)), CODE)
        self.data = Section(".rdata", bytes(0x300))
        self.relocations = Section(".reloc", bytes(0x100), GONE)
        sections, after = [self.code, self.data], [self.relocations]
        if has(ALONE):
            sections.insert(0, Section(".zero", b"IMPORTANT DATA"))
        else:
            slack = chance.choice([0, 0, 0x200, 0x1800, 0x4000]) + 0x200 * bool(self.hazards & OF_SECTION)
            self.own = Section(".rsrc", bytes(self.tree.end + slack), DATA, self.tree.end)
            after.insert(0, self.own)
            if has("a section without data after it"):
                after.insert(1, Section(".bss", b"", ZEROS, chance.choice([0x10, 0x1000, 0x2345])))
        if not has("a section after it"):
            # The resources are in the last section, or before one without data.
            after.remove(self.relocations)
            sections.append(self.relocations)
        self.sections = sections + after

    def lay_out(self):
        """Places in memory and in the file. The section after .rsrc may start where its pages in memory end, and its data reach further."""
        rva = PAGE
        self.headers = rounded(0x400, self.alignment)
        pointer = self.headers
        for it, after in zip(self.sections, [*self.sections[1:], None]):
            it.rva = 0 if it.name == ".zero" else rva
            used = it.size if after is not None and after.name == ".bss" else max(it.size, len(it.content))
            rva = rva if it.name == ".zero" else rounded(rva + used, PAGE)
            it.pointer = pointer if it.content else 0
            it.content += bytes(-len(it.content) % self.alignment)
            pointer += len(it.content)
        self.size_of_image, self.data_end = rva, pointer
        if self.own and rounded(self.own.rva + len(self.own.content), PAGE) > rva:
            self.hazards.add("data that reach past the image")
        self.overlay = self.chance.randbytes(self.chance.randrange(1, 900)) if "an overlay" in self.hazards else b""

    def debug(self):
        """Entries, each with its record: in .rdata, in the slack of the resources, or after the image."""
        chance, has, rows = self.chance, self.hazards.__contains__, []
        record = record_of(chance)
        self.data.content[0x100:0x100 + len(record)] = record
        rows.append((self.data.rva + 0x100, self.data.pointer + 0x100, record))
        if has("debug data in the slack"):
            record, at = record_of(chance), len(self.own.content) - 0x100
            self.own.content[at:at + len(record)] = record
            rows.append((chance.choice([0, self.own.rva + at]), self.own.pointer + at, record))
        if has("debug data after the image"):
            record = record_of(chance)
            rows.append((0, self.data_end + len(self.overlay), record))
            self.overlay += record
        entries = b"".join(struct.pack("<IIHHIIII", 0, 1, 0, 0, 2, len(it), rva, place) for rva, place, it in rows)
        owner, at = self.data, 0x200
        if has("debug entries in the slack"):
            owner, at = self.own, len(self.own.content) - 0x200
        owner.content[at:at + len(entries)] = entries
        if owner.rva + at >= self.size_of_image:
            self.hazards.add("debug entries past the image")
        self.directories[DEBUG] = owner.rva + at, len(entries)

    def relocate(self):
        """Base relocations of addresses in the code, and maybe of some in the resource section."""
        kind = DIR64 if self.is_wide else HIGHLOW
        places = [self.code.rva + 8 * self.chance.randrange(len(self.code.content) // 8) for _ in range(3)]
        if "base relocations into the section" in self.hazards:
            places.append(self.own.rva + self.chance.randrange(max(self.own.size - 8, 1)))
        blocks = b"".join(struct.pack("<IIHH", it & ~0xFFF, 12, kind << 12 | it & 0xFFF, 0) for it in places)
        self.relocations.content[:len(blocks)] = blocks
        self.directories[RELOCATIONS] = self.relocations.rva, len(blocks)

    def fill(self):
        if self.own:
            self.own.content[:self.tree.end] = self.tree.bytes(self.own.rva)
            self.directories[RESOURCES] = self.own.rva, self.tree.end
        self.symbols = 0
        if "symbols" in self.hazards:
            self.symbols = self.data_end
            self.overlay = b"".join(struct.pack("<8sIhHBB", b"name", it, 1, 0x20, 2, 0) for it in range(2)) + struct.pack("<I", 4) + self.overlay
        self.debug()
        self.relocate()
        if "certificates" in self.hazards:
            self.overlay += bytes(-(self.data_end + len(self.overlay)) % 8)
            self.directories[CERTIFICATES] = self.data_end + len(self.overlay), 16
            self.overlay += struct.pack("<IHHQ", 16, 0x200, 2, 0)

    def optional_header(self):
        form = "<HBB5I" + ("Q" if self.is_wide else "II") + "IIHHHHHHIIIIHH" + ("QQQQ" if self.is_wide else "IIII") + "II"
        base = (0x180000000,) if self.is_wide else (0, 0x10000000)
        count = 2 if "two directories" in self.hazards else DIRECTORIES
        fields = struct.pack(form, 0x20B if self.is_wide else 0x10B, 14, 0, len(self.code.content), 0x1000, 0, self.code.rva, self.code.rva, *base,
                             PAGE, self.alignment, 6, 0, 0, 0, 6, 0, 0, self.size_of_image, self.headers, 0, 2, 0,
                             1 << 20, PAGE, 1 << 20, PAGE, 0, count)
        return fields + b"".join(struct.pack("<II", *it) for it in self.directories[:count])

    def written(self):
        optional = self.optional_header()
        head = b"MZ".ljust(60, b"\0") + struct.pack("<I", 64)
        flags = (0x22 if self.is_wide else 0x102) | 0x2000 * self.is_dll
        head += struct.pack("<4sHHIIIHH", b"PE", 0x8664 if self.is_wide else 0x14C, len(self.sections), 7, self.symbols, 2 * bool(self.symbols),
                            len(optional), flags) + optional
        head += b"".join(struct.pack("<8sIIII12xI", it.name.encode(), it.size, it.rva, len(it.content), it.pointer, it.flags)
                         for it in self.sections)
        room = b"\xCC" if "headers without room" in self.hazards else b"\0"
        out = bytearray(head.ljust(self.headers, room) + b"".join(bytes(it.content) for it in self.sections) + self.overlay)
        if "a checksum" in self.hazards:
            field = 64 + 24 + 64
            struct.pack_into("<I", out, field, checksum(out, field))
        return bytes(out)
