"""An image by Python's struct, for random_edits: headers, sections, what is in memory, the resources, debug entries and base
relocations; and version information as a tree of blocks. It shares no code with the library or with pefile, and reads sound images."""

import collections
import struct

from edited_images import DEBUG, PAGE, RELOCATIONS, RESOURCES, rounded

# Sizes of what base relocations change, by their type.
SIZES = {0: 0, 3: 4, 10: 8}
COFF = "Machine NumberOfSections TimeDateStamp PointerToSymbolTable NumberOfSymbols SizeOfOptionalHeader Characteristics".split()
OPTIONAL = ("Magic MajorLinkerVersion MinorLinkerVersion SizeOfCode SizeOfInitializedData SizeOfUninitializedData AddressOfEntryPoint "
            "BaseOfCode {} SectionAlignment FileAlignment MajorOperatingSystemVersion MinorOperatingSystemVersion MajorImageVersion "
            "MinorImageVersion MajorSubsystemVersion MinorSubsystemVersion Win32VersionValue SizeOfImage SizeOfHeaders CheckSum Subsystem "
            "DllCharacteristics SizeOfStackReserve SizeOfStackCommit SizeOfHeapReserve SizeOfHeapCommit LoaderFlags NumberOfRvaAndSizes")
Section = collections.namedtuple("Section", "name size rva raw pointer flags")


class Read:
    def __init__(self, bytes_):
        self.bytes = bytes_
        self.start = self.at("<I", 60)[0]
        start = self.start + 4
        self.fields = dict(zip(COFF, self.at("<HHIIIHH", start)))
        optional, is_wide = start + 20, self.at("<H", start + 20)[0] == 0x20B
        form = "<HBB5I" + ("Q" if is_wide else "II") + "II6HIIIIHH" + ("QQQQ" if is_wide else "IIII") + "II"
        self.fields.update(zip(OPTIONAL.format("ImageBase" if is_wide else "BaseOfData ImageBase").split(), self.at(form, optional)))
        self.checksum_offset = optional + 64
        rows = optional + struct.calcsize(form)
        self.directories = [self.at("<II", rows + 8 * index) for index in range(self.fields["NumberOfRvaAndSizes"])]
        self.directories += [(0, 0)] * (16 - len(self.directories))
        table = optional + self.fields["SizeOfOptionalHeader"]
        self.sections = [self.section(table + 40 * index) for index in range(self.fields["NumberOfSections"])]
        self.table_end = table + 40 * len(self.sections)

    def at(self, form, place):
        return struct.unpack_from(form, self.bytes, place)

    def section(self, place):
        name, size, rva, raw, pointer, flags = self.at("<8sIIII12xI", place)
        return Section(name.rstrip(b"\0").decode("latin-1"), size, rva, raw, pointer, flags)

    def still_bytes(self, section):
        """The bytes of a section, without the file offsets that debug entries in it have, which move with what they lead to."""
        out = bytearray(self.bytes[section.pointer:section.pointer + section.raw])
        place = self.offset(self.directories[DEBUG][0]) if self.directories[DEBUG][0] else None
        for index in range(self.directories[DEBUG][1] // 28 if place is not None else 0):
            at = place + 28 * index + 24 - section.pointer
            if 0 <= at < len(out):
                out[at:at + 4] = bytes(4)
        return bytes(out)

    def data_end(self):
        return max([self.fields["SizeOfHeaders"]] + [it.pointer + it.raw for it in self.sections if it.raw])

    # In memory a section has its pages: its bytes as far as they go, and then zeros.

    def owner(self, rva):
        for it in self.sections:
            if it.rva <= rva < it.rva + rounded(max(it.size, 1), PAGE):
                return it
        return None

    def offset(self, rva):
        """The file offset of an RVA, or nothing. What is in the file after the pages of a section is not in memory."""
        it = self.owner(rva)
        return it.pointer + rva - it.rva if it and rva - it.rva < it.raw else None

    def memory(self, rva, length):
        """The bytes at an RVA once loaded, without what loading changes; nothing where they are not in one section. File offsets of debug
        entries are zeros, as in `still_bytes`."""
        it = self.owner(rva)
        if it is None:
            return None
        pages = self.still_bytes(it)[:rounded(it.size or it.raw, PAGE)].ljust(rounded(max(it.size, 1), PAGE), b"\0")
        return pages[rva - it.rva:rva - it.rva + length]

    # Resources.

    def resource_section(self):
        """The index of the section that starts at their directory, or nothing."""
        rva = self.directories[RESOURCES][0]
        return next((index for index, it in enumerate(self.sections) if rva and it.rva == rva), None)

    def leaves(self):
        """The code page and the bytes of each resource, by type, name and language."""
        rva = self.directories[RESOURCES][0]
        if not rva:
            return {}
        start, found = self.offset(rva), {}
        for kind, below in self.rows(start, 0):
            for name, lower in self.rows(start, below):
                for language, leaf in self.rows(start, lower):
                    content, size, page, _ = self.at("<4I", start + leaf)
                    place = self.offset(content) if size else 0
                    found[kind, name, language] = page, self.bytes[place:place + size]
        return found

    def rows(self, start, directory):
        """Keys of a directory, and the offsets that they lead to, without the highest bit, which says that it is a directory."""
        names, ids = self.at("<HH", start + directory + 12)
        for index in range(names + ids):
            key, below = self.at("<II", start + directory + 16 + 8 * index)
            if (index < names) != (key >> 31 == 1):
                raise ValueError("a name among ids, or an id among names")
            yield self.name(start + (key & 0x7FFFFFFF)) if index < names else key, below & 0x7FFFFFFF

    def name(self, place):
        length = self.at("<H", place)[0]
        return self.bytes[place + 2:place + 2 + 2 * length].decode("utf-16-le")

    # Debug entries and base relocations.

    def debug_entries(self):
        rva, size = self.directories[DEBUG]
        place = self.offset(rva) if rva else None
        return [] if place is None else [self.at("<IIHHIIII", place + 28 * index) for index in range(size // 28)]

    def relocations(self):
        """The RVA and the size of what each changes."""
        rva, size = self.directories[RELOCATIONS]
        place, end = (self.offset(rva) or 0, (self.offset(rva) or 0) + size) if rva else (0, 0)
        while place < end:
            page, length = self.at("<II", place)
            for (entry,) in struct.iter_unpack("<H", self.bytes[place + 8:place + length]):
                yield page + (entry & 0xFFF), SIZES[entry >> 12]
            place += length


def tree_of(content):
    """Version information as blocks: each its key, whether it is a text, its value, and the blocks in it."""
    return block_at(content, 0, len(content))[0]


def block_at(content, place, end):
    """A block, and where the next one may start."""
    length, size, kind = struct.unpack_from("<HHH", content, place)
    if length < 8 or place + length > end:
        raise ValueError(f"a block of {length} bytes at {place}")
    last, at = place + length, place + 6
    while content[at:at + 2] != b"\0\0":
        at += 2
    key, value = content[place + 6:at].decode("utf-16-le"), rounded(at + 2, 4)
    after, blocks = min(value + size * (2 if kind else 1), last), []
    next_one = rounded(after, 4)
    while next_one < last:
        inner, next_one = block_at(content, next_one, last)
        blocks.append(inner)
    return (key, kind, content[value:after], tuple(blocks)), rounded(last, 4)
