"""Reads by Python's struct, for compare_pe, what neither llvm-readobj nor pefile reads, or not whole: what debug records have, all
fields of load configurations, COFF symbols, and TE images. Each function returns what the JSON of `pe` says of the same, in the same
terms."""

import hashlib
import re
import struct

from comparing import Image, Unread
from contents import bytes_of

CONFIG = 10
FEATURES, POGO, REPRO, EMBEDDED, CHECKSUM, CHARACTERISTICS = 12, 13, 16, 17, 19, 20
POGO_SIGNATURES = {0x4C544347: "LTCG", 0x50475500: "PGU"}
MACHINES = 0x14C, 0x8664, 0x1C0, 0x1C4, 0xAA64, 0xEBC
SYMBOL, TE_HEADER = struct.Struct("<8sIhHBB"), struct.Struct("<HHBBHIIQIIII")
TE_SECTION, LEAST_HEADER = 0x12, 40
# IMAGE_LOAD_CONFIG_DIRECTORY64 of winnt.h: P is as wide as an address, H and I as in struct, and each field is aligned.
LOAD_CONFIG = """
    I Size I TimeDateStamp H MajorVersion H MinorVersion I GlobalFlagsClear I GlobalFlagsSet I CriticalSectionDefaultTimeout
    P DeCommitFreeBlockThreshold P DeCommitTotalFreeThreshold P LockPrefixTable P MaximumAllocationSize P VirtualMemoryThreshold
    P ProcessAffinityMask I ProcessHeapFlags H CSDVersion H DependentLoadFlags P EditList P SecurityCookie P SEHandlerTable
    P SEHandlerCount P GuardCFCheckFunctionPointer P GuardCFDispatchFunctionPointer P GuardCFFunctionTable P GuardCFFunctionCount
    I GuardFlags H CodeIntegrity.Flags H CodeIntegrity.Catalog I CodeIntegrity.CatalogOffset I CodeIntegrity.Reserved
    P GuardAddressTakenIatEntryTable P GuardAddressTakenIatEntryCount P GuardLongJumpTargetTable P GuardLongJumpTargetCount
    P DynamicValueRelocTable P CHPEMetadataPointer P GuardRFFailureRoutine P GuardRFFailureRoutineFunctionPointer
    I DynamicValueRelocTableOffset H DynamicValueRelocTableSection H Reserved2 P GuardRFVerifyStackPointerFunctionPointer
    I HotPatchTableOffset I Reserved3 P EnclaveConfigurationPointer P VolatileMetadataPointer P GuardEHContinuationTable
    P GuardEHContinuationCount P GuardXFGCheckFunctionPointer P GuardXFGDispatchFunctionPointer
    P GuardXFGTableDispatchFunctionPointer P CastGuardOsDeterminedFailureMode P GuardMemcpyFunctionPointer""".split()
# Of 32 bits these two stand in the other order.
EXCHANGED = {"ProcessAffinityMask": "ProcessHeapFlags", "ProcessHeapFlags": "ProcessAffinityMask"}


def numbers(form, data):
    if len(data) < struct.calcsize(form):
        raise Unread("Short")
    return struct.unpack_from(form, data)


# Debug records.

def pogo_of(data):
    """The signature of a POGO record, and its parts: name, RVA and size."""
    signature = numbers("<I", data)[0]
    if signature not in POGO_SIGNATURES:
        return None
    rest, parts = data[4:], []
    while rest:
        zero = rest.find(b"\0", 8)
        end = (zero + 1 + 3) // 4 * 4
        if len(rest) < 8 or zero < 0 or end > len(rest):
            break
        parts.append((rest[8:zero].decode("utf-8", "surrogateescape"), *numbers("<II", rest)))
        rest = rest[end:]
    return POGO_SIGNATURES[signature], parts


def repro_of(data):
    """The hash that makes builds comparable, or a text without one."""
    return data[4:4 + numbers("<I", data)[0]].hex() if data else "no hash"


def embedded_of(data):
    """How many bytes an embedded PDB has, and how many compressed."""
    magic, size = numbers("<4sI", data)
    return (size, len(data) - 8) if magic == b"MPDB" else None


def checksum_of(data):
    """The algorithm of the checksum of a PDB, and the checksum."""
    name, _, rest = data.partition(b"\0")
    return name.decode("utf-8", "surrogateescape"), rest.hex()


# How the record of an entry is read, and what it is called.
RECORDS = {
    EMBEDDED: ("embedded_pdb", embedded_of), CHECKSUM: ("pdb_checksum", checksum_of),
    FEATURES: ("vc_features", lambda data: list(numbers("<5I", data))), POGO: ("pogo", pogo_of),
    CHARACTERISTICS: ("extended_dll_characteristics", lambda data: numbers("<I", data)[0]), REPRO: ("repro", repro_of),
}


def records_of(entries, data_of):
    """The first record of each kind that is read here, by the type, size and data of entries. None cannot be read."""
    found = {}
    for kind, *entry in entries:
        name, read = RECORDS.get(kind, (None, None))
        if name and name not in found:
            try:
                found[name] = read(data_of(*entry))
            except Unread:
                found[name] = None
    return {name: it for name, it in found.items() if it is not None}


# Directories.

def load_config(image):
    """The fields of a load configuration by their names in winnt.h, those that its size covers."""
    address = image.directory(CONFIG)[0]
    if not address:
        return {}
    place, wide = image.place_of(address), is_wide(image)
    room, offset, found = min(image.number("<I", place), len(image.bytes) - place), 0, {}
    for letter, name in zip(LOAD_CONFIG[::2], LOAD_CONFIG[1::2]):
        if not wide and name in EXCHANGED:
            name = EXCHANGED[name]
            letter = "I"
        form = {"P": "Q" if wide else "I"}.get(letter, letter)
        width = struct.calcsize(form)
        offset = -(-offset // width) * width
        if offset + width <= room and not name.startswith("Reserved"):
            found[name] = image.number(f"<{form}", place + offset)
        offset += width
    return found


def is_wide(image):
    return image.number("<H", image.pe + 24) == 0x20B


# Symbols, objects and TE images.

def symbols_of(data, place, count):
    """The COFF symbols: index, name, value, section, type, storage class and number of auxiliary records."""
    if place == 0:
        return []
    end = place + SYMBOL.size * count
    table, rows, row = data[end:end + max(4, numbers("<I", data[end:])[0])], [], 0
    while row < count:
        name, *values, aux = SYMBOL.unpack_from(data, place + SYMBOL.size * row)
        if not name[0]:
            at = struct.unpack_from("<I", name, 4)[0]
            if at < 4:
                raise Unread("StringTable")
            name = table[at:table.index(b"\0", at)]
        rows.append((row, name.split(b"\0")[0].decode("utf-8", "replace"), *values, aux))
        row += 1 + aux
    return rows


def symbols_of_image(image):
    return symbols_of(image.bytes, *image.numbers("<II", image.pe + 12))


def te_image(data):
    """The numbers of a TE image's header, its two directories and its sections; RVAs without the bytes that were stripped."""
    _, machine, count, subsystem, stripped, entry, code, base, *dirs = TE_HEADER.unpack_from(data)
    less = lambda n: (n - (stripped - LEAST_HEADER)) % 2**32
    sections = []
    for i in range(count):
        name, size, rva, raw, at = struct.unpack_from("<8sIIII", data, LEAST_HEADER + 40 * i)
        sections.append((name.split(b"\0")[0].decode("utf-8", "surrogateescape"), less(rva), size, less(at), raw))
    directories = [(less(rva), size) for rva, size in (dirs[:2], dirs[2:]) if rva or size]
    return {"TE header": (machine, subsystem, count, stripped, less(entry), less(code), base), "TE directories": directories,
            "TE sections": sections}


def object_at(data):
    """Whether these bytes are an object: a known machine, and symbols inside the file."""
    if len(data) < 20:
        return False
    machine, _, _, place, count, optional, _ = struct.unpack_from("<HHIIIHH", data)
    return machine in MACHINES and optional == 0 and place + SYMBOL.size * count <= len(data)


def members_of(data):
    """The objects of an archive."""
    place = 8
    while data[place + 58:place + 60] == b"`\n":
        size = int(data[place + 48:place + 58])
        if object_at(data[place + 60:place + 60 + size]):
            yield f"({place:#x})", data[place + 60:place + 60 + size]
        place += 60 + size + size % 2


def te_images_of(data):
    """The TE images in the sections of firmware volumes."""
    for found in re.finditer(rb"VZ(?:\x64\x86|\x4c\x01|\x64\xaa)", data):
        place = found.start()
        size = int.from_bytes(data[max(0, place - 4):place - 1], "little") if place >= 4 else 0
        if place >= 4 and data[place - 1] == TE_SECTION and TE_HEADER.size < size <= len(data) - place + 4:
            yield f"({place:#x})", data[place:place + size - 4]


def inputs(path):
    """The kind, name and bytes of each input in a file: an image, a TE image, an object, those in archives and firmware volumes."""
    data = bytes_of(path)
    if data[:2] == b"MZ":
        yield "image", "", data
    elif data[:2] == b"VZ":
        yield "te", "", data
    elif data[:8] == b"!<arch>\n":
        yield from (("object", *it) for it in members_of(data))
    elif object_at(data):
        yield "object", "", data
    elif b"_FVH" in data[:0x1000] or path.endswith(".fd"):
        yield from (("te", *it) for it in te_images_of(data))


# All of a file.

def read(kind, data, path):
    """The parts of an input, by compare_pe's names. One that cannot be read is left out."""
    if kind == "te":
        return te_image(data)
    if kind == "object":
        machine, count, stamp, place, number = struct.unpack_from("<HHIII", data)
        return {"symbols": symbols_of(data, place, number), "object header": (machine, stamp, count, place, number)}
    image = Image(path)
    ways = {"all of the load configuration": load_config, "symbols": symbols_of_image,
            "hashes of the file": lambda it: [hashlib.new(name, data).hexdigest() for name in ("md5", "sha1", "sha256")]}
    found = {}
    for name, way in ways.items():
        try:
            found[name] = way(image)
        except (Unread, struct.error, ValueError):
            continue
    return found
