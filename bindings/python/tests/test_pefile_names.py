"""Each public name of pefile is in pe_c.pefile, or in the table of what is not with why; and none is in both.

The names are read from the source of pefile, where it is installed, and so are those of the fields of its
structures."""
import ast
import importlib.util
import os
import re
import struct
import tempfile
import unittest

import hostile
import pe_c
from pe_c import pefile as ours
from pe_c._pefile_gaps import GAPS, NotInPeC

SPEC = importlib.util.find_spec("pefile")
IMAGES = os.environ["PE_C_IMAGES"]


def source():
    with open(SPEC.origin, encoding="utf-8") as file:
        return file.read()


def module_names(tree):
    for it in tree.body:
        targets = [it.target] if isinstance(it, ast.AnnAssign) else getattr(it, "targets", [])
        yield from (name.id for name in targets if isinstance(name, ast.Name))
        if isinstance(it, (ast.FunctionDef, ast.ClassDef)):
            yield it.name


def methods(tree):
    """The methods of the classes that the module has."""
    for it in tree.body:
        if isinstance(it, ast.ClassDef) and it.name not in GAPS:
            yield from (f"{it.name}.{one.name}" for one in it.body if isinstance(one, ast.FunctionDef))


def fields(text):
    """The fields of structures: ("NAME", ("I,Field,OtherName", ..))."""
    for name, body in re.findall(r'__\w+_format__ = [\[(]\s*"(\w+)",\s*([\[(].*?[\])]),?\s*[\])]\n', text, re.S):
        for it in re.findall(r'"[\w:]+,([\w,]+)"', body):
            yield from (f"{name}.{one}" for one in it.split(","))


# What an image has of each structure of pefile, among the images of the tests.
STRUCTURES = {
    "IMAGE_DOS_HEADER": ("small", lambda pe: pe.DOS_HEADER), "IMAGE_FILE_HEADER": ("small", lambda pe: pe.FILE_HEADER),
    "IMAGE_OPTIONAL_HEADER": ("x86_dll", lambda pe: pe.OPTIONAL_HEADER),
    "IMAGE_OPTIONAL_HEADER64": ("exports", lambda pe: pe.OPTIONAL_HEADER),
    "IMAGE_NT_HEADERS": ("small", lambda pe: pe.NT_HEADERS), "IMAGE_SECTION_HEADER": ("exports", lambda pe: pe.sections[0]),
    "IMAGE_DATA_DIRECTORY": ("exports", lambda pe: pe.OPTIONAL_HEADER.DATA_DIRECTORY[0]),
    "IMAGE_IMPORT_DESCRIPTOR": ("x86_dll", lambda pe: pe.DIRECTORY_ENTRY_IMPORT[0].struct),
    "IMAGE_DELAY_IMPORT_DESCRIPTOR": ("delay_imports", lambda pe: pe.DIRECTORY_ENTRY_DELAY_IMPORT[0].struct),
    "IMAGE_EXPORT_DIRECTORY": ("exports", lambda pe: pe.DIRECTORY_ENTRY_EXPORT.struct),
    "IMAGE_RESOURCE_DIRECTORY": ("resources", lambda pe: pe.DIRECTORY_ENTRY_RESOURCE.struct),
    "IMAGE_RESOURCE_DIRECTORY_ENTRY": ("resources", lambda pe: pe.DIRECTORY_ENTRY_RESOURCE.entries[0].struct),
    "IMAGE_RESOURCE_DATA_ENTRY": ("resources", lambda pe: pe.DIRECTORY_ENTRY_RESOURCE.entries[0].directory.entries[0].directory
                                  .entries[0].data.struct),
    "VS_VERSIONINFO": ("resources", lambda pe: pe.VS_VERSIONINFO[0]),
    "VS_FIXEDFILEINFO": ("resources", lambda pe: pe.VS_FIXEDFILEINFO[0]),
    "StringFileInfo": ("resources", lambda pe: pe.FileInfo[0][0]),
    "StringTable": ("resources", lambda pe: pe.FileInfo[0][0].StringTable[0]),
    "IMAGE_DEBUG_DIRECTORY": ("debug", lambda pe: pe.DIRECTORY_ENTRY_DEBUG[0].struct),
    "CV_INFO_PDB70": ("debug", lambda pe: pe.DIRECTORY_ENTRY_DEBUG[0].entry),
    "CV_INFO_PDB20": ("old_debug", lambda pe: pe.DIRECTORY_ENTRY_DEBUG[0].entry),
    "IMAGE_BASE_RELOCATION": ("relocations", lambda pe: pe.DIRECTORY_ENTRY_BASERELOC[0].struct),
    "IMAGE_BASE_RELOCATION_ENTRY": ("relocations", lambda pe: pe.DIRECTORY_ENTRY_BASERELOC[0].entries[0].struct),
    "IMAGE_THUNK_DATA": ("imports", lambda pe: pe.DIRECTORY_ENTRY_IMPORT[0].imports[0].struct_table),
    "Var": ("resources", lambda _: next(it for it in with_version().FileInfo[0] if it.Key == b"VarFileInfo").Var[0]),
    "IMAGE_TLS_DIRECTORY": ("tls", lambda pe: pe.DIRECTORY_ENTRY_TLS.struct),
    "IMAGE_LOAD_CONFIG_DIRECTORY": ("guards", lambda pe: pe.DIRECTORY_ENTRY_LOAD_CONFIG.struct),
    "IMAGE_BOUND_IMPORT_DESCRIPTOR": ("bound_imports", lambda pe: pe.DIRECTORY_ENTRY_BOUND_IMPORT[0].struct),
    "IMAGE_BOUND_FORWARDER_REF": ("bound_imports", lambda pe: pe.DIRECTORY_ENTRY_BOUND_IMPORT[0].entries[0].struct),
    "RUNTIME_FUNCTION": ("functions", lambda pe: pe.DIRECTORY_ENTRY_EXCEPTION[0].struct),
}


def opened(name):
    return ours.PE(os.path.join(IMAGES, f"{name}.bin"))


def with_version():
    """An image with version information that has a translation."""
    editor = pe_c.ResourceEditor(pe_c.Image(open_bytes("editable.exe")))
    editor.set(16, 1, 0x409, pe_c.version_info(file_version=(1, 2, 3, 4), strings={"CompanyName": "Example"}))
    return ours.PE(data=editor.write())


def open_bytes(name):
    with open(os.path.join(IMAGES, name), "rb") as file:
        return file.read()


class Gaps(unittest.TestCase):
    """Without pefile: what the table names is missing, and says why."""

    def test_a_missing_field_has_no_value(self):
        config, name = opened("guards").DIRECTORY_ENTRY_LOAD_CONFIG.struct, "GuardRFVerifyStackPointerFunctionPointerI"
        self.assertFalse(hasattr(config, name))
        with self.assertRaises(NotInPeC) as caught:
            getattr(config, name)
        self.assertEqual(caught.exception.reason, GAPS[f"IMAGE_LOAD_CONFIG_DIRECTORY.{name}"])

    def test_the_first_resource_directory_has_each_field_of_the_file(self):
        with open(os.path.join(IMAGES, "resources.bin"), "rb") as file:
            data = bytearray(file.read())
        pe = opened("resources")
        at = pe.get_offset_from_rva(pe.OPTIONAL_HEADER.DATA_DIRECTORY[2].VirtualAddress)
        numbers = (0x01020304, 0x05060708, 0x90A, 0xB0C, 0, 2)
        struct.pack_into("<IIHHHH", data, at, *numbers)
        directory = ours.PE(data=bytes(data)).DIRECTORY_ENTRY_RESOURCE.struct
        fields = "Characteristics TimeDateStamp MajorVersion MinorVersion NumberOfNamedEntries NumberOfIdEntries".split()
        self.assertEqual((directory.name, *(getattr(directory, it) for it in fields)), ("IMAGE_RESOURCE_DIRECTORY", *numbers))

    def test_the_export_directory_has_each_field_of_the_file(self):
        pe = opened("exports")
        at = pe.get_offset_from_rva(pe.OPTIONAL_HEADER.DATA_DIRECTORY[0].VirtualAddress)
        with open(os.path.join(IMAGES, "exports.bin"), "rb") as file:
            numbers = struct.unpack_from("<IIHHIIIIIII", file.read(), at)
        fields = ("Characteristics TimeDateStamp MajorVersion MinorVersion Name Base NumberOfFunctions NumberOfNames "
                  "AddressOfFunctions AddressOfNames AddressOfNameOrdinals").split()
        self.assertEqual(tuple(getattr(pe.DIRECTORY_ENTRY_EXPORT.struct, it) for it in fields), numbers)

    def test_missing_methods_and_names(self):
        pe = opened("exports")
        for name in ("parse_imports", "has_dynamic_relocs"):
            with self.assertRaises(NotInPeC):
                getattr(pe, name)
        with self.assertRaisesRegex(NotInPeC, r"^DynamicRelocationData: .*; pe_c\._pefile_gaps\.GAPS has"):
            ours.DynamicRelocationData
        for owner, name in ((ours, "no_such_name"), (pe, "no_such_name"), (pe.FILE_HEADER, "no_such_name")):
            with self.assertRaisesRegex(AttributeError, r"no_such_name; pe_c\._pefile_gaps\.GAPS"):
                getattr(owner, name)
        self.assertFalse(hasattr(pe, "DIRECTORY_ENTRY_TLS"))

    def test_fields_of_directories_are_written(self):
        """At their place in the file, and no other byte; a name of a PDB keeps its length."""
        pe = opened("imports")
        before = bytes(pe.__data__)
        at = pe.get_offset_from_rva(pe.OPTIONAL_HEADER.DATA_DIRECTORY[1].VirtualAddress) + 20 + 4
        pe.DIRECTORY_ENTRY_IMPORT[1].struct.TimeDateStamp = 0x01020304
        self.assertEqual(bytes(pe.write()), before[:at] + b"\4\3\2\1" + before[at + 4:])
        pe = opened("debug")
        before = bytes(pe.__data__)
        record = pe.DIRECTORY_ENTRY_DEBUG[0].entry
        record.PdbFileName = b"b.pdb and more\0"
        at = pe.DIRECTORY_ENTRY_DEBUG[0].struct.PointerToRawData + 24
        self.assertEqual(bytes(pe.write()), before[:at] + b"b.pdb " + before[at + 6:])

    def test_what_is_dumped(self):
        pe = opened("exports")
        self.assertEqual(pe.dump_dict()["Exported symbols"][3],
                         {"Ordinal": 8, "RVA": pe.DIRECTORY_ENTRY_EXPORT.symbols[2].address, "Name": None,
                          "forwarder": b"NTDLL.RtlFree"})
        self.assertIn("None forwarder: NTDLL.RtlFree\n", pe.dump_info())

    def test_a_structure_of_a_caller(self):
        pe, form = opened("exports"), ("PAIR", ("H,one", "I,two,other"))
        made = pe.__unpack_data__(form, b"\1\0\2\0\0\0more", 64)
        self.assertEqual((made.one, made.two, made.other, made.sizeof(), made.get_file_offset()), (1, 2, 2, 6, 64))
        self.assertEqual(made.__pack__(), b"\1\0\2\0\0\0")
        self.assertIsNone(pe.__unpack_data__(form, b"\1\0\2", 64))

    def test_exports_end_where_a_caller_says(self):
        """As pefile does: further names are left out, and what they name has no name."""
        path = os.path.join(IMAGES, "exports.bin")
        def listed(**limits):
            pe = ours.PE(path, **limits)
            return [(it.name, it.ordinal) for it in pe.DIRECTORY_ENTRY_EXPORT.symbols], len(pe.get_warnings())
        self.assertEqual(listed(), ([(b"first", 6), (b"second", 5), (None, 8)], 0))
        self.assertEqual(listed(max_symbol_exports=1), ([(b"first", 6), (None, 5)], 2))
        self.assertEqual(listed(max_repeated_symbol=0), ([(b"first", 6), (b"second", 5)], 1))
        if SPEC:
            theirs = importlib.import_module("pefile").PE(path, max_symbol_exports=1)
            self.assertEqual([(it.name, it.ordinal) for it in theirs.DIRECTORY_ENTRY_EXPORT.symbols], listed(max_symbol_exports=1)[0])

    def test_string_tables_that_are_left_out(self):
        """Sixty tables are the same 1,000 bytes, in a file of fewer than 60,000: a warning says so before they are asked for."""
        data = bytearray(hostile.resources(1, 60, 1))
        self.assertEqual((len(data), data[hostile.OFFSET + 16]), (2048, 1))
        data[hostile.OFFSET + 16] = 6
        entry = data.index(struct.pack("<IIII", hostile.RVA, 4, 0, 0))
        struct.pack_into("<I", data, entry + 4, 1000)
        pe = ours.PE(data=bytes(data))
        self.assertTrue(any(it.startswith("String tables have more bytes than the file") for it in pe.get_warnings()))
        self.assertEqual(len(pe.DIRECTORY_ENTRY_RESOURCE.entries[0].directory.entries), 60)

    def test_what_is_written(self):
        """Fields of headers and bytes are changed, and nothing else of the file; what is not written is an error."""
        path = os.path.join(IMAGES, "resources.bin")
        with open(path, "rb") as file:
            before = file.read()
        pe = ours.PE(path)
        self.assertEqual(bytes(pe.write()), before)
        pe.FILE_HEADER.TimeDateStamp, pe.sections[0].Misc = 0x01020304, 0x500
        stamp = pe.FILE_HEADER.get_field_absolute_offset("TimeDateStamp")
        size = pe.sections[0].get_field_absolute_offset("Misc_VirtualSize")
        self.assertTrue(pe.set_dword_at_offset(size + 28, 0x11223344))
        expected = bytearray(before)
        for offset, number in ((stamp, 0x01020304), (size, 0x500)):
            struct.pack_into("<I", expected, offset, number)
        # The bytes of a header that was assigned to are those of its fields.
        data = pe.write()
        self.assertEqual(data, expected)
        self.assertEqual(pe.generate_checksum(), ours.PE(data=bytes(data)).generate_checksum())
        with tempfile.TemporaryDirectory() as room:
            self.assertIsNone(pe.write(os.path.join(room, "a.dll")))
            with open(os.path.join(room, "a.dll"), "rb") as file:
                self.assertEqual(file.read(), bytes(data))
        with self.assertRaises(struct.error):
            pe.FILE_HEADER.Machine = 1 << 16
            pe.write()
        with self.assertRaises(TypeError):
            pe.set_bytes_at_offset(0, "MZ")

    def test_version_information_is_written(self):
        """A text no longer than the one in the file, with zeros after it, and the fixed information: nothing else of the file."""
        pe = opened("resources")
        table, fixed, before = pe.FileInfo[0][0].StringTable[0], pe.VS_FIXEDFILEINFO[0], bytes(pe.__data__)
        key, text = next((key, value) for key, value in table.entries.items() if len(value) > 3 and value.isascii())
        table.entries[key], fixed.FileVersionMS = b"abc", 0x00070008
        expected = bytearray(before)
        at, wide = before.find(text.decode().encode("utf-16-le")), len(text) * 2
        self.assertEqual(before.count(text.decode().encode("utf-16-le")), 1)
        expected[at:at + wide] = "abc".encode("utf-16-le").ljust(wide, b"\0")
        struct.pack_into("<I", expected, before.find(struct.pack("<II", 0xFEEF04BD, 0x10000)) + 8, 0x00070008)
        self.assertEqual(bytes(pe.write()), bytes(expected))
        again = pe_c.Image(bytes(pe.write())).versions[0]
        self.assertEqual((again.fixed.file_version[:2], [it[key.decode()] for it in again.strings.values()]), ((7, 8), ["abc"]))

    def test_what_is_not_written(self):
        def entries(pe):
            return pe.FileInfo[0][0].StringTable[0].entries
        for change, error in ((lambda pe: entries(pe).__setitem__(b"Added", b"Example"), NotInPeC),
                              (lambda pe: entries(pe).pop(next(iter(entries(pe)))), NotInPeC),
                              (lambda pe: entries(pe).__setitem__(next(iter(entries(pe))), b"x" * 4096), ours.PEFormatError)):
            pe = opened("resources")
            pe.write()
            change(pe)
            with self.assertRaises(error):
                pe.write()

    def test_what_is_assigned_is_written(self):
        """To exports, imports and relocations: at their place, and nothing else of the file."""
        pe = opened("exports")
        first, forwarded = pe.DIRECTORY_ENTRY_EXPORT.symbols[0], pe.DIRECTORY_ENTRY_EXPORT.symbols[2]
        expected = bytearray(pe.__data__)
        at = pe.get_offset_from_rva(pe.DIRECTORY_ENTRY_EXPORT.struct.AddressOfFunctions) + 4 * (first.ordinal - 5)
        struct.pack_into("<I", expected, at, 0x1234)
        expected[expected.find(b"first\0"):expected.find(b"first\0") + 5] = b"FIRST"
        first.address, first.name = 0x1234, b"FIRST"
        self.assertEqual((bytes(pe.write()), first.name), (bytes(expected), b"FIRST"))
        with self.assertRaises(ours.PEFormatError):
            first.name = b"a longer one"
        self.assertFalse(hasattr(forwarded, "name_offset"))
        at = pe.get_offset_from_rva(pe.DIRECTORY_ENTRY_EXPORT.struct.AddressOfNameOrdinals)
        first.ordinal = 9
        self.assertEqual((bytes(pe.write()), at), (bytes(expected[:at] + b"\x09\0" + expected[at + 2:]), first.ordinal_offset))
        pe = opened("imports")
        named = next(it for it in pe.DIRECTORY_ENTRY_IMPORT[0].imports if it.name_offset)
        before, width = bytes(pe.__data__), named.struct_table.sizeof()
        named.ordinal = 7
        self.assertEqual(bytes(pe.write()), before[:named.thunk_offset] + (1 << 8 * width - 1 | 7).to_bytes(width, "little")
                         + before[named.thunk_offset + width:])
        name = named.name
        named.name = b"Z"
        self.assertEqual(bytes(pe.write()), before[:named.name_offset] + b"Z" + before[named.name_offset + 1:])
        self.assertEqual((len(name) > 1, named.struct_table.AddressOfData), (True, named.hint_name_table_rva))
        pe = opened("relocations")
        block = pe.DIRECTORY_ENTRY_BASERELOC[0]
        one, before = block.entries[0], bytes(pe.__data__)
        one.type, one.rva = 2, block.struct.VirtualAddress + 0x123
        at = block.struct.get_file_offset() + 8
        self.assertEqual(bytes(pe.write()), before[:at] + b"\x23\x21" + before[at + 2:])

    def test_unwind_records(self):
        """Of functions.bin, whose records tests/pe_c makes; the codes are those of Image.unwind."""
        pe = opened("functions")
        image = pe_c.open(os.path.join(IMAGES, "functions.bin"))
        for it in pe.DIRECTORY_ENTRY_EXCEPTION:
            record = image._core.unwind_record(it.struct.UnwindData)[0]
            if it.struct.UnwindData & 1:
                self.assertIsNone(it.unwindinfo)
                continue
            info, start = it.unwindinfo, pe.get_offset_from_rva(it.struct.UnwindData)
            self.assertEqual((info.Version, info.SizeOfProlog, info.get_file_offset()), (record.version, record.size_of_prolog, start))
            self.assertEqual(info.Version | info.Flags << 3, pe.__data__[start])
            self.assertEqual(bytes(info.__pack__()), bytes(pe.__data__[start:start + info.sizeof()]))
            self.assertEqual([one.struct.CodeOffset for one in info.UnwindCodes if not isinstance(one, ours.PrologEpilogOpEpilogMarker)],
                             [one.code_offset for one in record.codes if one.operation != 5])
        shared = {id(it.unwindinfo) for it in pe.DIRECTORY_ENTRY_EXCEPTION if it.unwindinfo}
        self.assertEqual(len(shared), len({it.struct.UnwindData for it in pe.DIRECTORY_ENTRY_EXCEPTION if it.unwindinfo}))
        info = next(it.unwindinfo for it in pe.DIRECTORY_ENTRY_EXCEPTION if it.unwindinfo and it.unwindinfo.CountOfCodes)
        info.SizeOfProlog, before = 0x7F, bytes(pe.__data__)
        at = info.get_file_offset() + 1
        self.assertEqual(bytes(pe.write()), before[:at] + b"\x7f" + before[at + 1:])
        info.UNW_FLAG_CHAININFO = True
        self.assertEqual((info.Flags & 4, info.UNW_FLAG_CHAININFO), (4, True))

    def test_each_form_of_a_code(self):
        """An unwind record of codes in each form, by hand: their texts are those of ml64's directives."""
        from pe_c import _pefile_unwind
        codes = bytes.fromhex("0903" "0850" "0742" "0634" "2000" "0568" "0300" "0401" "8100" "0311" "00001000" "021a" "01a2" "0035" "04001000" "0079" "08001000")
        data = bytearray(open_bytes("functions.bin"))
        pe = ours.PE(data=bytes(data))
        entry = next(it for it in pe.DIRECTORY_ENTRY_EXCEPTION if it.unwindinfo)
        where = len(data) - 64
        section = pe.sections[-1]
        rva = section.VirtualAddress + where - section.PointerToRawData
        self.assertTrue(section.contains_rva(rva))
        struct.pack_into("<4B", data, where, 1, 9, len(codes) // 2, 0x25)
        data[where + 4:where + 4 + len(codes)] = codes
        at = entry.struct.get_file_offset() + 8
        struct.pack_into("<I", data, at, rva)
        info = _pefile_unwind.read(ours.PE(data=bytes(data)), rva)
        self.assertEqual([str(it) for it in info.UnwindCodes], [
            ".SETFRAME RBP, 0x20", ".PUSHREG RBP", ".ALLOCSTACK 0x28", ".SAVEREG RBX, 0x100", ".SAVEXMM128 XMM6, 0x30",
            ".ALLOCSTACK 0x408", ".ALLOCSTACK 0x100000", ".PUSHFRAME <code>", ".ALLOCSTACK 0x58",
            ".SAVEREG RBX, 0x100004", ".SAVEXMM128 XMM7, 0x100008"])
        self.assertEqual(b"".join(it.struct.__pack__() for it in info.UnwindCodes), codes)

    def test_directories_at_another_place(self):
        """A directory that is moved in the file is read where it is then."""
        data = bytearray(open_bytes("exports.bin"))
        pe = ours.PE(data=bytes(data))
        own, section = pe.OPTIONAL_HEADER.DATA_DIRECTORY[0], pe.sections[-1]
        at = pe.get_offset_from_rva(own.VirtualAddress)
        moved = len(data)
        data += data[at:at + 40]
        rva = section.get_rva_from_offset(moved)
        struct.pack_into("<I", data, section.get_field_absolute_offset("SizeOfRawData"), section.SizeOfRawData + 40)
        struct.pack_into("<I", data, section.get_field_absolute_offset("Misc_VirtualSize"), section.SizeOfRawData + 40)
        pe = ours.PE(data=bytes(data))
        found = pe.parse_export_directory(rva, 40)
        self.assertEqual(([it.name for it in found.symbols], found.struct.get_file_offset()), ([b"first", b"second", None], moved))
        found.symbols[0].name = b"FIRST"
        self.assertIn(b"FIRST", bytes(pe.__data__))
        self.assertEqual(pe.parse_export_directory(own.VirtualAddress, own.Size).symbols, pe.DIRECTORY_ENTRY_EXPORT.symbols)
        self.assertIsNone(pe.parse_export_directory(0x7FFFFFF0, 40))
        self.assertEqual(bytes(opened("exports").write()), open_bytes("exports.bin"))

    def test_what_needs_no_image(self):
        bits = ours.StructureWithBitfields(("PARTS", ("B:3,Low", "B:5,High", "H,Word,Other", "H:4,A", "H:12,B", "H:8,C")), file_offset=16)
        bits.__unpack__(b"\x29\x34\x12\x21\x43\x99\x00")
        self.assertEqual((bits.Low, bits.High, bits.Word, bits.Other, bits.A, bits.B, bits.C), (1, 5, 0x1234, 0x1234, 1, 0x432, 0x99))
        bits.High, bits.Other = 31, 0x1234
        self.assertEqual((bits.__pack__(), bits.get_field_absolute_offset("B")), (b"\xf9\x34\x12\x21\x43\x99\x00", 19))
        with self.assertRaises(ours.PEFormatError):
            bits.__unpack__(b"\0")
        dump = ours.Dump()
        dump.add_header("One")
        dump.add_lines(["a", "b"], 2)
        dump.add_newline()
        self.assertEqual(dump.get_text(), "----------One----------\n\n  a\n  b\n\n")
        self.assertTrue(opened("small").dump_info(dump).startswith(dump.text[0]))
        some = ours.AddressSet()
        self.assertEqual(some.diff(), 0)
        for it in (9, 5, 7):
            some.add(it)
        self.assertEqual((some.min, some.max, some.diff(), sorted(some)), (5, 9, 4, [5, 7, 9]))
        self.assertEqual(str(opened("small")), opened("small").dump_info())

    def test_another_base(self):
        """What is written maps as the library maps the image at that base."""
        with open(os.path.join(IMAGES, "relocations.bin"), "rb") as file:
            data = bytearray(file.read())
        # The sizes of the image and of its headers, and base relocations of one block, of types that are applied.
        for offset, number in ((0x90, 0x2010), (0x94, 0x200), (0xF4, 12)):
            struct.pack_into("<I", data, offset, number)
        image = pe_c.Image(bytes(data))
        second = image.offset_of(image.headers.directories[5].virtual_address) + 10
        # The second is outside of the file: nothing is changed.
        pe, base = ours.PE(data=bytes(data)), image.headers.base + 0x10000
        with self.assertRaises(ours.PEFormatError):
            pe.relocate_image(base)
        self.assertEqual(bytes(pe.write()), bytes(data))
        for entry, is_applied in ((0, True), (0x3010, True), (0xA010, True), (0x4010, False), (0x5010, False)):
            struct.pack_into("<H", data, second, entry)
            pe, image = ours.PE(data=bytes(data)), pe_c.Image(bytes(data))
            if is_applied:
                pe.relocate_image(base)
                self.assertEqual((pe_c.Image(bytes(pe.write())).map(), pe.OPTIONAL_HEADER.ImageBase), (image.map(base), base))
            else:
                with self.assertRaises(ours.PEFormatError):
                    pe.relocate_image(base)

    def test_string_tables(self):
        texts = ["", "one", "\u20ac", *[""] * 13]
        content = b"".join(struct.pack("<H", len(it)) + it.encode("utf-16-le") for it in texts)
        editor = pe_c.ResourceEditor(pe_c.Image(open_bytes("editable.exe")))
        editor.set(6, 3, 0x409, content)
        editor.set(6, 4, 0x409, struct.pack("<HHHHHHH", 1, 0xD800, 1, 0xD800, 1, 0xD800, 1) + b"a\0")
        pe = ours.PE(data=editor.write())
        self.assertEqual(pe.get_resources_strings(), ["one", "\u20ac"])
        self.assertIn("          [STRINGS]\n                33: one\n                34: \\u20ac\n", pe.dump_info())
        tables = next(it for it in pe.DIRECTORY_ENTRY_RESOURCE.entries if it.id == 6).directory.entries
        self.assertEqual([it.directory.strings for it in tables], [{33: "one", 34: "\u20ac"}, {}])
        if SPEC:
            self.assertEqual(importlib.import_module("pefile").PE(data=editor.write()).get_resources_strings(), ["one", "\u20ac"])

    def test_a_closed_image(self):
        pe = opened("exports")
        section = pe.sections[0]
        pe.close()
        pe.close()
        with self.assertRaises(ValueError):
            pe.DIRECTORY_ENTRY_EXPORT
        for call in (section.get_data, section.get_hash_md5, section.get_entropy, pe.get_data, pe.trim, pe.get_overlay,
                     pe.get_imphash, pe.generate_checksum, pe.get_warnings, lambda: pe.header, lambda: pe.__data__,
                     lambda: pe.get_dword_at_rva(section.VirtualAddress)):
            with self.assertRaises(ValueError):
                call()

    def test_refused(self):
        for data in (b"", b"MZ", bytes(4096)):
            with self.assertRaises(ours.PEFormatError):
                ours.PE(data=data)
        with self.assertRaises(ValueError):
            ours.PE()
        with self.assertRaises(OSError):
            ours.PE("/no/such/file")


@unittest.skipIf(SPEC is None, "Debian's python3-pefile is missing")
class Names(unittest.TestCase):
    def test_names_of_the_module(self):
        found = list(module_names(ast.parse(source())))
        self.assertGreater(len(found), 100)
        for name in found:
            self.assertTrue((name in vars(ours)) != (name in GAPS), name)

    def test_methods(self):
        found = [it for it in methods(ast.parse(source())) if not re.search(r"\._", it)]
        self.assertGreater(len(found), 100)
        for full in found:
            owner, name = full.split(".")
            self.assertTrue(hasattr(getattr(ours, owner), name) != (full in GAPS), full)

    def test_fields(self):
        found = list(fields(source()))
        self.assertGreater(len(found), 200)
        for full in found:
            structure, field = full.split(".")
            structure = structure.replace("HEADER64", "HEADER") if structure not in STRUCTURES else structure
            gap = f"{structure.replace('HEADER64', 'HEADER')}.{field}"
            if structure not in STRUCTURES:
                self.assertTrue(gap in GAPS, full)
                continue
            image, place = STRUCTURES[structure]
            with opened(image) as pe:
                self.assertTrue(hasattr(place(pe), field) != (gap in GAPS), full)

    def test_formats_and_helpers(self):
        import pefile as theirs
        formats = [it for it in dir(theirs.PE) if it.endswith("_format__") and it != "__format__"]
        self.assertGreater(len(formats), 20)
        pe = opened("small")
        for it in formats:
            name, fields = getattr(theirs.PE, it)
            # pefile joins two fields of the load configuration of PE32.
            if hasattr(pe, it) and it != "__IMAGE_LOAD_CONFIG_DIRECTORY_format__":
                self.assertEqual(getattr(pe, it), (name, tuple(fields)), it)
            else:
                self.assertTrue(any(one.startswith(f"{name}.") for one in GAPS) or "DYNAMIC" in name, it)
            bits = any(":" in one for one in fields)
            of = [module.set_bitfields_format((name, tuple(fields))) if bits else module.set_format(tuple(fields))
                  for module in (theirs, ours)]
            self.assertEqual(*map(list, of), it)
        data = bytes(range(256)) + "caf\u00e9".encode()
        for one in range(0, 5000, 7):
            for of in (("power_of_two", one), ("cache_adjust_FileAlignment", one, 0x1FF + one % 2), ("sizeof_type", f"{one % 9 + 1}s"),
                       ("cache_adjust_SectionAlignment", one, one % 3 * 0x1000, 0x200), ("count_zeroes", data[:one]),
                       ("is_valid_function_name", data[one % 256:one % 256 + 2]), ("is_valid_dos_filename", data[one % 256:one % 256 + 1]),
                       ("is_valid_function_name", data[one % 256:one % 256 + 1], True), ("b", data[:one % 9].decode("cp1252", "ignore"))):
                self.assertEqual(getattr(ours, of[0])(*of[1:]), getattr(theirs, of[0])(*of[1:]), of)
        for one in (b"\1\0a\0\2\0b\0c\0\0\0", b"\1\0\0\xd8" * 4 + b"\1\0a\0", b"\xff\xff\1\0a\0", b"\1"):
            found = {}, {}
            for module, said in zip((theirs, ours), found):
                module.parse_strings(one, 5, said)
            self.assertEqual(*found)
        for module in (theirs, ours):
            flags = ours.DataContainer() if module is ours else theirs.DataContainer()
            module.set_flags(flags, 5, [("A", 1), ("B", 2), ("C", 4)])
            self.assertEqual((flags.A, flags.B, flags.C), (True, False, True))
        for name in (it for it in dir(theirs) if it.startswith(("MAX_", "allowed_", "STRUCT_SIZEOF"))):
            self.assertEqual(getattr(ours, name), getattr(theirs, name), name)

    def test_constants(self):
        import pefile as theirs
        for name in ("DIRECTORY_ENTRY", "IMAGE_CHARACTERISTICS", "SECTION_CHARACTERISTICS", "DEBUG_TYPE", "SUBSYSTEM_TYPE",
                     "MACHINE_TYPE", "RELOCATION_TYPE", "DLL_CHARACTERISTICS", "UNWIND_INFO_FLAGS", "REGISTERS",
                     "RESOURCE_TYPE", "LANG", "SUBLANG"):
            self.assertEqual(getattr(ours, name), getattr(theirs, name), name)
        for name in (it for it in dir(theirs) if it.startswith(("IMAGE_", "OPTIONAL_HEADER_", "UWOP_", "FILE_ALIGNMENT"))):
            self.assertEqual(getattr(ours, name), getattr(theirs, name), name)
        for one in range(0, 128):
            for other in range(0, 8):
                self.assertEqual(ours.get_sublang_name_for_lang(one, other), theirs.get_sublang_name_for_lang(one, other))

    def test_ordinals(self):
        import ordlookup
        from pe_c._ordinals import ORDINALS

        def text(it):
            return it.decode() if isinstance(it, bytes) else it
        self.assertEqual(ORDINALS, {text(dll): {number: text(name) for number, name in names.items()}
                                    for dll, names in ordlookup.ords.items()})


if __name__ == "__main__":
    unittest.main()
