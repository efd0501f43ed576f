"""What no proof sees: buffers and their lives, errors, hostile images, the text of the README.

The environment names PE_C_IMAGES, the folder of images that `cargo run --example made` of bindings/rust makes. What is
expected of them stands in tools/bindings too, of the program in C."""
import array
import copy
import gc
import hashlib
import importlib.util
import json
import multiprocessing
import mmap
import os
import pickle
import random
import re
import resource
import shutil
import struct
import subprocess
import sys
import tempfile
import threading
import time
import unittest

import hostile
import pe_c
from pe_c import Kind

HERE = os.path.dirname(os.path.abspath(__file__))
IMAGES = os.environ["PE_C_IMAGES"]
LISTS = ("sections", "imports", "exports", "delay_imports", "bound_imports", "debug_entries", "certificates", "resources",
         "relocations", "functions", "arm64_functions")
RECORDS = ("headers", "rich_header", "overlay", "export_table", "symbol_key", "pdb20", "vc_features",
           "extended_dll_characteristics", "repro", "pogo", "tls", "load_config", "clr_header", "clr_metadata", "resource_root")


def path_of(name):
    return os.path.join(IMAGES, f"{name}.bin")


def bytes_of(name):
    with open(path_of(name), "rb") as file:
        return file.read()


def made(name):
    return pe_c.open(path_of(name))


def names():
    return sorted(it.removesuffix(".bin") for it in os.listdir(IMAGES) if it.endswith(".bin"))


def all_of(image):
    """All that an image has, as text: what refuses a record is its error."""
    found = []
    for name in (*LISTS, *RECORDS):
        try:
            found.append(repr(pe_c._part.plain(getattr(image, name), [1 << 30])))
        except pe_c.Error as error:
            found.append(str(error.number))
    return found


def rows_of(path):
    """Rows of an image that can be pickled."""
    with pe_c.open(path) as image:
        return [image.exports, image.imports, image.functions, image.relocations]


class Values(unittest.TestCase):
    """The images of the tests say what they were made of."""

    def test_headers(self):
        headers = made("debug").headers
        self.assertEqual((headers.width, headers.base, headers.machine), (64, 0x180000000, 0x8664))
        self.assertEqual(len(headers.directories), headers.number_of_directories)

    def test_symbol_key(self):
        key = made("debug").symbol_key
        self.assertEqual((key.name, key.age), ("a.pdb", 1))
        self.assertEqual(key.guid.hex().upper(), "F6727B49" "0A39" "FC44" "878E5A2D63B6CC4B".upper())

    def test_old_debug(self):
        image = made("old_debug")
        self.assertIsNone(image.symbol_key)
        self.assertEqual(image.pdb20.name, "b.pdb")
        self.assertEqual([it.data_type for it in image.debug_entries], [2, 16])

    def test_certificates(self):
        rows = made("certificates").certificates
        self.assertEqual([(it.length, it.revision, it.type, len(it.body)) for it in rows], [(9, 0x200, 2, 1), (8, 0x100, 1, 0)])

    def test_version(self):
        version, = made("resources").versions
        self.assertEqual((version.fixed.file_version_ms, version.fixed.file_version_ls), (3 << 16 | 11, 3150 << 16 | 1013))
        self.assertEqual(version.strings, {"040904b0": {"CompanyName": "Größe & Söhne \U0001F600", "ProductName": "made"}})

    def test_the_first_directory_of_resources(self):
        with made("resources") as image:
            self.assertEqual(tuple(image.resource_root), (0, 0, 0, 0, 0, 2))
            at = image.offset_of(image.headers.directories[2].virtual_address)
        data = bytearray(bytes_of("resources"))
        for fields in ((0x01020304, 0x05060708, 0x90A, 0xB0C, 1, 1), (0xFFFFFFFF, 0xFFFFFFFE, 0xFFFD, 0xFFFC, 0xFFFB, 0xFFFA)):
            struct.pack_into("<IIHHHH", data, at, *fields)
            self.assertEqual(tuple(pe_c.Image(data).resource_root), fields)
        with self.assertRaises(pe_c.Error) as caught:
            pe_c.Image(data, pe_c.Mode.STRICT).resource_root
        self.assertEqual(caught.exception.kind, Kind.RESOURCE_BOUNDS)
        self.assertIsNone(made("debug").resource_root)

    def test_unwinding(self):
        function, records = made("functions").unwind(0x5018)
        self.assertEqual(tuple(function), (0x5010, 0x5020, 0x1054))
        self.assertEqual([(it.version, it.size_of_prolog, it.is_chained) for it in records], [(1, 5, True), (1, 8, False)])
        self.assertEqual([(it.code_offset, it.operation, it.operand, it.from_frame, it.value) for it in records[0].codes],
                         [(5, 3, 3, True, 40)])
        self.assertEqual((records[1].handler, records[1].handler_kind), (0x1100, 1))
        self.assertEqual(tuple(records[0].chained), (0x5000, 0x5010, 0x1030))
        self.assertIsNone(made("functions").unwind(1))
        self.assertIsNone(made("functions").unwind(1 << 32 | 0x5018))

    def test_arm64(self):
        image = made("arm64_functions")
        self.assertEqual([tuple(it) for it in image.arm64_functions], [(0x5000, 0x03722011), (0x5010, 0x1010)])
        packed, record = (image.arm64_unwind(it)[1] for it in (0x5000, 0x5010))
        self.assertTrue(packed.is_packed)
        self.assertEqual((record.handler, record.function_length, len(record.scopes)), (0x1100, 64, 1))

    def test_a_long_section_name(self):
        section, = made("long_section_name").sections
        self.assertEqual((section.name, section.raw_name), (".debug_info", b"/4\0\0\0\0\0\0"))

    def test_imports_and_their_hash(self):
        library = made("x86_dll").imports[0]
        self.assertTrue(library.name and library.imports)
        whole, refused = made("x86_dll"), made("refused_import")
        self.assertRegex(whole.imphash(), "^[0-9a-f]{32}$")
        self.assertEqual(refused.imports.error.kind, Kind.IMPORT_NAME)
        self.assertIsNone(refused.imphash(), "the hash of a part of a list is that of another image")
        with self.assertRaises(pe_c.Error):
            refused.imports.check()

    def test_an_unmapped_lookup_table_is_said(self):
        """pefile and the loader read the address table in its place."""
        data = bytearray(bytes_of("imports"))
        whole = pe_c.Image(bytes(data))
        record = whole.offset_of(whole.headers.directories[1].virtual_address)
        data[record + 16:record + 20] = data[record:record + 4]
        for rva in (1, 0x7FFFFFFF, 0xFFFFFFFF):
            data[record:record + 4] = struct.pack("<I", rva)
            image = pe_c.Image(bytes(data))
            self.assertEqual([it.has_unmapped_list for it in image.imports], [True, False])
            names = [[(it.name, it.ordinal) for it in library.imports] for library in image.imports]
            self.assertEqual(names, [[("Sleep", 42), (None, 17)], [("f", 0)]])
            self.assertEqual((image.imphash(), image.imphash_of), (whole.imphash(), "address_tables"))
            warning, = image.warnings
            self.assertEqual((warning.part, warning.error.kind), ("imports", Kind.UNMAPPED))
            self.assertIn(f"KERNEL32.dll at RVA 0x{rva:x}", warning.text)
        self.assertEqual((whole.imphash_of, whole.warnings), ("lookup_tables", ()))
        # The address table is unmapped too.
        data[record + 16:record + 20] = data[record:record + 4]
        self.assertEqual(pe_c.Image(bytes(data)).imports.error.kind, Kind.UNMAPPED)

    def test_a_damaged_version_string_costs_itself_alone(self):
        data = bytearray(bytes_of("resources"))
        whole, = pe_c.Image(bytes(data)).versions
        at = data.index("ProductName\0".encode("utf-16-le"))
        data[at - 4:at - 2] = struct.pack("<H", 0x4000)
        image = pe_c.Image(bytes(data))
        version, = image.versions
        self.assertEqual((version.fixed, version.fixed_error, version.strings), (whole.fixed, None, whole.strings))
        self.assertEqual((version.strings_error.kind, whole.strings_error), (Kind.RESOURCE_STRING, None))
        self.assertEqual([it.part for it in image.warnings], ["version strings"])
        said = image.facts()["version"]
        self.assertEqual((said["fixed"]["file_version"], said["fixed_error"]), ("3.11.3150.1013", None))
        self.assertEqual(said["strings_error"]["name"], "RESOURCE_STRING")
        # The fixed file information is truncated too.
        key = data.index("VS_VERSION_INFO\0".encode("utf-16-le"))
        data[key - 4:key - 2] = struct.pack("<H", 48)
        refused, = pe_c.Image(bytes(data)).versions
        self.assertIsNone(refused.fixed)
        self.assertTrue(refused.fixed_error and not refused.strings_error)

    def test_blocks_of_strings_in_other_letters(self):
        """Windows finds strings by the names of their blocks in any case."""
        data = bytes_of("resources")
        whole = pe_c.Image(data)
        other = pe_c.Image(data.replace("StringFileInfo".encode("utf-16-le"), "STRINGfileinfo".encode("utf-16-le")))
        self.assertNotEqual(bytes(other.memory), data)
        self.assertEqual(other.versions[0].strings, whole.versions[0].strings)
        self.assertTrue(whole.versions[0].strings)
        self.assertEqual(other.facts()["version"], whole.facts()["version"])

    def test_no_name_has_no_imphash(self):
        data = bytearray(bytes_of("imports"))
        whole = pe_c.Image(bytes(data))
        # Each table starts with its zero entry.
        for library in whole.imports:
            for rva in (library.lookup_table_rva or library.address_table_rva,):
                offset = whole.offset_of(rva)
                data[offset:offset + 8] = bytes(8)
        image = pe_c.Image(bytes(data))
        self.assertEqual([len(it.imports) for it in image.imports], [0, 0])
        self.assertEqual((image.imphash(), image.imphash_of), (None, None))
        self.assertIsNone(image.facts()["hashes"]["imphash"])

    def test_addresses(self):
        image = made("debug")
        section = image.sections[0]
        self.assertEqual(image.offset_of(section.virtual_address), section.pointer_to_raw_data)
        self.assertEqual(image.at(section.virtual_address, 4), image.data(section)[:4])
        self.assertIsNone(image.offset_of(0xFFFFFFF0))
        self.assertIsNone(image.offset_of(1 << 32 | section.virtual_address))
        with self.assertRaises(pe_c.Error) as caught:
            image.at(0xFFFFFFF0, 4)
        self.assertEqual(caught.exception.kind, Kind.UNMAPPED)
        with self.assertRaises(OverflowError):
            image.offset_of(-1)

    def test_entropy(self):
        image = pe_c.Image(bytes_of("debug") + bytes(range(256)) * 64)
        self.assertGreater(image.entropy(), image.entropy(image.sections[0]))
        self.assertAlmostEqual(pe_c._part.entropy_of([7] * 256), 8.0)
        self.assertEqual(pe_c._part.entropy_of([0, 9, 0]), 0.0)

    def test_attaching(self):
        data = bytes_of("debug") + bytes(-len(bytes_of("debug")) % 8)
        image = pe_c.Image(data)
        entry = (16).to_bytes(4, "little") + b"\x00\x02\x02\x00" + b"signed!!"
        signed = pe_c.Image(image.attach(entry))
        self.assertEqual([bytes(it.body) for it in signed.certificates], [b"signed!!"])
        self.assertEqual(signed.digest(), image.digest())
        self.assertEqual(signed.headers.checksum, signed.right_checksum().value)
        self.assertEqual(len(signed.detach()), len(data))
        with self.assertRaises(pe_c.Error) as caught:
            image.attach(b"short")
        self.assertEqual((caught.exception.kind, caught.exception.part), (Kind.SHORT, "attach"))

    def test_version_information_that_is_not_in_the_file(self):
        data = bytearray(bytes_of("resources"))
        leaf, = (it for it in made("resources").resources if it.type == 16)
        struct.pack_into("<I", data, data.index(struct.pack("<II", leaf.rva, leaf.size)), 0x7FFF0000)
        image = pe_c.Image(bytes(data))
        self.assertEqual((image.versions, image.versions.error.kind), ((), Kind.UNMAPPED))
        self.assertIn(("versions", Kind.UNMAPPED), [(it.part, it.error.kind) for it in image.warnings])

    def test_the_rich_header(self):
        image, data = made("rich_header"), bytes_of("rich_header")
        end = data.index(b"Rich")
        key = int.from_bytes(data[end + 4:end + 8], "little")
        clear = [it ^ key for it, in struct.iter_unpack("<I", data[:end])]
        start = clear.index(0x536E6144)
        self.assertEqual(image.rich_header.key, key)
        self.assertEqual([number for it in image.rich_header.entries for number in (it.product << 16 | it.build, it.objects)],
                         clear[start + 4:])
        self.assertEqual(image.rich_hash(), hashlib.md5(struct.pack(f"<{len(clear) - start}I", *clear[start:])).hexdigest())
        self.assertIsNone(made("debug").rich_hash())

    def test_the_digest(self):
        data = bytes_of("debug") + b"odd"
        headers = pe_c.Image(data).headers
        checksum, entry = headers.checksum_offset, headers.certificate_entry_offset
        covered = data[:checksum] + data[checksum + 4:entry] + data[entry + 8:] + bytes(-len(data) % 8)
        self.assertEqual(pe_c.Image(data).digest("sha1"), hashlib.sha1(covered).hexdigest())

    def test_an_unused_ordinal_is_no_export(self):
        image = pe_c.Image(hostile.ordinals())
        self.assertEqual([(it.ordinal, it.name) for it in image.exports], [(5, None), (7, None)])
        self.assertEqual((image.export_table.name, image.export_table.number_of_functions), ("a.dll", 3))

    def test_a_forwarder_has_a_name_or_none(self):
        data = bytearray(bytes_of("exports"))
        self.assertEqual([(it.name, it.ordinal, it.forwarder) for it in pe_c.Image(data).exports],
                         [("first", 6, None), ("second", 5, None), (None, 8, "NTDLL.RtlFree")])
        # the name `second` leads to the last entry of the address table
        image = pe_c.Image(bytes(data))
        data[image.offset_of(image.export_directory.address_of_name_ordinals) + 2] = 3
        named = pe_c.Image(data).exports[1]
        self.assertEqual((named.name, named.ordinal, named.forwarder), ("second", 8, "NTDLL.RtlFree"))
        self.assertEqual((named.rva, named.offset), (image.exports[2].rva, data.index(b"NTDLL.RtlFree")))

    def test_a_small_file_alignment_is_a_warning(self):
        data = bytearray(hostile.imports(1, 1))
        self.assertEqual(pe_c.Image(data).warnings, ())
        data[0x7C:0x80] = (32).to_bytes(4, "little")
        self.assertEqual(pe_c.Image(data).headers.file_alignment, 32)
        warning, = pe_c.Image(data, path="a.efi").warnings
        self.assertEqual((warning.kind, warning.part, warning.error), (pe_c.WarningKind.ALIGNMENT, "headers", None))
        self.assertRegex(str(warning), "^a.efi: headers: file alignment 32: .* 512$")
        self.assertFalse([it for it in pe_c.Image(data, pe_c.Mode.MAPPED).warnings if it.kind is pe_c.WarningKind.ALIGNMENT])

    def test_what_is_left_out_is_a_warning(self):
        """An image whose last section the file cuts, and one of whose names of exports is no text."""
        data = bytearray(bytes_of("exports"))
        self.assertEqual(pe_c.Image(data).warnings, ())
        data[data.index(b"second\0") + 5] = 0xFF
        image = pe_c.Image(data[:-1], path="a.dll")
        self.assertEqual([(it.kind, str(it), it.error) for it in image.warnings], [
            (pe_c.WarningKind.LEFT_OUT, "a.dll: sections: 1 not whole: the file ends before they do", None),
            (pe_c.WarningKind.LEFT_OUT, "a.dll: exports: 1 name left out: unmapped, or not UTF-8", None)])

    def test_a_directory_of_zeros_is_no_warning(self):
        zeros = pe_c.Image(hostile.image(bytes(64), {5: (hostile.RVA, 8)}))
        self.assertEqual((zeros.relocations, zeros.relocations.error, zeros.warnings), ((), None, ()))
        nowhere = pe_c.Image(hostile.image(bytes(64), {5: (0x7F00, 0)}))
        self.assertEqual((nowhere.relocations.error.kind, nowhere.warnings[0].part), (Kind.UNMAPPED, "relocations"))
        self.assertEqual(pe_c.Image(hostile.image(bytes(64), {5: (hostile.RVA, 8)})).warnings, ())
        damaged = pe_c.Image(hostile.image(b"\0\0\0\0\3" + bytes(59), {5: (hostile.RVA, 8)}))
        self.assertEqual([(it.kind, it.error.kind) for it in damaged.warnings],
                         [(pe_c.WarningKind.DAMAGED, Kind.DIRECTORY_BLOCK_SIZE)])
        # A file that ends before its directory, or in it, may have had other bytes there.
        data, relocations = bytes_of("relocations"), made("relocations")
        start = relocations.offset_of(relocations.headers.directories[5].virtual_address)
        self.assertEqual(len(relocations.relocations), 2)
        for cut in (data[:start], hostile.image(bytes(64), {5: (hostile.RVA, 8)})[:hostile.OFFSET + 4]):
            image = pe_c.Image(cut)
            self.assertEqual((image.relocations, image.relocations.error.kind), ((), Kind.SHORT))
            self.assertEqual([(it.part, it.error.kind) for it in image.warnings if it.error], [("relocations", Kind.SHORT)])

    def test_a_damaged_record_of_the_debug_directory_is_a_warning(self):
        def warned(kind, offset):
            entry = struct.pack("<IIHHIIII", 0, 0, 0, 0, kind, 20, hostile.RVA + 28, offset)
            image = pe_c.Image(hostile.image(entry + bytes(36), {6: (hostile.RVA, 28)}))
            return [(it.part, it.error.kind) for it in image.warnings]
        # VC features, and a POGO record that ends past the file.
        self.assertEqual(warned(12, hostile.OFFSET + 28), [])
        self.assertEqual(warned(12, 0x7000_0000) + warned(13, 0x7000_0000), [(it, Kind.SHORT) for it in ("vc_features", "pogo")])
        # By a directory that is refused each of its records would be.
        directory = pe_c.Image(hostile.image(bytes(64), {6: (0x7000_0000, 28)}))
        self.assertEqual([it.part for it in directory.warnings], ["debug_entries", "symbol_key"])

    def test_a_damaged_record_of_pdb_20_is_a_warning(self):
        data = bytearray(bytes_of("old_debug"))
        entry = made("old_debug").offset_of(made("old_debug").headers.directories[6].virtual_address)
        self.assertEqual(made("old_debug").warnings, ())
        struct.pack_into("<I", data, entry + 16, 0x7000_0000)
        image = pe_c.Image(data)
        with self.assertRaises(pe_c.Error):
            image.pdb20
        self.assertEqual([(it.part, it.error.kind) for it in image.warnings], [("pdb20", Kind.DEBUG_DATA)])

    def test_a_resource_without_content_is_a_warning(self):
        data, image = bytearray(bytes_of("resources")), made("resources")
        leaf, = (it for it in image.resources if it.type == 24)
        self.assertEqual(image.warnings, ())
        struct.pack_into("<I", data, data.index(struct.pack("<II", leaf.rva, leaf.size)), 0x7FFF0000)
        image = pe_c.Image(data)
        with self.assertRaises(pe_c.Error):
            image.manifest
        self.assertEqual([(it.part, it.error.kind) for it in image.warnings], [(it, Kind.UNMAPPED) for it in ("manifest", "resources")])
        self.assertRegex(str(image.warnings[1]), "^resources: 1 without content, the first of type 24 and name 1: ")

    def test_a_mode_that_there_is_not(self):
        data = bytes_of("functions")
        for mode in (-1, 4, 7, "rb", "1", 1.0, None):
            with self.assertRaises(TypeError, msg=mode):
                pe_c.Image(data, mode)
        self.assertEqual([pe_c.Image(data, it).headers.mode for it in range(2)], [0, 1])

    def test_texts_of_errors(self):
        self.assertEqual(str(pe_c.Error(2, "truncated", "headers", "a.dll")), "a.dll: headers: truncated")
        # Names are the file's.
        parts = "lines of Größe\x1b[2J\n", "truncated", "a\udcff.dll"
        wanted = "a\\udcff.dll: lines of Größe\\x1b[2J\\n: truncated"
        self.assertEqual(str(pe_c.Error(2, parts[1], parts[0], parts[2])), wanted)
        self.assertEqual(str(pe_c.ImageWarning(pe_c.WarningKind.DAMAGED, *parts[:2], None, parts[2])), wanted)
        self.assertIs(Kind(12345), Kind.OTHER)
        self.assertEqual(pickle.loads(pickle.dumps(pe_c.Error(2, "truncated", "headers"))).kind, Kind.SHORT)
        self.assertEqual(len({pe_c.Error(2, "truncated", it) for it in ("headers", "headers", "tls")} - {ValueError(2, "truncated")}), 2)

    def test_warnings_are_values(self):
        """Those of an image that is read twice are the same, and so are those that another process sends."""
        one, other = made("refused_import"), made("refused_import")
        self.assertTrue(one.warnings[0].error)
        self.assertEqual((one.warnings, one.imports.error), (other.warnings, other.imports.error))
        self.assertEqual(pickle.loads(pickle.dumps(one.warnings)), one.warnings)


class Buffers(unittest.TestCase):
    """Buffers that change, end or are let go while an image has them."""

    def test_all_kinds_of_buffers(self):
        data = bytes_of("exports")
        wanted = all_of(pe_c.Image(data))
        for kind in (bytearray, memoryview, lambda it: array.array("B", it)):
            self.assertEqual(all_of(pe_c.Image(kind(data))), wanted)
        with open(path_of("exports"), "rb") as file, mmap.mmap(file.fileno(), 0, access=mmap.ACCESS_READ) as mapped:
            image = pe_c.Image(mapped)
            self.assertEqual(all_of(image), wanted)
            with self.assertRaises(BufferError):
                mapped.close()
            del image
            gc.collect()

    def test_a_bytearray_is_copied(self):
        buffer = bytearray(bytes_of("exports"))
        image = pe_c.Image(buffer)
        buffer.clear()
        self.assertEqual(all_of(image), all_of(made("exports")))

    def test_without_a_copy_it_is_held(self):
        buffer = bytearray(bytes_of("exports"))
        image = pe_c.Image(buffer, copy=False)
        with self.assertRaises(BufferError):
            buffer.clear()
        for i in range(0, len(buffer), 7):
            buffer[i] ^= 0x5A
        all_of(image)
        image.close()
        buffer.clear()

    def test_bytes_are_not_copied(self):
        data = bytes_of("exports")
        for view in (data, memoryview(data), memoryview(data)[:-1]):
            self.assertIs(pe_c.Image(view).memory.obj, data)

    def test_what_a_memoryview_shows_is_copied_where_it_may_be_written(self):
        buffer = bytearray(bytes_of("exports"))
        view = memoryview(buffer).toreadonly()
        image, held = pe_c.Image(view), pe_c.Image(view, copy=False)
        buffer[:] = bytes(len(buffer))
        self.assertEqual(all_of(image), all_of(made("exports")))
        # What is held is what the caller wrote: no headers, for who reads them again.
        self.assertEqual(bytes(held.memory), buffer)
        for again in (copy.copy, pe_c.ResourceEditor):
            with self.assertRaises(pe_c.Error) as caught:
                again(held)
            self.assertEqual((caught.exception.kind, caught.exception.part), (Kind.BAD_MAGIC, "headers"))

    def test_contents_outlive_the_image(self):
        image = pe_c.Image(bytes(bytearray(bytes_of("resources"))))
        contents, start = [it.content for it in image.resources], image.memory[:2]
        wanted = [bytes(it) for it in contents]
        image.close()
        del image
        gc.collect()
        self.assertEqual([bytes(it) for it in contents], wanted)
        with self.assertRaises(TypeError):
            start[0] = 0

    def test_a_closed_image_raises(self):
        image = made("exports")
        self.assertTrue(image.exports)
        image.close()
        image.close()
        self.assertIn("closed", repr(image))
        for name in (*LISTS, *RECORDS, "versions", "manifest", "memory", "warnings", "limited"):
            with self.assertRaises(ValueError, msg=name):
                getattr(image, name)
        for call in (image.imphash, image.digest, image.entropy, image.right_checksum, image.to_dict, image.detach,
                     lambda: image.unwind(1), lambda: image.offset_of(1), lambda: image.at(1, 1)):
            with self.assertRaises(ValueError):
                call()

    def test_no_buffers(self):
        for wrong in ("text", None, 5, [1]):
            with self.assertRaises(TypeError):
                pe_c.Image(wrong)
        with self.assertRaises(BufferError):
            pe_c.Image(memoryview(bytes_of("exports"))[::2])
        with self.assertRaises(TypeError):
            type(made("exports")._core)()

    def test_a_truncated_file_is_no_signal(self):
        with tempfile.TemporaryDirectory() as room:
            path = os.path.join(room, "a.dll")
            with open(path, "wb") as file:
                file.write(bytes_of("exports"))
            image = pe_c.open(path)
            os.truncate(path, 16)
            self.assertEqual(all_of(image), all_of(made("exports")))
            with self.assertRaises(OSError):
                pe_c.open(path, limit=8)
        with self.assertRaises(OSError):
            pe_c.open(path)

    def test_closing_while_another_thread_reads(self):
        image, found, started = pe_c.Image(bytes_of("exports") + bytes(50 << 20)), [], threading.Event()

        def read():
            started.set()
            found.append(image.right_checksum())
        thread = threading.Thread(target=read)
        thread.start()
        started.wait()
        while thread.is_alive():
            try:
                image.close()
                break
            except BufferError:
                time.sleep(0.001)
        thread.join()
        self.assertTrue(found or image.closed)

    def test_closing_from_a_finalizer(self):
        """The collector, which a new row may start, runs a finalizer that closes the image which is read."""
        class Closes:
            def __del__(self):
                try:
                    image.close()
                except BufferError:
                    refused.append(1)
        refused, kept = [], gc.get_threshold()
        try:
            for i in range(1, 40):
                image = pe_c.Image(hostile.exports(200, 20))
                garbage = Closes()
                garbage.itself = garbage
                del garbage
                gc.set_threshold(i)
                try:
                    image._core.exports()
                except ValueError:
                    pass
                gc.set_threshold(*kept)
        finally:
            gc.set_threshold(*kept)
        gc.collect()
        if sys.version_info < (3, 12):
            self.assertTrue(refused)

    def test_a_fork_and_pickles(self):
        image = made("exports")
        wanted = all_of(image)
        child = os.fork()
        if child == 0:
            os._exit(0 if all_of(image) == wanted else 1)
        self.assertEqual(os.waitpid(child, 0)[1], 0)
        copied = pickle.loads(pickle.dumps(image.exports))
        self.assertEqual((copied, copied.error), (image.exports, None))

    def test_processes_that_are_spawned(self):
        """They take paths, and return rows, which are pickled."""
        names = ["exports", "imports", "functions", "relocations"]
        with multiprocessing.get_context("spawn").Pool(2) as pool:
            found = pool.map(rows_of, map(path_of, names))
        self.assertEqual(found, [rows_of(path_of(it)) for it in names])
        self.assertTrue(any(found[0]) and any(found[1]) and any(found[2]) and any(found[3]))

    def test_ten_thousand_opens(self):
        """Half of them are never closed: no file stays open, and memory stays flat."""
        def held():
            with open("/proc/self/statm") as file:
                return len(os.listdir("/proc/self/fd")), int(file.read().split()[1])
        for i in range(10_000):
            if i == 1000:
                gc.collect()
                files, pages = held()
            image = pe_c.open(path_of("exports"))
            self.assertEqual(image.headers.number_of_sections, len(image.sections))
            if i % 2:
                image.close()
        gc.collect()
        now = held()
        self.assertEqual(now[0], files)
        self.assertLess(now[1] - pages, 300)

    def test_subinterpreters(self):
        if sys.version_info >= (3, 12):
            self.skipTest("there hashlib alone crashes in them (3.12.1), or their module has another name (3.13)")
        reading = f"import sys; sys.path[:] = {sys.path!r}; import pe_c; pe_c.open({path_of('exports')!r}).to_dict()"
        code = (f"import _xxsubinterpreters as many\nfor i in range(3):\n    it = many.create()\n"
                f"    many.run_string(it, {reading!r})\n    many.destroy(it)\n{reading}")
        done = subprocess.run([sys.executable, "-c", code], capture_output=True)
        self.assertEqual((done.returncode, done.stderr), (0, b""))

    def test_memory_stays_flat(self):
        def pages():
            with open("/proc/self/statm") as file:
                return int(file.read().split()[1])
        for i in range(300):
            if i == 100:
                gc.collect()
                before = pages()
            for name in ("exports", "resources", "functions", "debug"):
                made(name).to_dict()
            with self.assertRaises(pe_c.Error):
                pe_c.Image(b"MZ")
        gc.collect()
        self.assertLess(pages() - before, 300)


@unittest.skipIf(importlib.util.find_spec("_testcapi") is None, "this Python has no _testcapi")
class Allocations(unittest.TestCase):
    """Each allocation of a call fails in turn: the call raises MemoryError, and nothing is lost or used after that."""

    def fails_in_turn(self, call):
        import _testcapi
        for i in range(4000):
            _testcapi.set_nomemory(i, i + 1)
            try:
                call()
            except MemoryError:
                continue
            finally:
                _testcapi.remove_mem_hooks()
            # The allocation after the last of the call: it has run whole.
            return i
        self.fail("more than 4000 allocations")

    def test_each_call(self):
        for name in ("exports", "resources", "functions", "debug", "x86_dll", "delay_imports", "bound_imports", "clr", "tls",
                     "relocations", "rich_header", "certificates"):
            data = bytes_of(name)
            self.fails_in_turn(lambda: pe_c._core.image(data, 1, True, 0, False))
            core, _ = pe_c._core.image(data, 1, True, 0, False)
            for call in (*LISTS, *RECORDS, "checksum", "digest_ranges", "detach", "symbols", "fixed_version", "manifest"):
                self.fails_in_turn(getattr(core, call))
            self.fails_in_turn(lambda: core.histogram(0, 64))
            for leaf in core.resources()[0] or ():
                self.fails_in_turn(lambda: core.version_blocks(leaf.offset or 0, leaf.size))
            for function in (core.functions()[0] or ())[:4]:
                self.fails_in_turn(lambda: core.unwind_records(function.unwind))

    def test_calls_of_pdb_files(self):
        with open(os.path.join(IMAGES, "inlined.pdb"), "rb") as file:
            pdb = pe_c._core.image(file.read(), 1, True, 3, False)[0]
        info, starts = pdb.pdb()[0], pdb.pdb_starts()[0]
        stream = lambda number: pdb.pdb_stream(starts, number)[0]
        of = lambda number: pe_c._core.image(stream(number), 0, False, 3, False)[0]
        sections, modules = stream(info.section_headers), (info.modules.offset, info.modules.length)
        first, ids = of(3).pdb_modules(*modules)[0][0], of(4)
        symbols, lines = (first.symbols.offset, first.symbols.length), (first.lines.offset, first.lines.length)
        core, names = of(first.stream), stream(of(1).pdb_named_stream(b"/names")[0])
        index, line_index, files = core.pdb_index(1, sections, *symbols)[0], core.pdb_line_index(sections, *lines)[0], core.pdb_files(*lines)[0]
        for name, arguments in (("pdb_symbols", (sections, *symbols)), ("pdb_index", (1, sections, *symbols)), ("pdb_files", lines),
                                ("pdb_line_index", (sections, *lines)), ("pdb_lines", (line_index, *files, names)),
                                ("pdb_find", (1, sections, index, 0x1005)), ("pdb_find_line", (line_index, *files, names, 0x1005)),
                                ("pdb_inlined", (sections, index, (*symbols, *lines), 0x1005, stream(4), ids.pdb_ids()[0], files, names))):
            found = getattr(core, name)(*arguments)
            self.assertTrue(found[0] and not found[1], name)
            self.fails_in_turn(lambda: getattr(core, name)(*arguments))
        for call in (pdb.pdb, pdb.pdb_starts, lambda: pdb.pdb_is_of(info.guid, 1), lambda: pdb.pdb_stream(starts, 3),
                     lambda: dbi.pdb_modules(*modules), lambda: names_of.pdb_named_stream(b"/names"), ids.pdb_ids):
            dbi, names_of = of(3), of(1)
            self.fails_in_turn(call)

    def test_calls_of_other_files(self):
        for name, kind in (("object.obj", 1), ("te_image.te", 2), ("x64.dmp", 3), ("arm64.dmp", 3)):
            with open(os.path.join(IMAGES, name), "rb") as file:
                data = file.read()
            self.fails_in_turn(lambda: pe_c._core.image(data, 1, True, kind, False))
            core, _ = pe_c._core.image(data, 1, True, kind, False)
            calls = {1: ("sections", "symbols", "coff_header"), 2: ("te_header", "te_debug_entries", "te_symbol_key"),
                     3: [it for it in dir(core) if it.startswith("dump") and "context" not in it]}[kind]
            for call in calls:
                self.fails_in_turn(getattr(core, call))
        image = pe_c._core.image(bytes_of("functions"), 1, True, 0, False)[0]
        registers = struct.pack("<49Q", *[0] * 4, 0x20000, 0x20040, *[0] * 42, 0x180005008)
        memory = pe_c._core.image(struct.pack("<6Q", 0, 0, 0, 0, 1, 2), 1, True, 3, False)[0]
        base, piece = struct.pack("<Q", 0x180000000), struct.pack("<3Q", 0x20000, 0, 48)
        self.fails_in_turn(lambda: memory.frames((image,), base, bytes(4), piece, registers, 8))
        self.fails_in_turn(lambda: pe_c._core.write_version(bytes(52), b"", b"", b"", b""))
        core = pe_c._core.image(hostile.resources(1, 1, 1), 1, True, 0, True)[0]
        self.fails_in_turn(lambda: core.resource_items(0))
        self.fails_in_turn(lambda: core.resource_directory_at(0))
        self.fails_in_turn(lambda: core.edited(b"", b""))


class Hostile(unittest.TestCase):
    """No image crashes or hangs it, or takes much memory."""

    # What makes an image, and the part that it limits.
    LIMITED = {
        "names that are the same text": (hostile.exports, (30_000, 400_000), "exports"),
        "names that are the same bytes, and no text": (hostile.exports, (30_000, 400_000, b"A\xff"), "exports"),
        "forwarders that are the same bytes, and no text": (hostile.forwarders, (30_000, 400_000), "exports"),
        "forwarders with names that are the same text": (hostile.named_forwarders, (30_000, 400_000, b"A"), "exports"),
        "forwarders with names, and no text": (hostile.named_forwarders, (30_000, 400_000, b"\xff"), "exports"),
        "libraries with the same list": (hostile.imports, (20_000, 20_000), "imports"),
        "directories of resources that are the same": (hostile.resources, (5_000, 5_000, 5_000), "resources"),
        "names of sections that are the same text": (hostile.long_names, (20_000, 200_000, b"A"), "sections"),
        "names of sections that are the same bytes, and no text": (hostile.long_names, (20_000, 200_000, b"\xff"), "sections"),
        "exports under 65,535 sections": (lambda *it: hostile.with_sections(hostile.exports(*it), 65_535), (60_000, 9), "exports"),
        "imports under 65,535 sections": (lambda *it: hostile.with_sections(hostile.imports(*it), 65_535), (99, 2_000), "imports"),
        "version information that is the same": (hostile.versions, (60, 60, 4_000), "versions"),
    }
    # Several of them in one image, and those that the library's budget does not limit.
    TOGETHER = {
        "one file": lambda: hostile.together(*Hostile.PARTS),
        "under 65,535 sections": lambda: hostile.with_sections(hostile.together(*Hostile.PARTS), 65_535),
        "a large file": lambda: hostile.together(*Hostile.PARTS) + bytes(5 << 20),
        "names without a section, under 65,535 of them": lambda: hostile.with_sections(hostile.unmapped(60_000), 65_535),
        "imports that are refused by their names": lambda: hostile.refused_imports(60_000, 1_200_000),
        "imports that are refused before a long list": lambda: hostile.refused_imports(60_000, 9, 150_000),
        "delay imports that are refused by their names": lambda: hostile.refused_delay_imports(60_000, 1_200_000),
    }
    PARTS = [(hostile.imports, (2_000, 2_000), hostile.IMPORT), (hostile.exports, (60_000, 9), hostile.EXPORT),
             (hostile.resources, (500, 500, 500), hostile.RESOURCE), (hostile.guards, (60_000,), hostile.LOAD_CONFIG)]

    def test_lists_that_are_many_times_the_same(self):
        for name, (make, arguments, part) in self.LIMITED.items():
            image = pe_c.Image(make(*arguments))
            self.assertEqual(image.limited, (part,), name)
            # Made version information has no fixed file information, which is said.
            said = [(it.kind, it.part) for it in image.warnings if it.part != "fixed version"]
            self.assertEqual(said, [(pe_c.WarningKind.LIMITED, part)], name)
            self.assertEqual(len(image.sections), image.headers.number_of_sections)
            self.assertIsNone(image.imphash())
            self.assertIsNone(image.exphash())

    def test_how_many_rows_a_large_file_has(self):
        image = pe_c.Image(hostile.imports(2_000, 2_000) + bytes(5 << 20))
        self.assertTrue(image.imports.is_limited)
        with self.assertRaises(pe_c.Error) as caught:
            image.imports.check()
        self.assertEqual(caught.exception.kind, Kind.ROOM)
        self.assertLess(sum(1 + len(it.imports) for it in image.imports), (1 << 18) + 1)

    def test_hashes_and_entropies_are_bounded(self):
        """Each of 65,535 sections, and each of 10,000 resources, is all of the file."""
        data = bytearray(hostile.with_sections(hostile.resources(1, 100, 100), 65_535) + bytes(1 << 20))
        for i in range(65_534):
            data[0x148 + 40 * i + 16:0x148 + 40 * i + 24] = struct.pack("<II", len(data), 0)
        start = time.process_time()
        found = pe_c.Image(bytes(data)).to_dict()
        self.assertLess(time.process_time() - start, 20)
        self.assertLess(sum(it is not None for it in found["entropies"]), 10)

    def test_facts_of_libraries_whose_imports_are_refused(self):
        """A few are all there; of many, which are read to be refused, as many as four times the bytes of the file account for."""
        for data, part in ((hostile.refused_imports(60, 9_000), "imports"), (hostile.refused_imports(60, 9, 1_000), "imports"),
                           (hostile.refused_delay_imports(60, 9_000), "delay_imports")):
            facts = pe_c.Image(data).facts()
            self.assertEqual((len(facts[part]), facts[f"{part}_is_limited"]), (60, False), part)
            self.assertTrue(all(it["functions_error"] is not None for it in facts[part]), part)
        facts = pe_c.Image(hostile.refused_imports(60_000, 1_200_000)).facts()
        self.assertTrue(60 < len(facts["imports"]) < 70 and facts["imports_is_limited"], len(facts["imports"]))

    def test_version_blocks_in_each_other(self):
        blocks = hostile.version_blocks(5_000)
        image = pe_c.Image(bytes_of("debug") + blocks)
        found, number, is_limited = image._core.version_blocks(len(bytes_of("debug")), len(blocks))
        depth = 0
        while found:
            depth, found = depth + 1, found[0].children
        self.assertEqual((depth, is_limited), (9, True))

    def test_they_take_little_time_and_memory(self):
        """All facts and their JSON, and the warnings, each take less than three seconds of a slow processor."""
        made = {**{name: f"LIMITED[{name!r}][0](*test_pe_c.Hostile.LIMITED[{name!r}][1])" for name in self.LIMITED},
                **{name: f"TOGETHER[{name!r}]()" for name in self.TOGETHER}}
        for name, image in made.items():
            code = (f"import sys; sys.path[:] = {sys.path!r}\nimport test_pe_c, pe_c, pe_c.scan, re, time\n"
                    f"image, times = pe_c.Image(test_pe_c.Hostile.{image}), [time.process_time()]\n"
                    "for ask in (lambda: pe_c.scan.json_of(image.facts()), lambda: (image.warnings, image.limited)):\n"
                    "    ask()\n    times.append(time.process_time())\n"
                    "print(*times, re.search(r'VmHWM:\\s+(\\d+)', open('/proc/self/status').read())[1])")
            done = subprocess.run([sys.executable, "-c", code], capture_output=True, text=True, timeout=60)
            self.assertEqual(done.returncode, 0, done.stderr)
            start, facts, warnings, kilobytes = map(float, done.stdout.split())
            self.assertLess(facts - start, 3, name)
            self.assertLess(warnings - facts, 3, name)
            self.assertLess(kilobytes, 200 << 10, name)

    def test_damaged_images(self):
        chance, opened = random.Random(3), 0
        for name in names():
            for _ in range(40):
                data = bytearray(bytes_of(name))
                for _ in range(chance.randrange(1, 20)):
                    data[chance.randrange(len(data))] = chance.choice((0, 1, 127, 128, 255))
                cut = chance.randrange(len(data)) if chance.random() < 0.2 else len(data)
                try:
                    image = pe_c.Image(bytes(data[:cut]))
                except pe_c.Error:
                    continue
                opened += 1
                json.dumps(image.to_dict())
                self.assertIsInstance(image._repr_html_(), str)
                for it in image.functions[:8]:
                    image.unwind(it.begin)
        self.assertGreater(opened, 200)

    def test_short_images(self):
        data = bytes_of("small")
        for length in range(0, len(data), 3):
            try:
                pe_c.Image(data[:length]).to_dict()
            except pe_c.Error as error:
                self.assertIn(error.kind, (Kind.SHORT, Kind.BAD_MAGIC))

    def test_names_are_text_on_a_page(self):
        data = bytes_of("debug").replace(b"a.pdb\0", b"<b>\x1b[\0")
        image = pe_c.Image(data, path="<script>")
        self.assertEqual(image.symbol_key.name, "<b>\x1b[")
        self.assertNotIn("<script>", image._repr_html_())
        self.assertEqual(pe_c._part.shown("<b>\x1b["), "&lt;b&gt;\\x1b[")


class Readme(unittest.TestCase):
    """Each sample of the README runs, on an image that has what it prints."""

    def test_samples(self):
        path = os.environ.get("PE_C_README", os.path.join(HERE, "..", "README.md"))
        with open(path, encoding="utf-8") as file:
            samples = re.findall(r"^```python\n(.*?)^```", file.read(), re.M | re.S)
        self.assertGreater(len(samples), 3)
        with tempfile.TemporaryDirectory() as room:
            for name in ("x86_dll", "resources", "functions", "debug"):
                with open(os.path.join(room, f"{name}.dll"), "wb") as file:
                    file.write(bytes_of(name))
            for name in ("t.pdb", "inlined.pdb"):
                shutil.copy(os.path.join(IMAGES, name), room)
            for sample in samples:
                done = subprocess.run([sys.executable, "-c", f"import sys; sys.path[:] = {sys.path!r}\n{sample}"], cwd=room,
                                      capture_output=True, text=True, timeout=60)
                self.assertEqual((done.returncode, done.stderr), (0, ""), sample)
                self.assertTrue(done.stdout, sample)


if __name__ == "__main__":
    resource.setrlimit(resource.RLIMIT_CORE, (0, 0))
    unittest.main()
