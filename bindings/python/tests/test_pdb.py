"""PDB files: what is expected is what llvm-pdbutil 14.0.6 prints of them, and the lines of the sources. PE_C_IMAGES is a folder with the
files that the cargo crate's example `made` writes; the program, its dump and its PDB are those of the tests of the program pe."""
import ast
import os
import random
import re
import shutil
import struct
import tempfile
import unittest

import pe_c
from pe_c import Kind, Pdb, WarningKind

HERE = os.path.dirname(os.path.realpath(__file__))
IMAGES = os.environ["PE_C_IMAGES"]
CRASH = os.environ.get("PE_C_CRASH", os.path.join(HERE, "..", "..", "pe", "tests", "crash", "made.rs"))
KEY = "C4AAF6DE03F43CF24C4C44205044422E1"
# Where the DBI stream and the stream of the module b.obj are in t.pdb.
BLOCK = 4096
DBI, MODULE = 13 * BLOCK, 11 * BLOCK


def content(name):
    with open(os.path.join(IMAGES, name), "rb") as file:
        return file.read()


def made(name):
    """A file that the tests of pe have as pieces."""
    with open(CRASH, encoding="utf-8") as file:
        length, pieces = re.search(rf"pub const {name}: Bytes = \((\d+), &\[(.*?)\n\]\);", file.read(), re.S).groups()
    whole = bytearray(int(length))
    for at, text in re.findall(r'\((\d+), (b"(?:[^"\\]|\\.)*")\)', pieces):
        piece = ast.literal_eval(text)
        whole[int(at):int(at) + len(piece)] = piece
    return bytes(whole)


def moved_pdb():
    """t.pdb with the code of helper and local moved to 3010h, and no other code left: by OMAP tables in place of the hash tables."""
    whole, debug_streams = bytearray(content("t.pdb")), DBI + 717 - 22
    tables = [(12, 6, [0x1000, 0, 0x3010, 0x1050, 0x304C, 0]), (16, 8, [0x1000, 0, 0x1050, 0x3010, 0x108C, 0])]
    for at, entry, rows in tables:
        number, = struct.unpack_from("<H", whole, DBI + at)
        table = Pdb(bytes(whole)).stream(number)
        rows += [0xFFFFFFFF, 0] * (len(table) // 8 - len(rows) // 2)
        struct.pack_into(f"<{len(rows)}I", whole, whole.index(table), *rows)
        struct.pack_into("<H", whole, debug_streams + entry, number)
    whole[debug_streams + 20:debug_streams + 22] = whole[debug_streams + 10:debug_streams + 12]
    return bytes(whole)


def names(found):
    return found and (found.name, found.start, found.offset, found.source)


def placed(found):
    return [(it.name, it.file, it.line, it.is_inlined) for it in found]


class Files(unittest.TestCase):
    def test_moved_code(self):
        pdb = Pdb(moved_pdb())
        self.assertTrue(pdb.is_moved)
        self.assertEqual(names(pdb.find(0x3025)), ("helper", 0x3010, 0x15, "procedure"))
        self.assertEqual(placed(pdb.frames(0x3026, is_return=True)), [("helper", "generated\\else.inc", 900, False)])
        self.assertEqual(names(pdb.find(0x304B)), ("local", 0x3040, 11, "procedure"))
        self.assertEqual([pdb.find(it) for it in (0x1050, 0x304C, 0xFFF)], [None] * 3)
        self.assertEqual([(it.kind, it.error) for it in pdb.warnings], [(WarningKind.SYMBOLS, None)])

    def test_identity(self):
        pdb = Pdb(content("t.pdb"))
        self.assertEqual((pdb.machine.name, pdb.info.number_of_streams, pdb.info.age, pdb.age), ("AMD64", 16, 1, 1))
        self.assertEqual(pdb.symbol_path("t.pdb"), "t.pdb/94D954E4794DF2234C4C44205044422E1/t.pdb")
        self.assertEqual(pdb.stream(3), content("t.pdb")[DBI:DBI + 717])
        self.assertFalse(pdb.is_moved)
        with self.assertRaises(pe_c.Error) as refused:
            pdb.stream(16)
        self.assertEqual(refused.exception.kind, Kind.PDB_NO_STREAM)

    def test_it_is_that_of_its_image(self):
        image, pdb = pe_c.Image(made("EXE")), Pdb(made("PDB"))
        self.assertTrue(pdb.matches(image) and pdb.matches(image.symbol_key))
        self.assertFalse(Pdb(content("t.pdb")).matches(image))
        self.assertFalse(pdb.matches(pe_c.Image(content("functions.bin"))))

    def test_modules_and_symbols(self):
        pdb = Pdb(content("t.pdb"))
        self.assertEqual([(it.name, it.file, it.stream) for it in pdb.modules.check()],
                         [("a.obj", "a.obj", 11), ("b.obj", "b.obj", 12), ("* Linker *", "", 13)])
        own = pdb.modules[1]
        self.assertEqual((own.symbols.length, own.lines.length, own.number_of_files), (328, 176, 2))
        self.assertEqual([(it.name, it.rva, it.is_function) for it in pdb.publics.check()],
                         [("entry", 0x1000, True), ("helper", 0x1050, True)])
        self.assertEqual([(it.name, it.rva, it.size, it.kind) for it in pdb.procedures(own).check()],
                         [("helper", 0x1050, 45, 0x1110), ("local", 0x1080, 12, 0x110F)])
        self.assertEqual([(it.name, it.rva) for it in pdb.functions.check()], [("entry", 0x1000), ("helper", 0x1050), ("local", 0x1080)])
        self.assertEqual(pdb.warnings, ())

    def test_functions_and_lines(self):
        pdb = Pdb(content("t.pdb"))
        self.assertEqual(names(pdb.find(0x1048)), ("entry", 0x1000, 0x48, "procedure"))
        self.assertEqual(names(pdb.find(0x108B)), ("local", 0x1080, 11, "procedure"))
        # No procedure has these: the public function before them.
        self.assertEqual(names(pdb.find(0x104F)), ("entry", 0x1000, 0x4F, "public"))
        self.assertEqual(names(pdb.find(2**32 - 1)), ("helper", 0x1050, 2**32 - 1 - 0x1050, "public"))
        self.assertEqual([pdb.find(it) for it in (0xFFF, -1, 2**32, 2**70)], [None] * 4)
        # A return address is that after the call.
        self.assertEqual(names(pdb.find(0x1050, is_return=True)), ("entry", 0x1000, 0x50, "public"))
        for rva, file, line in ((0x1000, "a.c", 2), (0x1048, "a.c", 6), (0x1064, "b.c", 5), (0x1065, "generated\\else.inc", 900),
                                (0x107C, "b.c", 9), (0x108B, "b.c", 2)):
            found = pdb.find(rva)
            self.assertEqual((found.file, found.line, found.column), (file, line, None), hex(rva))
        lines = pdb.lines(pdb.modules[1]).check()
        self.assertEqual([(it.rva, it.file, it.line) for it in lines],
                         [(0x1050, "b.c", 4), (0x1058, "b.c", 5), (0x1065, "generated\\else.inc", 900), (0x1071, "b.c", 9),
                          (0x1080, "b.c", 1), (0x1085, "b.c", 2)])

    def test_a_closed_file(self):
        pdb = Pdb(content("t.pdb"))
        pdb.close()
        for read in (lambda: pdb.info, lambda: pdb.modules, lambda: pdb.find(0x1000), lambda: pdb.warnings):
            with self.assertRaises(ValueError):
                read()


class Damaged(unittest.TestCase):
    def changed(self, *bytes_at):
        whole = bytearray(content("t.pdb"))
        for at, number in bytes_at:
            whole[at] = number
        return Pdb(bytes(whole))

    def kinds(self, pdb):
        return [(it.kind, it.part, it.error and it.error.kind) for it in pdb.warnings]

    def test_what_is_refused_whole(self):
        whole = content("t.pdb")
        for bytes_of, kind in ((b"MZ", Kind.SHORT), (whole[1:], Kind.PDB_MAGIC), (b"BSJB" + bytes(60), Kind.PDB_PORTABLE),
                               (b"Microsoft C/C++ program database 2.00\r\n\x1aJG\0\0" + bytes(20), Kind.PDB20)):
            with self.assertRaises(pe_c.Error) as refused:
                Pdb(bytes_of, path="a.pdb")
            self.assertEqual((refused.exception.kind, refused.exception.path), (kind, "a.pdb"))

    def test_lines_cost_themselves_alone(self):
        pdb = self.changed((MODULE + 332 + 6, 1))
        self.assertEqual(names(pdb.find(0x108B)), ("local", 0x1080, 11, "procedure"))
        self.assertEqual((pdb.find(0x108B).line, pdb.find(0x1048).line), (None, 6))
        self.assertEqual(self.kinds(pdb), [(WarningKind.DAMAGED, "lines of b.obj", Kind.PDB_RECORD_TRUNCATED)])
        self.assertEqual(pdb.lines(pdb.modules[1]).error.kind, Kind.PDB_RECORD_TRUNCATED)

    def test_a_module_costs_its_names_alone(self):
        pdb = self.changed((MODULE + 72, 1), (MODULE + 73, 0))
        self.assertEqual(names(pdb.find(0x1048)), ("entry", 0x1000, 0x48, "procedure"))
        self.assertEqual(names(pdb.find(0x108B)), ("helper", 0x1050, 0x3B, "public"))
        self.assertEqual(self.kinds(pdb), [(WarningKind.DAMAGED, "symbols of b.obj", Kind.PDB_RECORD_SIZE)])
        self.assertEqual((pdb.functions.error.kind, len(pdb.functions)), (Kind.PDB_RECORD_SIZE, 2))

    def test_the_dbi_stream(self):
        pdb = self.changed((DBI, 0))
        self.assertEqual((len(pdb.modules), pdb.modules.error.kind), (0, Kind.PDB_DBI_SIGNATURE))
        self.assertEqual((pdb.publics.error.kind, pdb.functions.error.kind), (Kind.PDB_DBI_SIGNATURE,) * 2)
        self.assertEqual((pdb.find(0x1000), pdb.is_moved), (None, False))
        self.assertTrue(all(it[2] == Kind.PDB_DBI_SIGNATURE for it in self.kinds(pdb)) and pdb.warnings)
        self.assertEqual(repr(pdb.modules), f"Part((), error={pdb.modules.error!r})")

    def test_records_are_read_once(self):
        pdb = self.changed((MODULE + 72, 1), (MODULE + 73, 0))
        first, warned = pdb.publics, self.kinds(pdb)
        for it in (pdb._publics, *pdb._functions.modules.values()):
            it.all = None
        self.assertIs(pdb.publics, first)
        self.assertEqual(self.kinds(pdb), warned)
        self.assertEqual(repr(first), repr(tuple(first)))

    def test_damaged_files(self):
        """Whatever is damaged, nothing but an Error is raised, and each answer is a row or None."""
        whole, chance = content("t.pdb"), random.Random(83)
        for _ in range(int(os.environ.get("PE_C_DAMAGED", "300"))):
            changed = bytearray(whole)
            for _ in range(chance.randint(1, 4)):
                at = chance.choice((chance.randrange(0, 64), chance.randrange(MODULE, len(whole)), chance.randrange(len(whole))))
                size = min(chance.choice((1, 2, 4)), len(whole) - at)
                changed[at:at + size] = struct.pack("<I", chance.choice((0, 1, 0xFF, 0xFFFF, 2**32 - 1, chance.randrange(2**32))))[:size]
            try:
                pdb = Pdb(bytes(changed[:chance.choice((len(whole), chance.randrange(len(whole))))]))
            except pe_c.Error:
                continue
            for module in pdb.modules:
                pdb.procedures(module), pdb.lines(module)
            pdb.functions, pdb.warnings
            for rva in range(0xFF0, 0x10A0, 7):
                found = pdb.find(rva)
                self.assertTrue(found is None or (found.name and found.start + found.offset == rva))


class Inlined(unittest.TestCase):
    """By what llvm-pdbutil and llvm-symbolizer print of the PDB of tests/pdb/c.c."""

    def test_frames(self):
        pdb = Pdb(content("inlined.pdb"))
        self.assertEqual(placed(pdb.frames(0x1004)), [("entry", "c.c", 3, False)])
        clamp, twice = ("clamp", "c.h", 2, True), ("twice", "c.h", 7, True)
        found = pdb.frames(0x1005)
        self.assertEqual(placed(found), [clamp, twice, ("entry", "c.c", 4, False)])
        self.assertEqual([(it.start, it.offset, it.source) for it in found], [(0x1000, 5, "procedure")] * 3)
        self.assertEqual((found[0].column, found[-1]), (None, pdb.find(0x1005)))
        self.assertEqual(placed(pdb.frames(0x1020)), [clamp, ("entry", "c.c", 5, False)])
        self.assertEqual(placed(pdb.frames(0x1065)), [("twice", "c.h", 8, True), ("helper", "c.c", 9, False)])
        # Of a return address the byte before it counts.
        self.assertEqual(placed(pdb.frames(0x1005, is_return=True)), [("entry", "c.c", 3, False)])
        self.assertEqual([pdb.frames(it).check() for it in (0xFFF, -1, 2**32, 2**70)], [()] * 4)
        self.assertEqual((found.error, found.is_limited, pdb.warnings), (None, False, ()))

    def test_a_public_function_has_none(self):
        pdb = Pdb(content("t.pdb"))
        self.assertEqual((pdb.frames(0x104F), placed(pdb.frames(0x1048))), ((pdb.find(0x104F),), [("entry", "a.c", 6, False)]))

    def changed(self, stream, at, number):
        """The PDB with another byte in a stream that has one block or consecutive ones."""
        whole = bytearray(content("inlined.pdb"))
        whole[whole.index(Pdb(bytes(whole)).stream(stream)) + at] = number
        return Pdb(bytes(whole))

    def warned(self, pdb):
        return [(it.kind, it.part, it.error.kind) for it in pdb.warnings]

    def test_ids_that_are_refused_cost_names_alone(self):
        pdb = self.changed(4, 56, 1)
        found = pdb.frames(0x1004)
        self.assertEqual((len(found), found.error, pdb.warnings), (1, None, ()))
        found = pdb.frames(0x1005)
        self.assertEqual(placed(found), [("", "c.h", 2, True), ("", "c.h", 7, True), ("entry", "c.c", 4, False)])
        self.assertEqual(self.warned(pdb), [(WarningKind.DAMAGED, "names of inlined functions", Kind.PDB_RECORD_SIZE)])

    def test_an_annotation_that_is_refused_costs_the_inlined_functions(self):
        pdb = self.changed(11, 192 + 16, 14)
        found = pdb.frames(0x1005)
        self.assertEqual((placed(found), found.error.kind), ([("entry", "c.c", 4, False)], Kind.PDB_ANNOTATION))
        (warning,) = self.warned(pdb)
        self.assertEqual((warning[0], warning[2]), (WarningKind.DAMAGED, Kind.PDB_ANNOTATION))
        self.assertRegex(warning[1], "^inlined functions of .")
        self.assertEqual((len(pdb.frames(0x1065)), len(pdb.warnings)), (2, 1))

    def test_damaged_files(self):
        """Whatever is damaged, nothing but an Error is raised, and each frame is in the function that `find` finds."""
        whole, chance, several = content("inlined.pdb"), random.Random(84), 0
        module = whole.index(Pdb(whole).stream(11))
        for _ in range(int(os.environ.get("PE_C_DAMAGED", "300"))):
            changed = bytearray(whole)
            for _ in range(chance.randint(1, 3)):
                changed[chance.choice((module + chance.randrange(700), chance.randrange(len(whole))))] = chance.randrange(256)
            try:
                pdb = Pdb(bytes(changed))
            except pe_c.Error:
                continue
            for rva in range(0xFF0, 0x10A0, 5):
                found = pdb.frames(rva)
                self.assertEqual(found[-1:], (pdb.find(rva),) if found else ())
                self.assertTrue(all(it.is_inlined and it.start == found[-1].start for it in found[:-1]))
                several += len(found) > 1
            pdb.warnings
        self.assertGreater(several, 100)


class Stacks(unittest.TestCase):
    """By the dump of a crash of a program of known lines."""

    def setUp(self):
        self.folder = tempfile.mkdtemp()
        self.addCleanup(shutil.rmtree, self.folder)
        self.dump, self.image = pe_c.Dump(made("DUMP"), path="crash.dmp"), pe_c.Image(made("EXE"))

    def put(self, path, data=None):
        path = os.path.join(self.folder, path)
        os.makedirs(os.path.dirname(path), exist_ok=True)
        with open(path, "wb") as file:
            file.write(made("PDB") if data is None else data)
        return path

    def stack(self, *symbols, image=True):
        (stack,) = self.dump.stacks((lambda _: self.image) if image else None, symbols=symbols or [self.folder])
        return stack

    def warned(self, *symbols):
        stack = self.stack(*symbols)
        self.assertEqual([it.function for it in stack.frames], [None] * 4)
        (warning,) = stack.warnings
        self.assertEqual(warning.part, "PDB crash.pdb")
        return warning

    def test_frames_have_functions_and_lines(self):
        self.put("crash.pdb")
        stack = self.stack()
        self.assertEqual([(it.function.name, it.function.offset, it.function.source, it.file, it.line) for it in stack.frames],
                         [("reads", 0xF, "procedure", "crash.cpp", 8), ("middle", 0xE, "procedure", "generated\\else.inc", 900),
                          ("app::outer<int>", 0xE, "procedure", "crash.cpp", 25), ("entry", 0xE, "procedure", "crash.cpp", 31)])
        # Those that are inlined, the innermost first, by the sources.
        self.assertEqual([[(it.name, it.file, it.line) for it in frame.inlined] for frame in stack.frames],
                         [[("geo::load", "shapes.h", 5), ("geo::twice", "shapes.h", 9)], [], [("app::through", "crash.cpp", 21)], []])
        self.assertEqual(stack.warnings, ())
        one = self.dump.stack(self.dump.threads[0], lambda _: self.image, symbols=self.folder)
        self.assertEqual(one.frames, stack.frames)
        # Without a folder no PDB is looked for.
        self.assertEqual([(it.function, it.line, it.inlined) for it in self.dump.stacks(lambda _: self.image)[0].frames],
                         [(None, None, ())] * 4)

    def test_a_record_of_a_pdb_that_is_refused(self):
        data, module = bytearray(made("DUMP")), self.dump.modules[0]
        place = struct.pack("<II", module.cv_record.size, module.cv_record.rva)
        struct.pack_into("<I", data, data.index(place), 5)
        (warning,) = pe_c.Dump(bytes(data)).stacks(symbols=self.folder)[0].warnings
        self.assertEqual(warning.kind, WarningKind.SYMBOLS)
        self.assertRegex(warning.text, "^the record that names its PDB is refused: ")

    def test_where_a_pdb_is_found(self):
        lower = KEY.lower()
        for path in (f"crash.pdb/{KEY}/crash.pdb", f"CRASH.PDB/{lower}/Crash.pdb", f"cr/crash.pdb/{KEY}/crash.pdb", "crash.pdb"):
            with self.subTest(path):
                there = self.put(f"x/{path}")
                self.assertEqual(self.stack(os.path.join(self.folder, "x")).frames[0].line, 8)
                self.assertEqual(self.stack(there).frames[0].line, 8)
                shutil.rmtree(os.path.join(self.folder, "x"))
        with self.assertRaises(FileNotFoundError):
            self.stack(os.path.join(self.folder, "nowhere"))

    def test_a_file_that_is_named_by_itself(self):
        """It may be the PDB of another module, by its key. One that is no PDB is said."""
        none = self.put("x/none.pdb", b"x" * 100)
        self.assertEqual((self.warned(none).error.kind, self.warned(none).path), (Kind.PDB_MAGIC, none))
        other = bytearray(made("PDB"))
        other[other.index(bytes.fromhex("def6aac4f403f23c"))] ^= 1
        self.assertTrue(self.warned(self.put("x/other.pdb", bytes(other))).text.startswith("not found"))

    def test_another_build(self):
        whole = bytearray(made("PDB"))
        at = whole.index(bytes.fromhex("def6aac4f403f23c"))
        whole[at] ^= 1
        self.put("crash.pdb", bytes(whole))
        warning = self.warned()
        wanted = f"of another build: C4AAF6DF{KEY[8:]}, and the module names {KEY}"
        self.assertEqual((warning.kind, warning.text, warning.path), (WarningKind.SYMBOLS, wanted, os.path.join(self.folder, "crash.pdb")))
        # That of another folder is taken, and nothing is said of the first.
        there = self.put("more/crash.pdb")
        stack = self.stack(self.folder, os.path.dirname(there))
        self.assertEqual((stack.frames[0].line, stack.warnings), (8, ()))

    def test_what_is_not_read(self):
        self.assertEqual(self.warned().text, f"not found: crash.pdb/{KEY}/crash.pdb")
        at = self.put(f"crash.pdb/{KEY}/crash.pd_", b"MSCF")
        self.assertEqual((self.warned().text, self.warned().path), ("compressed: `cabextract` makes the PDB of it", at))
        os.remove(at)
        self.put(f"crash.pdb/{KEY}/file.ptr", b"PATH:x")
        self.assertEqual(self.warned().text, "leads to another file, which is not followed")
        shutil.rmtree(os.path.join(self.folder, "crash.pdb"))
        self.put("crash.pdb", b"Microsoft C/C++ program database 2.00\r\n\x1aJG\0\0" + bytes(20))
        self.assertEqual((self.warned().kind, self.warned().error.kind), (WarningKind.DAMAGED, Kind.PDB20))
        # What cannot be looked at may be a folder, and costs no other.
        at = os.path.join(self.folder, "crash.pdb")
        os.remove(at)
        os.mkdir(at)
        os.symlink(KEY, os.path.join(at, KEY))
        self.assertEqual((self.warned().text, self.warned().path), ("Too many levels of symbolic links", os.path.join(at, KEY)))
        shutil.rmtree(at)
        os.symlink("cr", os.path.join(self.folder, "cr"))
        self.assertEqual(self.warned().text, "Too many levels of symbolic links")
        self.put("crash.pdb")
        self.assertEqual(self.stack().frames[0].line, 8)

    def test_without_an_image(self):
        """The key is that of the dump. A frame that needs no unwind records is named all the same."""
        self.put("crash.pdb")
        first = self.stack(image=False).frames[0]
        self.assertEqual((first.function.name, first.line), ("reads", 8))

    def test_a_damaged_pdb_costs_no_frame(self):
        whole, chance = made("PDB"), random.Random(8)
        wanted = [it.registers for it in self.dump.stacks(lambda _: self.image)[0].frames]
        for _ in range(60):
            changed = bytearray(whole)
            for _ in range(8):
                changed[chance.randrange(len(whole))] = chance.randrange(256)
            self.put("crash.pdb", bytes(changed))
            self.assertEqual([it.registers for it in self.stack().frames], wanted)


if __name__ == "__main__":
    unittest.main()
