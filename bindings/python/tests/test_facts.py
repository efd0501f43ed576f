"""The JSON of the command is that of `pe`: the golden texts of bindings/pe, byte for byte, and how files are found and told apart.

The environment names PE_C_IMAGES, as for test_pe_c; PE_C_GOLDEN and PE_C_EXAMPLES name folders of the repository."""
import ast
import json
import os
import pathlib
import re
import shutil
import signal
import socket
import struct
import subprocess
import sys
import tempfile
import time
import unittest
from unittest import mock

import hostile
import pe_c
import test_more
from pe_c import Kind, _guards, _signer, _tables, scan
from pe_c._core import Range

HERE = os.path.dirname(os.path.abspath(__file__))
IMAGES = os.environ["PE_C_IMAGES"]
GOLDEN = os.environ.get("PE_C_GOLDEN", os.path.join(HERE, "..", "..", "pe", "tests", "golden"))
EXAMPLES = os.environ.get("PE_C_EXAMPLES", os.path.join(HERE, "..", "examples"))
# Files of the sessions that have another name in the folder of images.
OTHERS = {"te_image.bin": "te_image.te", "object.bin": "object.obj"}


CODE = f"import sys, runpy; sys.path[:] = {sys.path!r}; sys.argv[0] = 'pe_c'; runpy.run_module('pe_c', run_name='__main__')"


def run(*words, **more):
    done = subprocess.run([sys.executable, "-c", CODE, *words], capture_output=True, timeout=120, **more)
    return done.stdout, done.stderr.decode(), done.returncode


def sessions():
    """Of each golden text the file and the line of `pe FILE --json`."""
    for name in sorted(it for it in os.listdir(GOLDEN) if it.endswith(".txt")):
        with open(os.path.join(GOLDEN, name), encoding="utf-8") as file:
            lines = file.read().split("\n")
        for one, other in zip(lines, lines[1:]):
            found = re.fullmatch(r"\$ pe (\S+\.bin) --json", one)
            if found:
                yield found[1], other


class Room(unittest.TestCase):
    """A folder with the images under the names of the sessions."""

    def setUp(self):
        self.room = tempfile.mkdtemp()
        self.addCleanup(shutil.rmtree, self.room)
        for name in os.listdir(IMAGES):
            shutil.copy(os.path.join(IMAGES, name), self.room)
        for name, own in OTHERS.items():
            os.rename(os.path.join(self.room, own), os.path.join(self.room, name))
        with open(os.path.join(self.room, "short.bin"), "wb") as file:
            file.write(b"MZ")


class Lines(Room):
    def test_golden_texts(self):
        found = list(sessions())
        self.assertGreater(len(found), 20)
        out, complaints, status = run(*(name for name, _ in found), cwd=self.room)
        self.assertEqual((complaints, status), ("", 1))
        for (name, line), own in zip(found, out.decode().split("\n")):
            self.assertEqual(own, line, name)

    def test_a_folder(self):
        inner = os.path.join(self.room, "inner")
        os.makedirs(os.path.join(inner, "empty"))
        shutil.copy(os.path.join(self.room, "debug.bin"), os.path.join(inner, "a\tb.dll"))
        os.symlink("nowhere", os.path.join(inner, "link"))
        os.symlink(self.room, os.path.join(inner, "loop"))
        os.symlink("circle", os.path.join(inner, "circle"))
        os.mkfifo(os.path.join(inner, "pipe"))
        with open(os.path.join(inner, "text.txt"), "w") as file:
            file.write("MZ is no image")
        names = [json.loads(it)["file"] for it in run("scan", "-j", "1", self.room)[0].decode().splitlines()]
        made = [it for it in os.listdir(self.room) if it.endswith((".bin", ".exe"))]
        self.assertEqual([os.path.relpath(it, self.room) for it in names],
                         sorted(it for it in [*made, "inner/a\tb.dll"] if it not in ("te_image.bin", "object.bin", "short.bin")))
        one = run("scan", "-j", "1", self.room)
        self.assertEqual(run("scan", "-j", "3", self.room), one)
        self.assertEqual(run("-r", self.room), one)
        self.assertIn("no images, and skipped; by their start 2 DOS or truncated MZ files; "
                      "one is a link to a folder, which is not followed\n", one[1])
        # A folder that is named may be a link, as one below it is not.
        link = os.path.join(inner, "named")
        os.symlink(inner, link)
        self.assertEqual([json.loads(it)["file"] for it in run("scan", "-j", "1", link)[0].decode().splitlines()],
                         [os.path.join(link, "a\tb.dll")])
        said = run("scan", "-v", "-j", "1", self.room)[1]
        self.assertIn("the link leads to no file", said)
        self.assertIn(f"{os.path.join(inner, 'loop')}: skipped, it is a link to a folder, which is not followed\n", said)
        self.assertIn("; 2 are links to folders, which are not followed\n", said)
        self.assertNotIn("no image is found", said)

    def test_no_image_is_found(self):
        empty, linked = os.path.join(self.room, "empty"), os.path.join(self.room, "linked")
        os.mkdir(empty)
        os.mkdir(linked)
        os.symlink(self.room, os.path.join(linked, "a"))
        none = "pe_c: no image is found\n"
        for words in (("scan", "-j", "1"), ("scan", "-j", "2"), ("-r",)):
            self.assertEqual(run(*words, empty), (b"", none, 0))
            self.assertEqual(run(*words, linked), (
                b"", f"pe_c: 1 file is no image, and skipped; one is a link to a folder, which is not followed\n{none}", 0))
        # A file that can't be read is no folder without images.
        self.assertNotIn("no image is found", run("scan", "-j", "1", os.path.join(self.room, "absent"))[1])

    def test_more_tables_of_version_strings_than_are_read(self):
        for count, is_limited in ((4096, False), (4097, True)):
            version = pe_c.Image(hostile.version_tables(count)).facts(has_hashes=False)["version"]
            self.assertEqual((len(version["languages"]), version["languages_error"]), (4096, None))
            self.assertIs(version["languages_is_limited"], is_limited)

    def test_statuses(self):
        path = os.path.join(self.room, "debug.bin")
        self.assertEqual(run(path)[2], 0)
        self.assertEqual(run(os.path.join(self.room, "refused_import.bin"))[2], 1)
        self.assertEqual(run(os.path.join(self.room, "absent\n.bin")),
                         (b"", f"pe_c: {self.room}/absent\\n.bin: No such file or directory\n", 3))
        self.assertIn("-r reads the files below it", run(self.room)[1])
        self.assertEqual(run()[2], 2)
        self.assertEqual(run("-j", "0", path)[2], 2)
        self.assertEqual(run("-v", path)[2], 2)
        with open(path, "rb") as file:
            data = file.read()
        said = json.loads(run("-", input=data)[0])
        self.assertEqual((said["file_size"], said["headers"]["symbol_server_path"]), (len(data), None))

    def test_standard_input_is_one_file(self):
        """Whoever reads it again would take it for an empty file, and so would a process that does not have it."""
        path = os.path.join(self.room, "debug.bin")
        with open(path, "rb") as file:
            data = file.read()
        for jobs in ("1", "2"):
            out, complaints, status = run("-j", jobs, "-", path, "-", input=data)
            sizes = [(it["file"], it["file_size"]) for it in map(json.loads, out.decode().splitlines())]
            self.assertEqual(sizes, [("-", len(data)), (path, len(data))], jobs)
            self.assertEqual((complaints, status), ("pe_c: -: standard input can be one file, and was read before\n", 3), jobs)

    def test_a_line_by_itself_reads_no_standard_input(self):
        """That of a worker is not that of who asks."""
        code = ("import sys; from pe_c import scan; said = scan.line_of(scan.File('-', False, 0));"
                "print([said.line, said.complaint, said.status, sys.stdin.read()])")
        done = subprocess.run([sys.executable, "-c", code], input=b"MZ", capture_output=True, timeout=120, env={"PYTHONPATH": ":".join(sys.path)})
        self.assertEqual(ast.literal_eval(done.stdout.decode()),
                         ["", "-: standard input is that of another process, and not read here", 3, "MZ"])

    def test_what_refused_parts_would_say_of_hardening_is_null(self):
        """Of an image that asks for control flow guard: the load configuration, the debug data, the certificates."""
        for index, wanted in ((10, [None, False, False]), (6, [False, None, False]), (4, [False, False, None]), (None, [False] * 3)):
            data = bytearray(hostile.image(bytes(64), {} if index is None else {index: (0x7FFF0000, 100)}))
            data[0x9E:0xA0] = (0x4000).to_bytes(2, "little")
            found = pe_c.Image(data).facts()["hardening"]
            self.assertEqual([found[it] for it in ("cfg", "cet", "signed")], wanted)

    def test_names_of_exports_that_are_left_out(self):
        with open(os.path.join(self.room, "exports.bin"), "rb") as file:
            data = bytearray(file.read())
        self.assertEqual(pe_c.Image(data).facts()["exports"]["names_left_out"], 0)
        data[data.index(b"second\0") + 5] = 0xFF
        self.assertEqual(pe_c.Image(data).facts()["exports"]["names_left_out"], 1)

    def test_options(self):
        path = os.path.join(self.room, "debug.bin")
        self.assertNotIn("hashes", json.loads(run("--no-hashes", path)[0]))
        mapped, strict = (json.loads(run(it, path)[0]) for it in ("--mapped", "--strict"))
        self.assertIsNone(mapped["headers"]["right_checksum"])
        self.assertIsNone(mapped["hashes"]["authenticode_sha256_hex"])
        self.assertEqual(strict["headers"], json.loads(run(path)[0])["headers"])

    def test_a_path_that_is_no_text(self):
        path = os.path.join(os.fsencode(self.room), b"\xff.bin")
        shutil.copy(os.path.join(self.room, "debug.bin"), path)
        found = json.loads(run(os.fsdecode(path))[0])
        self.assertEqual(bytes.fromhex(found["file_hex"]), path)
        self.assertTrue(found["file"].endswith("\ufffd.bin"))

    def test_names_that_are_no_text(self):
        path = os.path.join(self.room, "debug.bin")
        with open(path, "r+b") as file:
            data = file.read()
            name, pdb = data.index(b".rdata\0\0"), data.index(b"RSDS") + 24
            for at, text in ((name, b"\xff\xc3\xa4"), (pdb, b"\xef\xbb\xbf\xe2\x82")):
                file.seek(at)
                file.write(text)
        found = json.loads(run(path)[0])
        section, key = found["sections"][0], found["debug"]["pdb"]
        self.assertEqual((section["name"], section["name_hex"]), ("\ufffd\xe4ata", "ffc3a4617461"))
        self.assertEqual((key["name"], key["name_hex"]), ("\ufeff\ufffd", "efbbbfe282"))
        self.assertNotIn("name_hex", found["debug"]["pogo"]["parts"][0])

    def test_the_facts_of_an_image(self):
        with pe_c.open(os.path.join(self.room, "debug.bin")) as image:
            found = image.facts()
        self.assertEqual(found, json.loads(run(os.path.join(self.room, "debug.bin"))[0]))

    def test_a_path_is_not_many(self):
        inner, path = os.path.join(self.room, "inner"), os.path.join(self.room, "inner", "a.txt")
        os.mkdir(inner)
        with open(path, "w", encoding="utf-8") as file:
            file.write("no image")
        for named in (inner, pathlib.Path(inner), [inner], (pathlib.Path(inner),)):
            self.assertEqual([it.path for it in scan.files(named, recursive=True)], [path])
            self.assertEqual([it.complaint for it in scan.scan(named, jobs=1)], [f"{path}: skipped, it is no image"])

    def test_a_path_that_no_file_has_is_said(self):
        for path, shown in (("a\0b", "a\\x00b"), ("\ud800", "\\ud800")):
            for is_below in (False, True):
                said = scan.line_of(scan.File(path, is_below, 0))
                self.assertEqual((said.line, said.status, said.is_skipped), ("", scan.FILE_ERROR, False))
                self.assertTrue(said.complaint.startswith(f"{shown}: "), said.complaint)
        image = os.path.join(self.room, "debug.bin")
        self.assertEqual([bool(it.line) for it in scan.scan(["a\0b", image], jobs=1)], [False, True])

    def test_batches_by_bytes(self):
        found = [scan.File(str(it), True, size) for it, size in enumerate([1, 1, 90 << 20, 1, 9 << 20, 8 << 20] + [0] * 100)]
        cut = list(scan.batches(found))
        self.assertEqual([one for it in cut for one in it], found)
        self.assertEqual([len(it) for it in cut[:3]], [2, 1, 2])
        self.assertTrue(all(len(it) <= scan.BATCH_FILES for it in cut))

    def test_a_reader_that_has_seen_enough(self):
        done = subprocess.Popen([sys.executable, "-c", CODE, "-r", *[self.room] * 30], stdout=subprocess.PIPE, stderr=subprocess.PIPE)
        done.stdout.read(10)
        done.stdout.close()
        complaints = done.stderr.read()
        done.stderr.close()
        self.assertEqual((done.wait(60), complaints), (3, b""))


class Streams(unittest.TestCase):
    """Where lines cannot be written or read the status is that of a file, and not that of an image that is refused."""

    def said_by(self, redirected, *words):
        words = ["sh", "-c", f'exec "$@" {redirected}', "sh", sys.executable, "-c", CODE, *words]
        done = subprocess.run(words, capture_output=True, timeout=120)
        return done.stdout.decode(), done.stderr.decode(), done.returncode

    def test_output_that_is_full_or_closed(self):
        path = os.path.join(IMAGES, "functions.bin")
        for words in ((path,), ("scan", IMAGES), ("scan", "-j", "2", IMAGES)):
            self.assertEqual(self.said_by(">/dev/full", *words), ("", "pe_c: No space left on device\n", 3))
        self.assertEqual(self.said_by(">&-", path), ("", "pe_c: standard output is closed\n", 3))

    def test_errors_that_nobody_can_read(self):
        path = os.path.join(IMAGES, "functions.bin")
        for words in (("absent",), ("scan", HERE), ("scan", "-j", "1", "absent", path)):
            for redirected in ("2>/dev/full", "2>&-"):
                out, complaints, status = self.said_by(redirected, *words)
                self.assertEqual((bool(out), complaints, status), (path in words, "", 3), (redirected, words))
        # Nothing is lost of what says nothing.
        for redirected in ("2>/dev/full", "2>&-"):
            self.assertEqual(self.said_by(redirected, path)[1:], ("", 0))

    def test_a_file_that_memory_has_no_room_for(self):
        """It costs its own line, and not those of others."""
        path = os.path.join(IMAGES, "functions.bin")
        with tempfile.NamedTemporaryFile() as large:
            with open(path, "rb") as file:
                large.write(file.read())
            large.truncate(3 << 30)
            large.flush()
            words = ["sh", "-c", 'ulimit -v 2000000; exec "$@"', "sh", sys.executable, "-c", CODE, large.name, path]
            done = subprocess.run(words, capture_output=True, timeout=120)
        self.assertEqual([json.loads(it)["file"] for it in done.stdout.splitlines()], [path])
        self.assertEqual((done.stderr.decode(), done.returncode), (f"pe_c: {large.name}: Cannot allocate memory\n", 3))

    def test_who_interrupts_a_scan_sees_no_traceback(self):
        """All processes get the signal of a terminal, and all of them end."""
        for jobs in ("1", "2"):
            words = [sys.executable, "-c", CODE, "scan", "-j", jobs, *[IMAGES] * 3000]
            with subprocess.Popen(words, stdout=subprocess.PIPE, stderr=subprocess.PIPE, start_new_session=True) as child:
                child.stdout.readline()
                os.killpg(child.pid, signal.SIGINT)
                _, complaints = child.communicate(timeout=120)
            self.assertEqual((complaints, child.returncode), (b"", -signal.SIGINT))

    def test_input_that_is_closed(self):
        self.assertEqual(self.said_by("<&-", "-"), ("", "pe_c: -: Bad file descriptor\n", 3))


class Signers(unittest.TestCase):
    def test_who_signed(self):
        """What osslsigncode and openssl print of the signature."""
        certificate, = pe_c.Image(test_more.signed()).facts()["certificates"]
        self.assertEqual(certificate["signer"], {
            "subject": "CN=Signer,OU=Two+O=Probe\\, Inc.,C=DE", "issuer": "CN=Root,O=Root of the test,C=DE", "serial_hex": "1234",
            "digest_algorithm": "SHA-256", "time_stamp": "2026-11-27T05:37:07Z"})

    def test_what_is_refused(self):
        """A damaged signature has no signer, a damaged stamp no time; the rest stays as it is."""
        data = test_more.signed()
        body = pe_c.Image(data).certificates[0].body
        start, token = len(data) - len(body), bytes(body).index(bytes.fromhex("060b2a864886f70d0109100104"))

        def signer(at):
            copy = bytearray(data)
            copy[start + at] ^= 0xFF
            return pe_c.Image(bytes(copy)).facts()["certificates"][0]["signer"]
        self.assertIsNone(signer(0))
        stamped = signer(token)
        self.assertEqual((stamped["time_stamp"], stamped["serial_hex"]), (None, "1234"))

    def test_a_long_name_and_a_first_element(self):
        """A name of more than 4,096 bytes is its length alone. A list whose first element is refused is not an empty one."""
        signature, = pe_c.Image(test_more.signed()).signatures
        self.assertEqual(_signer._name(signature, Range((0, 4097))), "a name of 4097 bytes")
        self.assertEqual([_signer._name(signature, Range(it)) for it in ((0, 0), (0, 1))], ["", "<damaged>"])
        self.assertIsNone(_signer._first(signature, Range((0, 0))))
        with self.assertRaises(pe_c.Error):
            _signer._first(signature, Range((0, 1)))


def patched(name, parts):
    """An image of the tests with other bytes from offsets in its section on."""
    with open(os.path.join(IMAGES, name), "rb") as file:
        data = bytearray(file.read())
    for offset, part in parts.items():
        data[0x400 + offset:0x400 + offset + len(part)] = part
    return bytes(data)


class Guards(unittest.TestCase):
    def test_fields_by_their_numbers(self):
        image = pe_c.Image(patched("load_config.bin", {
            0: struct.pack("<I", 320), 12: b"\1\2\3\4", 150: b"\5\6", 312: struct.pack("<Q", 0x180002000)}))
        self.assertEqual([image.load_config_field(it) for it in (0, 13, 36)], [0x04030201, 0x0605, 0x180002000])
        self.assertEqual([image.load_config_field(it) for it in (37, 1 << 32)], [None, None])
        self.assertIsNone(pe_c.Image(patched("load_config.bin", {})).load_config_field(36))

    def test_tables_of_the_same_bytes(self):
        """All five tables are the rest of the file: all entries together have twice the bytes of the file, as in `pe`."""
        places = {it: struct.pack("<QQ", 0x180001118, (1 << 64) - 1) for it in (96, 128, 160, 176, 264)}
        data = patched("load_config.bin", {0: struct.pack("<I", 280), **places}) + bytes(60_000)
        found = pe_c.Image(data).facts()["load_config"]
        rest, names = len(data) - 0x400 - 280, ("guarded_functions", "guarded_iat_entries")
        left = 2 * len(data) - rest // 4 * 4
        self.assertEqual([len(found[it]) for it in ("se_handlers", *names)], [rest // 4, rest // 5, (left - rest // 5 * 5) // 5])
        self.assertEqual([found[f"{it}_is_limited"] for it in ("se_handlers", *names)], [False, False, True])
        self.assertEqual([found[it] for it in ("long_jump_targets", "eh_continuations")], [[], []])
        self.assertEqual((found["guarded_functions_error"]["name"], found["guarded_iat_entries_error"]), ("SHORT", None))

    def facts(self):
        """Tables below the image's base, in no section, past the end of the file, and two with a byte of flags an entry."""
        def place(offset, count):
            return struct.pack("<QQ", 0x180001000 + offset, count)
        data = patched("load_config.bin", {
            0: struct.pack("<I", 280), 128: place(280, 2), 160: place(290, 1), 176: struct.pack("<QQ", 1, 1), 264: place(0x8000, 1),
            96: place(295, (1 << 64) - 1),
            280: struct.pack("<IBIBIBI", 0x2010, 1, 0x2030, 8, 0x2040, 0, 0x2050)})
        return pe_c.Image(data).facts()["load_config"]

    def test_each_list(self):
        found = self.facts()

        def target(rva, number):
            names = ("FID_SUPPRESSED", "EXPORT_SUPPRESSED", "FID_LANGEXCPTHANDLER", "FID_XFG")
            return {"rva": rva, "flags": {"number": number, "flags": {it: bool(number >> bit & 1) for bit, it in enumerate(names)}}}
        self.assertEqual(found["guarded_functions"], [target(0x2010, 1), target(0x2030, 8)])
        self.assertEqual(found["guarded_iat_entries"], [target(0x2040, 0)])
        self.assertEqual([found[it] for it in ("guarded_functions_error", "long_jump_targets", "eh_continuations")], [None] * 3)
        self.assertEqual([found[f"{it}_error"]["name"] for it in ("long_jump_targets", "eh_continuations", "se_handlers")],
                         ["DIRECTORY_VA_BELOW_BASE", "UNMAPPED", "SHORT"])
        self.assertEqual(found["se_handlers"][0], 0x2050)

    def test_a_bound(self):
        """The lists have so many entries together: those that are cut say so."""
        names = ("se_handlers", "guarded_functions", "guarded_iat_entries")
        whole = self.facts()
        rows = [(name, it) for name in names for it in whole[name]]
        self.assertEqual([whole[f"{it}_is_limited"] for it in names], [False] * 3)
        for most in (0, 1, len(rows) - 2, len(rows) - 1):
            with mock.patch.object(_guards, "MOST_ENTRIES", most):
                found = self.facts()
            self.assertEqual([(name, it) for name in names for it in found[name]], rows[:most])
            self.assertTrue(found[f"{rows[most][0]}_is_limited"])
            self.assertTrue(found["guarded_iat_entries_is_limited"])


class Tables(unittest.TestCase):
    def reader(self, heaps, rows, content=b""):
        present = sum(1 << it for it in rows)
        counts = b"".join(rows[it].to_bytes(4, "little") for it in sorted(rows))
        stream = bytes(6) + bytes((heaps, 0)) + present.to_bytes(8, "little") + bytes(8) + counts + content
        return _tables.Reader(stream, b"\0one\0two", b"", b"\x02ab\x80\x01c\xc0\0\0\x02de\xe0")

    def test_columns(self):
        """ECMA-335, II.24.2.6: an index has 2 bytes up to 65,535 rows, and a coded one of 2 bits up to 16,383."""
        small, large = self.reader(0, {4: 0xFFFF, 1: 0x3FFF}), self.reader(1, {4: 0x10000, 1: 0x4000})
        self.assertEqual([sum(small.widths[it]) for it in (2, 3)], [4 + 2 + 2 + 2 + 2 + 2, 2])
        self.assertEqual([sum(large.widths[it]) for it in (2, 3)], [4 + 4 + 4 + 4 + 4 + 2, 4])
        keys = self.reader(6, {})
        self.assertEqual([sum(keys.widths[it]) for it in (0x23, 0)], [8 + 4 + 4 + 2 + 2 + 4, 2 + 2 + 4 + 4 + 4])

    def test_heaps(self):
        """II.24.2.3 and II.24.2.4."""
        heaps = self.reader(0, {})
        self.assertEqual([heaps.text(it) for it in (0, 1, 2)], [b"", b"one", b"ne"])
        self.assertEqual([heaps.blob(it) for it in (0, 3, 6)], [b"ab", b"c", b"de"])
        for read, at in ((heaps.text, 5), (heaps.text, 9), (heaps.blob, 12), (heaps.blob, 13)):
            with self.assertRaises(_tables.Short):
                read(at)

    def test_an_assembly(self):
        """An image for .NET with a module, an assembly and two references, by II.22: of these the first has a token."""
        stream = struct.pack("<IBBBBQQIII", 0, 2, 0, 0, 1, 0x900000001, 0, 1, 1, 2)
        stream += struct.pack("<5H", 0, 1, 1, 0, 0) + struct.pack("<I4HIHHH", 0x8004, 1, 2, 3, 4, 0, 0, 7, 0)
        stream += struct.pack("<4HI4H", 4, 0, 0, 0, 0, 1, 11, 0, 0) + struct.pack("<4HI4H", 5, 6, 0, 0, 1, 1, 11, 17, 0)
        streams = [(b"#~\0\0", stream), (b"#Strings\0\0\0\0", b"\0m.dll\0Own\0Other\0de\0"),
                   (b"#Blob\0\0\0", b"\0\x08" + bytes(range(1, 9))), (b"#GUID\0\0\0", bytes(range(16)))]
        root = b"BSJB\x01\0\x01\0\0\0\0\0\x0C\0\0\0v4.0.30319\0\0\0\0\x04\0"
        offset = len(root) + sum(8 + len(name) for name, _ in streams)
        for name, content in streams:
            root += struct.pack("<II", offset, len(content)) + name
            offset += len(content)
        root += b"".join(content for _, content in streams)

        def said(length):
            data = patched("clr.bin", {12: struct.pack("<I", length), 72: root})
            return pe_c.Image(data).facts()["clr"]["metadata"]
        found, other = said(len(root))["tables"], {"name": "Other", "has_public_key": True}
        self.assertEqual(found["module"], {"name": "m.dll", "mvid": "{03020100-0504-0706-0809-0A0B0C0D0E0F}"})
        self.assertEqual(found["assembly"], {"name": "Own", "version": "1.2.3.4", "culture": None, "has_public_key": False})
        self.assertEqual(found["references"], [
            {**other, "version": "4.0.0.0", "culture": None, "public_key_token_hex": "0102030405060708"},
            {**other, "version": "5.6.0.0", "culture": "de", "public_key_token_hex": None}])
        # The heap of GUIDs, then that of texts passes the end of the metadata.
        self.assertIsNone(said(len(root) - 1)["tables"]["module"]["mvid"])
        cut = said(len(root) - 27)
        self.assertEqual((cut["tables"], cut["tables_error"]["name"]), (None, "SHORT"))

    def test_references_have_a_bound(self):
        """A row of 20 bytes says: version 1.2.3.4, the key 0, the name at 1, no culture. It costs 8 bytes and its name."""
        row = b"".join(it.to_bytes(2, "little") for it in (1, 2, 3, 4, 0, 0, 0, 1, 0, 0))
        found, number, is_limited = self.reader(0, {0x23: 3}, 3 * row).references(22)
        self.assertEqual(([(it.name, it.version) for it in found], number, is_limited), ([(b"one", "1.2.3.4")] * 2, 0, True))
        found, number, is_limited = self.reader(0, {0x23: 1 << 31}, 2 * row).references(1 << 20)
        self.assertEqual((len(found), number, is_limited), (2, Kind.SHORT, False))


class Schema(Room):
    def test_damaged_images(self):
        """The JSON of damaged images is as the schema says, where python3-jsonschema is."""
        import random
        try:
            import jsonschema
        except ImportError:
            self.skipTest("Debian's python3-jsonschema is missing")
        path = os.environ.get("PE_C_SCHEMA", os.path.join(HERE, "..", "..", "..", "docs", "pe.schema.json"))
        with open(path, encoding="utf-8") as file:
            schema = json.load(file)
        validator = jsonschema.Draft202012Validator({**schema["$defs"]["summary"], "$defs": schema["$defs"]})
        chance = random.Random(11)
        for name in sorted(os.listdir(self.room)):
            with open(os.path.join(self.room, name), "rb") as file:
                data = bytearray(file.read())
            for _ in range(4):
                for _ in range(chance.randrange(0, 9)):
                    data[chance.randrange(len(data))] = chance.choice((0, 1, 127, 128, 255))
                with open(os.path.join(self.room, name), "wb") as file:
                    file.write(data)
                said = scan.line_of(scan.File(os.path.join(self.room, name), False, len(data)))
                errors = list(validator.iter_errors(json.loads(said.line)))
                self.assertEqual([str(it)[:500] for it in errors[:1]], [], name)


def has_distributed():
    try:
        import distributed  # noqa: F401
    except ImportError:
        return False
    return True


@unittest.skipUnless(has_distributed(), "Debian's python3-distributed is missing")
class Cluster(unittest.TestCase):
    """examples/scan_dask.py over a scheduler and two workers of this machine, one of which is killed."""

    def start(self, module, *words):
        environment = {**os.environ, "PYTHONPATH": os.pathsep.join(it for it in sys.path if it)}
        started = subprocess.Popen([sys.executable, "-m", module, *words], env=environment, stdout=subprocess.DEVNULL,
                                   stderr=subprocess.DEVNULL, cwd=self.room)
        self.addCleanup(started.wait)
        self.addCleanup(started.kill)
        return started

    def wait_for(self, port):
        """A busy machine takes longer to start a scheduler than a client waits for it."""
        end = time.monotonic() + 60
        while time.monotonic() < end:
            try:
                return socket.create_connection(("127.0.0.1", port), 1).close()
            except OSError:
                time.sleep(0.05)

    def test_a_worker_that_is_killed(self):
        self.room = tempfile.mkdtemp()
        self.addCleanup(shutil.rmtree, self.room)
        images = os.path.join(self.room, "images")
        os.mkdir(images)
        with open(os.path.join(IMAGES, "resources.bin"), "rb") as file:
            data = file.read()
        for i in range(120):
            with open(os.path.join(images, f"{i:03}.dll"), "wb") as file:
                file.write(data + bytes(i))
        # One that can't be read: it is too long.
        with open(os.path.join(images, "long.dll"), "wb") as file:
            file.truncate((1 << 32) + 1)
        with socket.socket() as free:
            free.bind(("127.0.0.1", 0))
            address = "tcp://127.0.0.1:%d" % free.getsockname()[1]
        self.start("distributed.cli.dask_scheduler", "--host", "127.0.0.1", "--port", address.rpartition(":")[2], "--no-dashboard")
        self.wait_for(int(address.rpartition(":")[2]))
        workers = [self.start("distributed.cli.dask_worker", address, "--nthreads", "1", "--no-nanny", "--no-dashboard")
                   for _ in range(2)]
        out = os.path.join(self.room, "out")
        code = f"import sys, runpy; sys.path[:] = {sys.path!r}; sys.argv = sys.argv[1:]; runpy.run_path(sys.argv[0], run_name='__main__')"
        script = os.path.join(EXAMPLES, "scan_dask.py")
        words = [sys.executable, "-c", code, script, address, images, out, "--bytes", "4000", "--seconds", "0.02"]
        done = subprocess.Popen(words, stdout=subprocess.PIPE, stderr=subprocess.STDOUT)
        end = time.monotonic() + 60
        while time.monotonic() < end and len(os.listdir(out) if os.path.isdir(out) else []) < 4 and done.poll() is None:
            time.sleep(0.01)
        if done.poll() is not None:
            self.fail(f"the scan was over before a worker was killed: {done.communicate()[0].decode()}")
        workers[0].send_signal(signal.SIGKILL)
        said, _ = done.communicate(timeout=90)
        self.assertEqual((done.returncode, f"{images}/long.dll: it has more than 4 GiB\n" in said.decode()), (3, True), said)
        lines = b""
        for name in sorted(os.listdir(out)):
            with open(os.path.join(out, name), "rb") as file:
                lines += file.read()
        self.assertEqual(lines, run("scan", "-j", "1", images)[0])


class Sources(unittest.TestCase):
    def test_the_example_is_short(self):
        with open(os.path.join(EXAMPLES, "scan_dask.py"), encoding="utf-8") as file:
            text = file.read()
        ast.parse(text)
        self.assertLess(len(text.splitlines()), 60)


if __name__ == "__main__":
    unittest.main()
