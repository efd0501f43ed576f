"""Objects, TE images, signatures, minidumps, stack walks, resources that are changed, and what must hold on every input.

What is expected stands in how the files are made (bindings/rust/tests/made), or is what other programs print of them: of the signature
what osslsigncode and openssl do."""
import copy
import datetime
import enum
import errno
import gc
import io
import os
import pathlib
import pickle
import random
import re
import struct
import subprocess
import sys
import threading
import time
import types
import unittest
from unittest import mock

import hostile
import pe_c
from pe_c import End, Kind, KnownOid, WarningKind, Way, _dump, _functions, _signature, pefile
from pe_c._signature import dotted

HERE = os.path.dirname(os.path.abspath(__file__))
IMAGES = os.environ["PE_C_IMAGES"]
SIGNED = os.environ.get("PE_C_SIGNED", os.path.join(HERE, "..", "..", "pe", "tests", "signed"))


def bytes_of(name):
    with open(os.path.join(IMAGES, name), "rb") as file:
        return file.read()


def signed():
    """An image with a signature by osslsigncode, which says so of it."""
    with open(os.path.join(SIGNED, "signature.p7"), "rb") as file:
        signature = file.read()
    return pe_c.Image(bytes_of("imports.bin")).attach(struct.pack("<IHH", len(signature) + 8, 0x200, 2) + signature)


class Objects(unittest.TestCase):
    def test_a_coff_object(self):
        coff = pe_c.Coff(bytes_of("object.obj"))
        self.assertEqual((coff.header.machine, [it.name for it in coff.sections]), (0x8664, [".text", ".data", ".bss"]))
        self.assertEqual([(it.name, it.at) for it in coff.symbols],
                         [(".file", 0), ("longer_than_eight", 2), (".text", 4), (".data", 6), (".bss", 8), ("five", 10), ("outside", 11)])
        self.assertEqual((coff.symbols[0].storage_class, len(coff.symbols[0].auxiliary)), (103, 18))
        with self.assertRaises(pe_c.Error) as caught:
            pe_c.Coff(b"short")
        self.assertEqual(caught.exception.kind, Kind.SHORT)
        path = os.path.join(IMAGES, "object.obj")
        self.assertEqual(pe_c.Coff.open(path).header, coff.header)

    def test_names_of_an_object_in_one_text(self):
        """Names are read together, as many as the budget pays."""
        text = b"a" * 60
        coff = pe_c.Coff(hostile.object_with_names(50, 50, text + b"\0"))
        wanted = ["a" * (60 - i) for i in range(50)]
        self.assertEqual([it.name for it in coff.symbols], wanted)
        self.assertEqual([it.name for it in coff.sections], wanted)
        self.assertEqual((coff.symbols.error, coff.symbols.is_limited, coff.sections.is_limited), (None, False, False))
        # A name that is no text ends the symbols, and is that of the header.
        coff = pe_c.Coff(hostile.object_with_names(50, 50, b"a\0" * 20 + b"\xff\0" + b"b\0" * 30))
        self.assertEqual(([it.name for it in coff.symbols], coff.symbols.error.kind), (["a", ""] * 20, Kind.STRING_TABLE))
        self.assertEqual([it.name for it in coff.sections], ["a", ""] * 20 + ["/44", ""] + ["b", ""] * 4)
        for letter in b"a\xff":
            start = time.process_time()
            coff = pe_c.Coff(hostile.object_with_names(100_000, 65_535, bytes([letter]) * 4_000_000 + b"\0"))
            self.assertEqual((len(coff.symbols), len(coff.sections)), (8 if letter == ord("a") else 0, 65_535))
            self.assertEqual((coff.symbols.is_limited, coff.sections.is_limited), (letter == ord("a"), True))
            self.assertLess(time.process_time() - start, 5)

    def test_the_symbols_of_an_image(self):
        data = bytearray(hostile.image(bytes(16), {}))
        coff, start = 0x44, len(data)
        struct.pack_into("<II", data, coff + 8, start, 2)
        data += struct.pack("<8sIhHBB", b"short", 7, 1, 0x20, 2, 0) + struct.pack("<IIIhHBB", 0, 4, 9, -1, 0, 3, 0)
        data += struct.pack("<I", 4 + 12) + b"a_long_name\0"
        image = pe_c.Image(bytes(data))
        self.assertEqual([(it.name, it.value, it.section_number) for it in image.symbols], [("short", 7, 1), ("a_long_name", 9, -1)])
        refused = pe_c.Image(bytes(data[:-1])).symbols
        self.assertEqual((len(refused), refused.error.kind), (1, Kind.STRING_TABLE))
        self.assertEqual(pe_c.Image(bytes_of("debug.bin")).symbols, ())

    def test_a_te_image(self):
        te = pe_c.Te(bytes_of("te_image.te"))
        self.assertEqual((te.header.machine, te.header.stripped_size, te.header.subsystem), (0x8664, 296, 10))
        self.assertEqual((te.symbol_key.name, te.symbol_key.age, te.symbol_key.guid), ("a.pdb", 9, bytes(range(0x10, 0x20))))
        self.assertEqual([it.data_type for it in te.debug_entries], [2])
        self.assertEqual([it.name for it in te.sections], [".text"])
        for wrong, kind in ((b"VZ", Kind.SHORT), (bytes(40), Kind.BAD_MAGIC)):
            with self.assertRaises(pe_c.Error) as caught:
                pe_c.Te(wrong)
            self.assertEqual(caught.exception.kind, kind)
        with pe_c.Te.open(os.path.join(IMAGES, "te_image.te")) as again:
            self.assertEqual(again.header, te.header)
        with self.assertRaises(ValueError):
            again.sections

    def test_records_of_dotnet(self):
        image = pe_c.Image(bytes_of("managed_debug.bin"))
        self.assertIsNotNone(image.embedded_pdb)
        self.assertEqual(image.pdb_checksum.algorithm, "SHA256")
        self.assertIsNone(pe_c.Image(bytes_of("debug.bin")).embedded_pdb)


class Signatures(unittest.TestCase):
    def test_who_signed(self):
        image = pe_c.Image(signed())
        signature, = image.signatures
        signer, = signature.signers
        self.assertEqual(str(signer.certificate.subject), "CN=Signer,OU=Two+O=Probe\\, Inc.,C=DE")
        self.assertEqual((str(signer.issuer), signer.serial), ("CN=Root,O=Root of the test,C=DE", "1234"))
        self.assertEqual((signer.certificate.not_before, signer.certificate.not_after),
                         ("2026-11-27T04:37:07Z", "2048-10-22T04:37:07Z"))
        self.assertEqual((signer.program_name, signer.program_url), ("Probe", "https://example.org/"))
        self.assertEqual((signer.signing_time, signer.digest_algorithm, signer.signature_algorithm),
                         ("2026-11-27T04:37:07Z", "sha256", "ECDSA_SHA256"))
        self.assertEqual(signer.certificate.subject.get(KnownOid.ORGANIZATION), "Probe, Inc.")
        self.assertEqual(sorted(str(it.subject) for it in signature.certificates),
                         ["CN=Root,O=Root of the test,C=DE", "CN=Signer,OU=Two+O=Probe\\, Inc.,C=DE"])

    def test_digests(self):
        image = pe_c.Image(signed())
        signature, = image.signatures
        self.assertEqual((signature.content_type, signature.digest_algorithm), ("SPC_INDIRECT_DATA", "sha256"))
        self.assertEqual(signature.digest.hex(), "d2a14c9f681445506a86fe95951af765d1badb45d72602d8fec09fb63541c3d3")
        self.assertEqual(image.digest("sha256"), signature.digest.hex())
        nested, = signature.signers[0].nested
        self.assertIs(signature.signers[0].nested[0], nested)
        self.assertEqual((nested.digest_algorithm, nested.digest.hex()), ("sha384", image.digest("sha384")))
        changed = bytearray(signed())
        changed[-len(image.certificates[0].body) - 0x60] ^= 1
        self.assertNotEqual(pe_c.Image(changed).digest("sha256"), signature.digest.hex())

    def test_a_time_stamp(self):
        import hashlib
        signer = pe_c.Image(signed()).signatures[0].signers[0]
        stamp, = signer.time_stamps
        self.assertEqual((stamp.time, stamp.digest), ("2026-11-27T05:37:07Z", hashlib.new(stamp.digest_algorithm, signer.signature).digest()))
        self.assertEqual([str(it.certificate.subject) for it in stamp.signature.signers], ["CN=Stamps"])
        self.assertTrue(datetime.datetime.fromisoformat(stamp.time))

    def test_what_ends_a_list_is_its_error(self):
        """Without a length an element is refused: it ends certificates, and attributes, of which those after it are not known."""
        whole, = pe_c.Image(signed()).signatures

        def damaged(element):
            body = bytearray(whole.memory)
            body[element.whole.offset + 1] = 0x80
            return _signature.Signature(bytes(body))
        first, second = whole._elements(whole.row.certificates)
        ended = damaged(second)
        self.assertEqual((len(ended.certificates), ended.certificates.error.kind), (1, Kind.SIGNATURE_INDEFINITE_LENGTH))
        row = whole.signers[0].row
        signer, = damaged(whole._elements(row.unsigned_attributes)[0]).signers
        for part in (signer.time_stamps, signer.nested):
            self.assertEqual((part, part.error.kind), ((), Kind.SIGNATURE_INDEFINITE_LENGTH))
        self.assertEqual(signer.signing_time, whole.signers[0].signing_time)
        signer, = damaged(whole._elements(row.signed_attributes)[0]).signers
        for name in ("signing_time", "message_digest", "program_name"):
            with self.assertRaises(pe_c.Error, msg=name):
                getattr(signer, name)

    def test_they_outlive_the_image(self):
        image = pe_c.Image(signed())
        signature, = image.signatures
        image.close()
        with self.assertRaises(ValueError):
            image.signatures
        self.assertEqual(len(signature.signers), 1)

    def test_cycles_are_collected(self):
        """A signature and its signers are a cycle over a memoryview, which the collector must not clear first."""
        code = (f"import sys; sys.path[:] = {sys.path!r}\nimport gc, pe_c, test_more\n"
                "for i in range(20):\n    image = pe_c.Image(test_more.signed())\n"
                "    found = [(it, it.signers, it.signers[0].nested, it.signers[0].time_stamps) for it in image.signatures]\n"
                "    del found, image\n    gc.collect()\nleft = pe_c.Image(test_more.signed()).signatures\nkept = left[0].signers\n")
        done = subprocess.run([sys.executable, "-c", code], capture_output=True, timeout=60)
        self.assertEqual((done.returncode, done.stderr), (0, b""))

    def test_damaged_signatures(self):
        data, chance, opened = signed(), random.Random(5), 0
        start = len(data) - len(pe_c.Image(data).certificates[0].body)
        for _ in range(300):
            copy = bytearray(data)
            for _ in range(chance.randrange(1, 6)):
                copy[chance.randrange(start, len(copy))] = chance.choice((0, 1, 0x30, 127, 128, 255, chance.randrange(256)))
            image = pe_c.Image(bytes(copy))
            try:
                repr(tell(image.signatures))
                opened += 1
            except pe_c.Error:
                pass
        self.assertGreater(opened, 100)

    def test_object_identifiers(self):
        """X.690, 8.19: 2.999.3 is an example there. An arc of 64 bits has ten octets."""
        for octets, text in ((b"\x88\x37\x03", "2.999.3"), (b"\x2a\x86\x48", "1.2.840"), (b"\x2a\x86", "1.2.?"), (b"\x86", "?"), (b"", ""),
                             (b"\x2a\x81" + b"\xff" * 8 + b"\x7f", f"1.2.{2 ** 64 - 1}"), (b"\x2a\x82" + b"\x80" * 8 + b"\x00\x01", "1.2.?.1")):
            self.assertEqual(dotted(octets), text)
        start = time.process_time()
        self.assertEqual(dotted(b"\x2a" + b"\xff" * (1 << 20) + b"\x7f"), "1.2.?")
        self.assertLess(time.process_time() - start, 5)

    def test_a_name_of_many_attributes(self):
        """All stand in one relative distinguished name: the text takes as long as it is."""
        attributes = [types.SimpleNamespace(type=types.SimpleNamespace(id=int(KnownOid.COMMON_NAME)), tag=0x0C, value=b"a" * 16,
                                            starts_rdn=i == 0) for i in range(100_000)]
        start = time.process_time()
        self.assertEqual(str(_signature.Name(pe_c.Part(attributes))), "+".join(["CN=" + "a" * 16] * 100_000))
        self.assertLess(time.process_time() - start, 20)

    def test_certificates_are_searched_once(self):
        class Counted(pe_c.Part):
            times = 0

            def __iter__(self):
                Counted.times += 1
                return super().__iter__()
        signature, = pe_c.Image(signed()).signatures
        signature._kept["certificates"] = Counted(signature.certificates)
        signer, = signature.signers
        found = [signer.certificate for _ in range(9)]
        self.assertEqual((str(found[0].subject), Counted.times), ("CN=Signer,OU=Two+O=Probe\\, Inc.,C=DE", 1))
        self.assertTrue(all(it is found[0] for it in found))

    def test_no_signature(self):
        self.assertEqual((pe_c.Image(bytes_of("debug.bin")).signatures, pe_c.Image(bytes_of("debug.bin")).signatures.error), ((), None))
        part = pe_c.Image(bytes_of("certificates.bin")).signatures
        self.assertEqual((part, part.refused, part.error.kind), ((), ((0, part.error),), Kind.SIGNATURE_TRUNCATED))

    def test_which_signature_is_refused(self):
        data = pe_c.Image(bytes_of("imports.bin"))
        entries = [pe_c.Image(signed()).certificates[0].body, b"\x30\x80", b"no X.509", b"\x31\x00"]
        kinds = (2, 2, 1, 2)
        table = b"".join(struct.pack("<IHH", len(it) + 8, 0x200, kind) + bytes(it) + bytes(-len(it) % 8)
                         for it, kind in zip(entries, kinds))
        image = pe_c.Image(data.attach(table))
        self.assertEqual([it.type for it in image.certificates], list(kinds))
        part = image.signatures
        self.assertEqual((len(part), part.refused[0][1], [index for index, _ in part.refused]), (1, part.error, [1, 3]))
        self.assertTrue(all(isinstance(it, pe_c.Error) for _, it in part.refused))
        self.assertEqual((part[0].signers.refused, image.certificates.refused), ((), ()))


def tell(signatures, depth=0):
    """All that signatures say."""
    found = []
    for it in signatures:
        found += [it.content_type, it.digest_algorithm, it.digest, [(str(one.subject), one.key_usage, one.not_after) for one in it.certificates]]
        for signer in it.signers:
            found += [str(signer.issuer), signer.certificate, signer.signing_time, signer.message_digest, signer.program_name,
                      signer.program_url, signer.counter_signatures, [one.time for one in signer.time_stamps]]
            found += tell(signer.nested, depth + 1) if depth < 4 else []
    return found


BASE = 0x180000000


class Stacks(unittest.TestCase):
    """Walks over functions.bin: its first function pushes rbp, sets it to rsp and 32, and allocates 32 bytes. So of a frame at rsp
    rbp is rsp + 64, the caller's rbp stands at rsp + 32, and the return address at rsp + 40."""

    def registers(self, rip, rsp, **more):
        general = [0] * 16
        general[4] = rsp
        for register, value in more.items():
            general[{"rbx": 3, "rbp": 5}[register]] = value
        return pe_c.Registers((tuple(general), (0,) * 32, rip))

    def walk(self, words, rip, most=10, **more):
        memory = struct.pack(f"<{len(words)}Q", *words)
        image = pe_c.Image(bytes_of("functions.bin"))
        return pe_c.walk(self.registers(rip, 0x20000, **more), [(image, BASE)], memory, [(0x20000, 0, len(memory))], most)

    def test_a_frame(self):
        stack = self.walk([1, 2, 3, 4, 0x5555, 0x7000], BASE + 0x5008, rbp=0x20040)
        self.assertEqual([(it.registers.rip, it.registers.general[4], it.way) for it in stack.frames],
                         [(BASE + 0x5008, 0x20000, Way.TOP), (0x7000, 0x20030, Way.RECORDS)])
        self.assertEqual((stack.frames[1].registers.general[5], stack.end, stack.error), (0x5555, End.NO_MODULE, None))
        # The section has no code, so no call ends at an address of it.
        self.assertEqual([it.has_called for it in stack.frames], [False, False])

    def test_frames_through_frames(self):
        words = [0] * 4 + [0x20070, BASE + 0x500A] + [0] * 6
        stack = self.walk(words, BASE + 0x5008, rbp=0x20040)
        self.assertEqual([it.registers.rip - BASE for it in stack.frames], [0x5008, 0x500A])
        self.assertEqual(stack.end, End.BOTTOM)
        self.assertEqual(self.walk(words, BASE + 0x5008, most=1, rbp=0x20040).end, End.BOUND)

    def test_memory_that_is_missing(self):
        stack = self.walk([1, 2, 3, 4, 5], BASE + 0x5008, rbp=0x20040)
        self.assertEqual((len(stack.frames), stack.end, stack.error.kind, stack.address), (1, End.STEP, Kind.MISSING, 0x20028))

    def test_misuse(self):
        image, memory = pe_c.Image(bytes_of("functions.bin")), bytes(16)
        with self.assertRaises(pe_c.Error):
            pe_c.walk(self.registers(1, 2), [(image, BASE)], memory, [(0x20000, 8, 9)])
        dump = pe_c.Dump(bytes_of("x64.dmp"))
        with self.assertRaisesRegex(TypeError, "registers are pe_c.Registers or pe_c.Arm64Registers, and not "):
            pe_c.walk(dump.context(dump.threads[0]), [], b"", [])
        image.close()
        with self.assertRaises(ValueError):
            pe_c.walk(self.registers(1, 2), [(image, BASE)], memory, [(0x20000, 0, 8)])
        for most in (1 << 31, 1 << 32, 1 << 40):
            self.assertEqual(pe_c.walk(self.registers(1, 2), [], b"", [], most).frames[0].registers.rip, 1)
        self.assertEqual(pe_c.walk(self.registers(1, 2), [], b"", [], 0).frames, ())

    def test_modules_that_overlap(self):
        """Modules may stand in any order; of those that overlap the first one has an address, wherever it starts."""
        functions, other = pe_c.Image(bytes_of("functions.bin")), pe_c.Image(bytes_of("exports.bin"))
        words = [1, 2, 3, 4, 0x5555, 0x7000]
        memory, registers = struct.pack("<6Q", *words), self.registers(BASE + 0x5008, 0x20000, rbp=0x20040)
        size = other.headers.size_of_image
        self.assertGreater(size, 0x5010)
        apart, below = (other, BASE - size), (other, BASE - 8)
        for modules in ([(functions, BASE)], [(functions, BASE), apart], [apart, (functions, BASE)], [(functions, BASE), below]):
            stack = pe_c.walk(registers, modules, memory, [(0x20000, 0, len(memory))], 10)
            self.assertEqual((stack.frames[1].registers.rip, stack.frames[1].is_guess, stack.end), (0x7000, False, End.NO_MODULE))
        # In the other one it is in no function, and 1, the word at its stack pointer, is no address of code.
        stack = pe_c.walk(registers, [below, (functions, BASE)], memory, [(0x20000, 0, len(memory))], 10)
        self.assertEqual((len(stack.frames), stack.end), (1, End.NO_RETURN_ADDRESS))

    def test_a_caller_in_a_module_without_an_image(self):
        """A leaf function that was jumped to returns to the module."""
        data = bytearray(bytes_of("functions.bin"))
        headers = pe_c.Image(bytes(data)).all_headers
        # The section has code: IMAGE_SCN_CNT_CODE, IMAGE_SCN_MEM_EXECUTE, IMAGE_SCN_MEM_READ.
        struct.pack_into("<I", data, headers.optional_offset + headers.coff.size_of_optional_header + 36, 0x60000020)
        image, other = pe_c.Image(bytes(data)), 0x70000000
        rva = next(it for it in range(0x5000, 0x5200) if image.unwind(it) is None)
        memory, registers = struct.pack("<2Q", other + 0x123, 0), self.registers(BASE + rva, 0x20000)
        for modules, frames in (([(image, BASE)], 1), ([(image, BASE), (0x1000, other)], 2),
                                ([(0x1000, other), (image, BASE)], 2), ([(image, BASE), (0x100, other)], 1)):
            stack = pe_c.walk(registers, modules, memory, [(0x20000, 0, 16)], 10)
            self.assertEqual([it.registers.rip for it in stack.frames], [BASE + rva, other + 0x123][:frames], modules)
        with self.assertRaises(struct.error):
            pe_c.walk(registers, [(1 << 32, other)], memory, [(0x20000, 0, 16)], 10)

    def test_a_damaged_function_table(self):
        """Of a table of 30 bytes and a half the whole entries serve, and the stack says so."""
        data = bytearray(bytes_of("functions.bin"))
        whole, place = pe_c.Image(bytes(data)), None
        headers = whole.all_headers
        place = headers.directories_offset + 8 * 3
        rva, size = struct.unpack_from("<II", data, place)
        struct.pack_into("<II", data, place, rva, size - 1)
        image = pe_c.Image(bytes(data))
        self.assertIsNotNone(image.functions.error)
        words = [1, 2, 3, 4, 0x5555, 0x7000]
        memory, registers = struct.pack("<6Q", *words), self.registers(BASE + 0x5008, 0x20000, rbp=0x20040)
        stacks = [pe_c.walk(registers, [(it, BASE)], memory, [(0x20000, 0, len(memory))], 10) for it in (whole, image)]
        self.assertEqual([[it.registers.rip for it in stack.frames] for stack in stacks], [[BASE + 0x5008, 0x7000]] * 2)
        self.assertEqual([len(it.warnings) for it in stacks], [0, 1])
        warning, = stacks[1].warnings
        self.assertEqual((warning.kind, warning.error.number), (pe_c.WarningKind.DAMAGED, image.functions.error.number))
        self.assertIn(f"function table of the module at 0x{BASE:x}: ", str(warning))
        # As large as the rest of the file, and unmapped, it is read as far as there is one.
        for at in ((rva, 0xFFFFFFFF), (0x7FFFFFFF, size)):
            struct.pack_into("<II", data, place, *at)
            stack = pe_c.walk(registers, [(pe_c.Image(bytes(data)), BASE)], memory, [(0x20000, 0, len(memory))], 10)
            self.assertGreaterEqual(len(stack.frames), 1)
            self.assertEqual(len(stack.warnings), 1)

    def test_threads(self):
        """The GIL is released in walks and lists: no image is closed meanwhile."""
        image, memory = pe_c.Image(bytes_of("functions.bin")), struct.pack("<12Q", *[0] * 4, 0x20070, BASE + 0x500A, *[0] * 6)
        registers, told, wrong = self.registers(BASE + 0x5008, 0x20000, rbp=0x20040), [], []

        def reads():
            try:
                for _ in range(200):
                    found = pe_c.walk(registers, [(image, BASE)], memory, [(0x20000, 0, len(memory))], 10)
                    told.append([it.registers.rip - BASE for it in found.frames])
                    list(copy.copy(image).functions)
            except ValueError as error:
                wrong.append(str(error))
        threads = [threading.Thread(target=reads) for _ in range(4)]
        for it in threads:
            it.start()
        while any(it.is_alive() for it in threads):
            try:
                if len(told) > 100:
                    image.close()
            except BufferError:
                pass
        self.assertEqual(([it for it in told if it != [0x5008, 0x500A]], len(told) > 100), ([], True))
        self.assertLessEqual(set(wrong), {"a module without an address, or that is no open image", "operation on a closed image"})

    def test_on_arm64(self):
        registers = pe_c.Arm64Registers((tuple(range(31)), tuple(range(8)), 0x20000, 0x1234))
        stack = pe_c.walk(registers, [(pe_c.Image(bytes_of("arm64_functions.bin")), BASE)], bytes(64), [(0x20000, 0, 64)])
        self.assertEqual((stack.frames[0].registers, stack.end), (registers, End.NO_MODULE))


class Files(unittest.TestCase):
    """What is opened, and what is said of it beside its records."""

    def test_what_is_opened(self):
        path, content = os.path.join(IMAGES, "debug.bin"), bytes_of("debug.bin")
        with open(path, "rb") as file:
            by_file = pe_c.open(file)
        with open(path, "rb", buffering=0) as file:
            file.seek(0)
            self.assertEqual(pe_c.open(file).path, path)
        for image, name in ((pe_c.open(path), path), (pe_c.open(pathlib.Path(path)), path), (by_file, path),
                            (pe_c.open(io.BytesIO(content)), None)):
            self.assertEqual((bytes(image.memory), image.path), (content, name))
        self.assertEqual(pe_c.Dump.open(io.BytesIO(bytes_of("x64.dmp"))).header.number_of_streams, 12)
        with open(os.path.join(IMAGES, "object.obj"), "rb") as file:
            self.assertEqual(pe_c.Coff.open(file).machine, pe_c.Coff.open(file.name).machine)
        for given, said in ((3, "and not int"), (None, "and not NoneType"), (io.StringIO("x"), "it reads str")):
            with self.assertRaisesRegex(TypeError, said):
                pe_c.open(given)
        with self.assertRaises(OSError):
            pe_c.open(io.BytesIO(content), limit=len(content) - 1)
        self.assertEqual(len(pe_c.open(io.BytesIO(content), limit=len(content)).memory), len(content))
        # What never ends is read up to the limit alone, and no more is asked for at once than there is room for.
        with open("/dev/zero", "rb") as endless:
            for file in (endless, "/dev/zero"):
                with self.assertRaises(OSError) as caught:
                    pe_c.open(file, limit=3 << 20)
                self.assertEqual((caught.exception.errno, caught.exception.filename), (errno.EFBIG, "/dev/zero"))
        asked = []
        class Asked(io.BytesIO):
            def read(self, count=-1):
                asked.append(count)
                return super().read(min(count, 1000))
        self.assertEqual(bytes(pe_c.Dump.open(Asked(bytes_of("x64.dmp"))).memory), bytes_of("x64.dmp"))
        self.assertTrue(len(asked) > 2 and all(0 < it <= 1 << 20 for it in asked))

    def test_copies(self):
        image = pe_c.open(os.path.join(IMAGES, "debug.bin"))
        one, other = copy.copy(image), copy.deepcopy(image)
        image.close()
        self.assertEqual((one.headers, one.path, one.symbol_key), (other.headers, other.path, other.symbol_key))
        one.close()
        self.assertEqual((one.closed, other.closed, other.sections[0].name), (True, False, ".rdata"))
        with self.assertRaises(ValueError):
            copy.copy(image)
        dump = copy.copy(pe_c.Dump(bytes_of("x64.dmp")))
        self.assertEqual((len(dump.modules), len(copy.copy(pe_c.Te(bytes_of("te_image.te"))).sections)), (1, 1))

    def test_machines_versions_and_paths(self):
        image = pe_c.open(os.path.join(IMAGES, "debug.bin"))
        self.assertEqual((image.machine, image.machine.name, isinstance(image.machine, int)), (0x8664, "AMD64", True))
        self.assertEqual((pe_c.Machine(0x1234).name, pe_c.Machine(0x1234)), ("0x1234", 0x1234))
        for machine in (pe_c.Machine(0x1234), image.machine):
            for copied in (copy.copy(machine), copy.deepcopy(machine), pickle.loads(pickle.dumps(machine))):
                self.assertEqual((copied, copied.name, hash(copied), type(copied)), (machine, machine.name, hash(machine), pe_c.Machine))
        with self.assertRaises(ValueError):
            pe_c.Machine(1 << 16)
        # The path of the GUID 497B72F6-390A-44FC-878E-5A2D63B6CC4B, age 1, as README has it.
        self.assertEqual(image.symbol_path, "a.pdb/497B72F6390A44FC878E5A2D63B6CC4B1/a.pdb")
        self.assertEqual(image.symbol_key.symbol_path, image.symbol_path)
        stamp, size = image.headers.time_date_stamp, image.headers.size_of_image
        self.assertEqual(image.image_path("C:\\b\\a.dll"), f"a.dll/{stamp:08X}{size:x}/a.dll")
        self.assertEqual([image.image_path(it) for it in ("..", "a/", "", "a:b", "a\x85b", "\x01")], [None] * 6)
        self.assertEqual(pe_c.Image(bytes_of("exports.bin")).symbol_path, None)
        older = pe_c.Image(bytes_of("old_debug.bin"))
        if older.pdb20 and not older.symbol_key:
            self.assertEqual(older.symbol_path.split("/")[1], f"{older.pdb20.signature:08X}{older.pdb20.age:X}")
        fixed = pe_c.Image(bytes_of("resources.bin")).versions[0].fixed
        self.assertEqual((fixed.file_version, len(fixed.product_version)), ((3, 11, 3150, 1013), 4))


class PublicNames(unittest.TestCase):
    """uses.py, whose types mypy checks, names all that is public, and runs."""

    def public(self):
        for name, it in vars(pe_c).items():
            if name.startswith("_") or isinstance(it, types.ModuleType):
                continue
            yield name
            is_class = isinstance(it, type) and it.__module__.startswith("pe_c")
            if is_class and not issubclass(it, enum.Enum) and not hasattr(it, "n_sequence_fields"):
                own = (cls for cls in it.__mro__ if cls.__module__.startswith("pe_c"))
                yield from (f"{name}.{one}" for cls in own for one in vars(cls) if not one.startswith("_"))

    def test_each_is_used(self):
        import uses
        with open(uses.__file__, encoding="utf-8") as file:
            words = set(re.findall(r"\w+", file.read()))
        names = set(self.public())
        self.assertGreater(len(names), 250)
        self.assertEqual([it for it in names if it.split(".")[-1] not in words], [])
        self.assertGreater(uses.main(IMAGES), len(uses.ROWS))


class Dumps(unittest.TestCase):
    def test_streams(self):
        dump = pe_c.Dump(bytes_of("x64.dmp"))
        self.assertEqual((dump.header.number_of_streams, len(dump.entries)), (12, 12))
        self.assertEqual([it.thread_id for it in dump.threads], [0x24, 0x25])
        module, = dump.modules
        self.assertEqual((module.base_of_image, module.size_of_image, module.module_name), (BASE, 0x6000, "a.exe"))
        self.assertEqual((dump.symbol_key(module).name, dump.symbol_key(module).age), ("a.pdb", 1))
        self.assertEqual((dump.exception.thread_id, dump.exception.exception_code, dump.exception.number_parameters), (0x24, 0xC0000005, 2))
        self.assertEqual((dump.process.process_id, dump.process.processor_power.processor_max_mhz), (1, 5))
        self.assertEqual([(it.thread_id, it.name) for it in dump.thread_names], [(0x24, "a.exe")])
        self.assertEqual([(it.base_of_image, it.size_of_image) for it in dump.unloaded_modules], [(0x70000000, 0x1000)])
        self.assertEqual([(it.base_address, it.region_size, it.memory_type) for it in dump.regions], [(0x1000, 0x1000, 0x20000)])
        self.assertEqual([(it.handle, it.pointer_count, it.type_name) for it in dump.handles], [(0x44, 4, "a.exe")])
        self.assertEqual([(it.exit_status, it.affinity) for it in dump.thread_infos], [(259, 6)])
        self.assertEqual([(it.start, it.length, it.lost) for it in dump.memory64], [(0x20000, 400, 624)])
        # Of the second list the file ends inside its piece.
        self.assertEqual([(it.kind, it.part, it.text) for it in dump.warnings],
                         [(Kind.SHORT, "memory", "624 bytes are lost: the file is truncated")])
        self.assertEqual(dump.system.processor_architecture, 9)
        self.assertEqual((len(dump.at(0x20000, 8)), len(dump.at(0x20000 + 399, 8)), len(dump.at(0x50000, 8))), (8, 1, 0))

    def test_stacks(self):
        dump = pe_c.Dump(bytes_of("x64.dmp"))
        crashed = dump.threads[0]
        self.assertEqual(dump.context(crashed).registers.rip, BASE + 0x5000)
        self.assertEqual(dump.stack(crashed).end, End.NO_MODULE)
        image = pe_c.Image(bytes_of("functions.bin"))
        walked = dump.stack(crashed, lambda module: image)
        self.assertEqual(([it.registers.rip for it in walked.frames], walked.end), ([BASE + 0x5000], End.BOTTOM))
        other = bytearray(bytes_of("functions.bin"))
        other[struct.unpack_from("<I", other, 60)[0] + 8] ^= 1
        self.assertEqual(dump.stack(crashed, lambda module: pe_c.Image(bytes(other))).end, End.NO_MODULE)
        self.assertEqual(dump.module_at(BASE + 5).module_name, "a.exe")
        arm64 = pe_c.Dump(bytes_of("arm64.dmp"))
        self.assertEqual(arm64.context(arm64.threads[0]).registers.pc, BASE + 0x5020)

    def test_registers_of_the_exception_that_cannot_be_read(self):
        dump, whole = bytearray(bytes_of("x64.dmp")), pe_c.Dump(bytes_of("x64.dmp"))
        at, = (it.location.rva for it in whole.entries if it.stream_type == 6)
        struct.pack_into("<I", dump, at + 160, 1)
        changed = pe_c.Dump(bytes(dump), path="a.dmp")
        stack = changed.stack(changed.threads[0])
        self.assertEqual(stack.frames[0].registers, changed.context(changed.threads[0]).registers)
        (warning,) = stack.warnings
        self.assertEqual((warning.kind, warning.part, warning.error.kind, warning.path),
                         (WarningKind.DAMAGED, "registers of the exception", Kind.DUMP_CONTEXT_SIZE, "a.dmp"))
        self.assertEqual(whole.stack(whole.threads[0]).warnings, ())

    def test_an_image_in_memory(self):
        """The image of a module stands in the memory of the dump, as it was loaded."""
        dump, file = bytearray(bytes_of("x64.dmp")), bytes_of("functions.bin")
        dump += bytes(-len(dump) % 8)
        loaded = (file + bytes(0x6000))[:0x6000]
        start, directory = len(dump), struct.unpack_from("<I", dump, 12)[0]
        dump += loaded
        for i in range(12):
            kind, _, at = struct.unpack_from("<III", dump, directory + 12 * i)
            if kind == 5:
                struct.pack_into("<QII", dump, at + 4, BASE, len(loaded), start)
        image = pe_c.Dump(bytes(dump)).image_of(pe_c.Dump(bytes(dump)).modules[0])
        self.assertEqual((image.headers.size_of_image, image.headers.mode), (0x6000, 3))

    def many(self, count):
        """The dump with so many modules at one address."""
        dump = bytearray(bytes_of("x64.dmp"))
        dump += bytes(-len(dump) % 8)
        directory = struct.unpack_from("<I", dump, 12)[0]
        for i in range(12):
            kind, _, at = struct.unpack_from("<III", dump, directory + 12 * i)
            if kind == 4:
                module = dump[at + 4:at + 4 + 108]
                struct.pack_into("<II", dump, directory + 12 * i + 4, 4 + 108 * count, len(dump))
                dump += struct.pack("<I", count) + module * count
        return dump

    def test_memory_that_is_not_in_the_file(self):
        dump = bytearray(bytes_of("x64.dmp") + bytes(624))
        self.assertEqual(pe_c.Dump(bytes(dump)).warnings, ())
        count, directory = struct.unpack_from("<II", dump, 8)
        threads, = (at for kind, _, at in struct.iter_unpack("<III", dump[directory:directory + 12 * count]) if kind == 3)
        # Stacks that the lists lack: of one the file has 8 bytes of 40, of the other, which starts there too, 4.
        for i, length in enumerate((8, 4)):
            struct.pack_into("<QII", dump, threads + 4 + 48 * i + 24, 0x50000, 40, len(dump) - length)
        self.assertEqual([(it.kind, it.text) for it in pe_c.Dump(bytes(dump)).warnings], [(Kind.SHORT, "32 bytes are lost: the file is truncated")])

    def test_modules_that_share_a_long_name(self):
        dump, count = self.many(8000), 8000
        name, first = len(dump), len(dump) - 108 * count
        dump += struct.pack("<I", 60000) + "a".encode("utf-16-le") * 30000 + b"\0\0"
        for i in range(count):
            struct.pack_into("<I", dump, first + 108 * i + 20, name)
        found = pe_c.Dump(bytes(dump))
        self.assertTrue(found.modules.is_limited and len(found.modules) < count and found.stack(found.threads[0]).frames.is_limited)
        self.assertEqual([(it.kind, it.part) for it in found.warnings], [(Kind.ROOM, "modules")])

    def test_many_modules_over_one_piece(self):
        """All modules are the same bytes: what is kept of them has a bound, in bytes and in sections."""
        dump, image = pe_c.Dump(bytes(self.many(40))), pe_c.Image(bytes_of("functions.bin"))
        self.assertEqual((len(dump.modules), dump.warnings), (40, ()))
        crashed = dump.threads[0]
        self.assertEqual((len(dump._images(lambda module: image)[0]), dump.stack(crashed, lambda module: image).frames.is_limited), (40, False))
        with mock.patch.object(_dump, "MOST_SECTIONS", 7 * image.headers.number_of_sections):
            self.assertEqual([it for it, _ in dump._images(lambda module: image)[0]], [image] * 7 + [0x6000] * 33)
            walked = dump.stack(crashed, lambda module: image)
            self.assertEqual((walked.end, walked.frames.is_limited), (End.BOTTOM, True))
        self.assertEqual(_dump.MOST_SECTIONS, 1 << 20)
        loaded, data = (bytes_of("functions.bin") + bytes(0x6000))[:0x6000], self.many(4000)
        directory, start = struct.unpack_from("<I", data, 12)[0], len(data)
        data += loaded
        for i in range(12):
            kind, _, at = struct.unpack_from("<III", data, directory + 12 * i)
            if kind == 5:
                struct.pack_into("<QII", data, at + 4, BASE, len(loaded), start)
        found, is_limited = pe_c.Dump(bytes(data))._images(None)
        images = [it for it, _ in found if isinstance(it, pe_c.Image)]
        self.assertEqual((len(images), len(found), is_limited), (2 * len(data) // len(loaded), 4000, True))
        self.assertLess(len(images), 4000)

    def in_pieces(self, count, is_listed=True):
        """The dump with its stack in so many pieces, each of which overlaps the next, after so many elsewhere; or in no list."""
        dump = bytearray(bytes_of("x64.dmp"))
        dump += bytes(-len(dump) % 8)
        whole = pe_c.Dump(bytes(dump))
        start, (address, offset, length) = len(dump), max(whole.pieces, key=lambda it: it[0] == whole.threads[0].stack.start_of_memory_range)
        pieces = [(0x900000 + 64 * i, 64 + 64, 0x20) for i in range(count)]
        pieces += [(address + i, min(16, length - i), offset + i) for i in range(0, length, 8)]
        dump += struct.pack("<I", len(pieces)) + b"".join(struct.pack("<QII", *it) for it in pieces)
        directory = struct.unpack_from("<I", dump, 12)[0]
        for i in range(12):
            kind = struct.unpack_from("<I", dump, directory + 12 * i)[0]
            if kind == 3:
                thread, = struct.unpack_from("<I", dump, directory + 12 * i + 8)
                struct.pack_into("<QII", dump, thread + 4 + 24, address, length, offset)
            if kind == 5:
                struct.pack_into("<III", dump, directory + 12 * i, 5 if is_listed else 0, 4 + 16 * len(pieces), start)
            if kind == 9:
                struct.pack_into("<I", dump, directory + 12 * i, 0)
        return pe_c.Dump(bytes(dump)), (address, offset, length)

    def test_pieces_that_overlap_are_all_kept(self):
        """Four of five real dumps have more than 4,096 pieces, some of which overlap."""
        dump, (address, offset, length) = self.in_pieces(6000)
        self.assertIn((address, offset, length), dump.pieces)
        self.assertTrue(all(one[0] + one[2] <= other[0] for one, other in zip(dump.pieces, dump.pieces[1:])))
        # What a loop asks for again is there.
        self.assertIs(dump.pieces, dump.pieces)
        self.assertIs(dump.warnings, dump.warnings)
        for at in (address, address + length // 2, address + length - 1):
            self.assertEqual(bytes(dump.at(at, 1)), bytes(dump.memory[offset + at - address:][:1]))
        self.assertEqual(len(dump.at(0x900000 + 64 * 5999 + 127, 8)), 1)
        self.assertEqual((len(dump.at(address + length, 1)), len(dump.at(address - 1, 1))), (0, 0))

    def test_the_stack_of_a_thread_is_memory_without_a_list(self):
        dump, stack = self.in_pieces(0, is_listed=False)
        self.assertEqual((dump.memory_list, dump.memory64, dump.pieces), ((), (), (stack,)))
        # At offset 0, which full dumps say of all stacks, the file has its header.
        data, (address, offset, length) = bytearray(dump.memory), stack
        struct.pack_into("<I", data, data.index(struct.pack("<QII", address, length, offset)) + 12, 0)
        self.assertEqual(pe_c.Dump(bytes(data)).pieces, ())

    def test_the_stack_of_a_thread_comes_after_the_lists(self):
        """Of a list that has 8 bytes at its start the stack has what follows them."""
        dump, (address, offset, length) = self.in_pieces(0)
        data, directory = bytearray(dump.memory), dump.header.directory.offset
        index, = [i for i, it in enumerate(dump.entries) if it.stream_type == 5]
        struct.pack_into("<I", data, directory + 12 * index + 4, 20)
        struct.pack_into("<IQII", data, dump.entries[index].location.rva, 1, address, 8, 0x20)
        self.assertEqual(pe_c.Dump(bytes(data)).pieces, ((address, 0x20, 8), (address + 8, offset + 8, length - 8)))

    def test_reasons(self):
        data = bytearray(bytes_of("x64.dmp"))
        at = data.index(bytes([0x24, 0, 0, 0, 0, 0, 0, 0, 5, 0, 0, 0xC0]))
        for code, parameters, reason in (
                (0xC0000409, (2,), "STATUS_STACK_BUFFER_OVERRUN (0xc0000409): FAST_FAIL_STACK_COOKIE_CHECK_FAILURE"),
                (0xC0000409, (1000,), "STATUS_STACK_BUFFER_OVERRUN (0xc0000409): __fastfail(1000)"),
                (0xC0000006, (0, 0x7000, 0xC000009C),
                 "STATUS_IN_PAGE_ERROR (0xc0000006): read at 0x7000, STATUS_DEVICE_DATA_ERROR (0xc000009c)"),
                (0xC0000005, (8, 16), "STATUS_ACCESS_VIOLATION (0xc0000005): execution at 0x10"),
                (0x40000015, (), "STATUS_FATAL_APP_EXIT (0x40000015)"), (0x20474343, (1,), "an exception of GCC (0x20474343)"),
                (0x0EEDFADE, (), "an exception of Delphi (0x0eedfade)"), (0x12345678, (), "0x12345678")):
            struct.pack_into("<I", data, at + 8, code)
            struct.pack_into(f"<II{len(parameters)}Q", data, at + 32, len(parameters), 0, *parameters)
            self.assertEqual(pe_c.Dump(bytes(data)).reason, reason)

    def test_all_walks_of_a_dump_have_a_bound(self):
        dump, image = pe_c.Dump(bytes(self.many(40))), pe_c.Image(bytes_of("functions.bin"))
        asked = []
        def look_up(module):
            asked.append(module)
            return image
        with mock.patch.object(_dump, "MOST_FRAMES", 13):
            dump = pe_c.Dump(bytes(self.many(40)))
        found = [dump.stack(dump.threads[0], look_up) for _ in range(7)]
        # The modules are packed once, for 8 of the 13 frames that there are.
        self.assertEqual((len(asked), [len(it.frames) for it in found]), (40, [1, 1, 1, 1, 1, 0, 0]))
        # With another object for each walk they are packed again, up to the bound.
        with mock.patch.object(_dump, "MOST_FRAMES", 20):
            dump = pe_c.Dump(bytes(self.many(40)))
        asked.clear()
        again = [dump.stack(dump.threads[0], lambda module: look_up(module)) for _ in range(7)]
        self.assertEqual((len(asked), [len(it.frames) for it in again]), (3 * 40, [1, 1, 0, 0, 0, 0, 0]))
        self.assertEqual([(it.end, it.frames.is_limited) for it in found[3:6]],
                         [(End.BOTTOM, False), (End.BOUND, True), (End.BOUND, True)])

    def test_refused(self):
        for wrong, kind in ((b"MZ", Kind.SHORT), (bytes(32), Kind.DUMP_SIGNATURE)):
            with self.assertRaises(pe_c.Error) as caught:
                pe_c.Dump(wrong)
            self.assertEqual(caught.exception.kind, kind)

    def test_damaged_dumps(self):
        chance = random.Random(7)
        image = pe_c.Image(bytes_of("functions.bin"))
        for name in ("x64.dmp", "arm64.dmp"):
            for _ in range(250):
                data = bytearray(bytes_of(name))
                for _ in range(chance.randrange(1, 12)):
                    data[chance.randrange(1400)] = chance.choice((0, 1, 127, 128, 255, chance.randrange(256)))
                try:
                    dump = pe_c.Dump(bytes(data[:chance.randrange(len(data))] if chance.random() < 0.1 else data))
                except pe_c.Error:
                    continue
                self.assertIsInstance(repr((dump.warnings, dump.pieces, dump.modules, dump.handles)), str)
                for thread in dump.threads[:3]:
                    try:
                        dump.stack(thread, lambda module: image)
                    except pe_c.Error:
                        pass


class Names(unittest.TestCase):
    """Names of functions by symbols that are added to functions.bin, whose functions are 0x5000 to 0x5010, 0x5010 to 0x5020 and 0x5020 to
    0x5028. Its one section starts at 0x1000."""

    # Of each symbol the name, the RVA, the type (0x20: a function) and the class (2: external, 3: static).
    SYMBOLS = ((b"outer", 0x5000, 0x20, 2), (b"inner", 0x5006, 0x20, 3), (b"label", 0x5008, 0, 2), (b"_Z5otherv", 0x5010, 0x20, 2),
               (b"\xff", 0x5020, 0x20, 2))

    def image(self, symbols=SYMBOLS, past=0):
        """The image with these symbols, all of whose names are in the string table, or so many bytes past it."""
        data = bytearray(bytes_of("functions.bin"))
        table, strings = b"", b""
        for name, rva, kind, storage in symbols:
            table += struct.pack("<IIIhHBB", 0, 4 + len(strings) + past, rva - 0x1000, 1, kind, storage, 0)
            strings += name + b"\0"
        struct.pack_into("<II", data, struct.unpack_from("<I", data, 60)[0] + 12, len(data), len(symbols))
        return pe_c.Image(bytes(data) + table + struct.pack("<I", 4 + len(strings)) + strings)

    def test_addresses(self):
        asked = [(0x5005, False), (0x5006, True), (0x500A, False), (0x5010, True), (0x5010, False), (0x5021, False), (0x5028, False),
                 (0x6000, False), (-1, False), (1 << 32, True)]
        names = self.image().function_names(asked)
        self.assertEqual([tuple(it) if it else None for it in names],
                         [("outer", 0x5000, 5, "symbol", False), ("outer", 0x5000, 6, "symbol", False), ("inner", 0x5006, 4, "symbol", False),
                          ("inner", 0x5006, 10, "symbol", False), ("_Z5otherv", 0x5010, 0, "symbol", False), (None, 0x5020, 1, "symbol", False),
                          None, None, None, None])
        self.assertEqual(self.image().function_names(iter(())), ())
        self.assertEqual(pickle.loads(pickle.dumps(names[0])), names[0])

    def test_exports(self):
        """Without a function table the nearest name counts, and says so."""
        image = pe_c.Image(bytes_of("exports.bin"))
        self.assertEqual([(it.name, it.rva) for it in image.exports[:2]], [("first", 0x90000), ("second", 0x1004)])
        names = image.function_names([(0x1003, False), (0x1004, False), (0x1004, True), (0x90000, True), (0x90001, True)])
        self.assertEqual([it and (it.name, it.offset, it.source, it.is_nearest) for it in names],
                         [None, ("second", 0, "export", True), None, ("second", 0x8EFFC, "export", True), ("first", 1, "export", True)])

    def test_refused_tables(self):
        self.assertEqual(self.image().refused_name_tables, {})
        data = bytearray(self.image().memory)
        # The string table is longer than the file.
        data[-34:-30] = struct.pack("<I", 1 << 20)
        image = pe_c.Image(bytes(data))
        self.assertEqual([(name, error.kind) for name, error in image.refused_name_tables.items()], [("strings", Kind.STRING_TABLE)])
        self.assertEqual(tuple(image.function_names([(0x5000, False)])[0])[:2], (None, 0x5000))
        stack = pe_c.walk(Stacks().registers(BASE + 0x5000, 0x20000), [(image, BASE)], bytes(8), [(0x20000, 0, 8)], 1)
        warning, = stack.warnings
        self.assertEqual((warning.part, warning.error.kind), (f"strings of the module at 0x{BASE:x}", Kind.STRING_TABLE))
        self.assertTrue(str(warning).endswith(": they name no frame"), warning)

    def test_frames(self):
        words = [0] * 4 + [0x20070, BASE + 0x5014] + [0] * 6
        memory = struct.pack(f"<{len(words)}Q", *words)
        registers = Stacks().registers(BASE + 0x5008, 0x20000, rbp=0x20040)
        stack = pe_c.walk(registers, [(self.image(), BASE)], memory, [(0x20000, 0, len(memory))], 10)
        self.assertEqual([it.function and (it.function.name, it.function.offset) for it in stack.frames], [("inner", 2), ("_Z5otherv", 4)])
        # Without an image nothing has a name: the frame pointer leads on, as a guess.
        stack = pe_c.walk(registers, [(0x6000, BASE)], memory, [(0x20000, 0, len(memory))], 10)
        self.assertEqual([(it.function, it.is_guess) for it in stack.frames], [(None, False), (None, True)])

    def test_a_return_address_after_a_module(self):
        """It may be the first address of the next module: the byte before it is that of the call."""
        image = self.image(((b"last", 0x5010, 0x20, 2),))
        names = _functions.Names((image._core, pe_c.Image(bytes_of("exports.bin"))._core),
                                 _functions.Places([(BASE, 0x5018), (BASE + 0x5018, 0x1004)]))
        rows = [pe_c.StackFrame((Stacks().registers(BASE + rva, 0), 0, 0, is_return, 0, 0, False, None, None, None, None, ()))
                for rva, is_return in ((0x5018, True), (0x5018, False), (0x5018 + 0x1004, True), (0x5018 + 0x1004, False))]
        asked = names.unread(rows)
        self.assertEqual(asked, {0: [(0x5018, True)], 1: [(0, False), (0x1004, True)]})
        for module, addresses in asked.items():
            names.read(module, addresses)
        self.assertEqual([it.function and it.function.name for it in names.named(rows)], ["last", None, None, None])
        self.assertEqual(names.unread(rows), {})

    def test_arm64(self):
        data = bytearray(bytes_of("arm64_functions.bin"))
        struct.pack_into("<II", data, struct.unpack_from("<I", data, 60)[0] + 12, len(data), 1)
        image = pe_c.Image(bytes(data) + struct.pack("<8sIhHBBI", b"packed", 0x4000, 1, 0x20, 2, 0, 4))
        registers = pe_c.Arm64Registers(((0,) * 31, (0,) * 8, 0x20000, BASE + 0x5004))
        top = pe_c.walk(registers, [(image, BASE)], bytes(8), [(0x20000, 0, 8)], 1)
        self.assertEqual([tuple(it.function) for it in top.frames], [("packed", 0x5000, 4, "symbol", False)])

    def test_places(self):
        """An address is that of the first module that has it."""
        chance = random.Random(5)
        for _ in range(300):
            modules = [(chance.randrange(60), chance.randrange(20)) for _ in range(chance.randrange(9))]
            places = _functions.Places(modules)
            for address in range(-1, 85):
                wanted = next((i for i, (base, size) in enumerate(modules) if base <= address < base + size), None)
                self.assertEqual(places.at(address), wanted, (modules, address))
        self.assertEqual(_functions.Places([((1 << 64) - 1, 1)]).at((1 << 64) - 1), 0)


NAMES_OF = _functions.names_of


def with_image(image):
    """A look-up of the image for each module of a dump, a list of how many names of it are read at a time, and what fills that."""
    read = []
    def names_of(core, addresses, most=None):
        read.append(len(addresses))
        return NAMES_OF(core, addresses, most)
    return (lambda module: image), read, mock.patch.object(_functions, "names_of", names_of)


class NamesOfDumps(unittest.TestCase):
    """Both threads of x64.dmp are at the start of the first function."""

    def setUp(self):
        self.image = Names().image()
        self.dump = pe_c.Dump(bytes_of("x64.dmp"))

    def names(self, stack):
        return [it.function and it.function.name for it in stack.frames]

    def test_names_are_read_once(self):
        look_up, read, patched = with_image(self.image)
        with patched:
            stacks = self.dump.stacks(look_up)
            self.assertEqual([self.names(it) for it in stacks], [["outer"], ["outer"]])
            self.assertEqual(read, [1])
            self.assertEqual(self.names(self.dump.stack(self.dump.threads[1], look_up)), ["outer"])
            self.assertEqual(read, [1])
        self.assertEqual([it.frames.is_limited for it in stacks], [False, False])

    def test_a_thread_without_registers(self):
        data = bytearray(bytes_of("x64.dmp"))
        directory = struct.unpack_from("<I", data, 12)[0]
        at = next(at for i in range(12) for kind, _, at in [struct.unpack_from("<III", data, directory + 12 * i)] if kind == 3)
        # The location of the second thread's context, whose size is none.
        struct.pack_into("<I", data, at + 4 + 48 + 40, 7)
        first, second = pe_c.Dump(bytes(data)).stacks(lambda module: self.image)
        self.assertEqual((self.names(first), second.kind), (["outer"], Kind.DUMP_CONTEXT_SIZE))
        self.assertEqual(pe_c.Dump(bytes(data)).stacks(most=0)[0].frames, ())

    def test_names_have_a_bound(self):
        """Names of an image with many symbols cost frames: what has no name then is no frame without one in silence."""
        look_up, read, patched = with_image(self.image)
        with mock.patch.object(_dump, "NAMES_A_FRAME", 1), mock.patch.object(_dump, "MOST_FRAMES", 8), patched:
            found = pe_c.Dump(bytes_of("x64.dmp")).stack(self.dump.threads[0], look_up)
            self.assertEqual((self.names(found), found.frames.is_limited, read), (["outer"], False, [1]))
        with mock.patch.object(_dump, "NAMES_A_FRAME", 1), mock.patch.object(_dump, "MOST_FRAMES", 5), patched:
            found = pe_c.Dump(bytes_of("x64.dmp")).stack(self.dump.threads[0], look_up)
            self.assertEqual((self.names(found), found.frames.is_limited, read), ([None], True, [1]))
        names, is_limited = _functions.names_of(self.image._core, [(0x5000, False), (0x5006, False), (0x5010, False)], 9)
        self.assertEqual(([it and it.name for it in names], is_limited), (["outer", None, None], True))


class Edits(unittest.TestCase):
    def test_resources(self):
        image = pe_c.Image(hostile.resources(1, 1, 2))
        editor = pe_c.ResourceEditor(image)
        self.assertEqual(list(editor.resources), [(1, 1, 1), (1, 1, 2)])
        editor.set("ÄB", 7, 0, b"hello")
        editor.set(1, 1, 2, b"")
        for content in (5, True, "text", [1, 2], None):
            with self.assertRaises(TypeError):
                editor.set(1, 1, 2, content)
        for place in ((1.5, 1, 2), (1, None, 2), (1, b"A", 2), (1, 1, "2")):
            with self.assertRaises(TypeError):
                editor.set(*place, b"")
        editor.remove(1, 1, 1)
        editor.set(16, 1, 0x409, pe_c.version_info(file_version=(1, 2, 3, 4), strings={"ProductName": "Größe", "FileVersion": "1.2.3.4"}))
        written = pe_c.Image(editor.write())
        self.assertEqual([(it.type, it.name, it.language, bytes(it.content)) for it in written.resources if it.type != 16],
                         [("ÄB", 7, 0, b"hello"), (1, 1, 2, b"")])
        version, = written.versions
        self.assertEqual((version.fixed.file_version_ms, version.fixed.file_version_ls), (1 << 16 | 2, 3 << 16 | 4))
        self.assertEqual(version.strings, {"040904B0": {"ProductName": "Größe", "FileVersion": "1.2.3.4"}})
        self.assertEqual((version.translations, version.blocks.error, written.warnings), (((0x409, 1200),), None, ()))
        changed = editor.write()
        for it in ("StringFileInfo", "VarFileInfo"):
            changed = changed.replace(it.encode("utf-16-le"), it.upper().encode("utf-16-le"))
        upper, = pe_c.Image(changed).versions
        self.assertEqual((upper.strings, upper.translations), (version.strings, version.translations))
        with self.assertRaises(KeyError):
            editor.remove(1, 1, 1)

    def test_what_is_refused(self):
        editor = pe_c.ResourceEditor(pe_c.Image(bytes_of("resources.bin")))
        with self.assertRaises(pe_c.Error) as caught:
            editor.write()
        self.assertEqual((caught.exception.kind, caught.exception.part), (Kind.EDIT_NO_HEADER_ROOM, "edit"))
        with self.assertRaises(pe_c.Error):
            pe_c.ResourceEditor(pe_c.Image(bytes_of("named_resources.bin")))
        for strings, kind in (({"a\0": ""}, Kind.BLOCK_KEY), ({"a": "\0"}, Kind.BLOCK_TEXT), ({"a": "b" * 40000}, Kind.BLOCK_TOO_LONG)):
            with self.assertRaises(pe_c.Error) as caught:
                pe_c.version_info(strings=strings)
            self.assertEqual(caught.exception.kind, kind)
        for wrong in ({"file_version": (70000, 0, 0, 0)}, {"product_version": (1, 2, 3, -1)}, {"language": 0x10000}):
            with self.assertRaises(ValueError) as misuse:
                pe_c.version_info(**wrong)
            self.assertNotIsInstance(misuse.exception, pe_c.Error)
        self.assertIn(struct.pack("<HHHH", 0, 65535, 0, 0), pe_c.version_info(file_version=(65535, 0, 0, 0), language=0xFFFF))
        editor = pe_c.ResourceEditor(pe_c.Image(hostile.resources(1, 1, 1)))
        editor.set(1 << 20, 1, 0, b"")
        with self.assertRaises(pe_c.Error) as caught:
            editor.write()
        self.assertEqual(caught.exception.kind, Kind.EDIT_RECORD)
        editor.set(1 << 40, 1, 0, b"")
        with self.assertRaises(pe_c.Error):
            editor.write()


class Loaded(unittest.TestCase):
    """Images as a loader lays them out, by hand from hostile.image: headers of 0x400 bytes, a section at RVA 0x1000."""

    def image(self, kind=10):
        # A block of the page at 0x1000 with two entries: 8 bytes at 0x1020, and nothing.
        body = struct.pack("<IIHH", hostile.RVA, 12, kind << 12 | 0x20, 0).ljust(0x20, b"\1") + struct.pack("<Q", hostile.BASE + 0x1020)
        return hostile.image(body, {5: (hostile.RVA, 12)})

    def test_an_image_is_laid_out(self):
        data = self.image()
        laid_out = data[:0x400] + bytes(0x1000 - 0x400) + data[0x400:]
        self.assertEqual(pe_c.Image(data).map(), laid_out)
        self.assertEqual(pe_c.Image(data).map(hostile.BASE), laid_out)

    def test_at_another_base(self):
        for base in (0x7FF600000000, 0x10000):
            expected = bytearray(pe_c.Image(self.image()).map())
            struct.pack_into("<Q", expected, 0x70, base)
            struct.pack_into("<Q", expected, 0x1020, base + 0x1020)
            self.assertEqual(pe_c.Image(self.image()).map(base), expected)
            self.assertEqual(pefile.PE(data=self.image()).get_memory_mapped_image(ImageBase=base), expected)

    def test_what_is_refused(self):
        self.assertIsNone(pe_c.Image(hostile.image(b"", {})).map(0))
        self.assertEqual(pefile.PE(data=hostile.image(b"", {})).get_memory_mapped_image(ImageBase=0)[:2], b"MZ")
        with self.assertRaises(pe_c.Error) as caught:
            pe_c.Image(self.image(4)).map(0)
        self.assertEqual(caught.exception.kind, Kind.DIRECTORY_RELOCATION_KIND)
        with self.assertRaises(TypeError):
            pe_c.Image(self.image()).map("0")
        for base in (-1, 1 << 64):
            with self.assertRaises(ValueError) as misuse:
                pe_c.Image(self.image()).map(base)
            self.assertNotIsInstance(misuse.exception, pe_c.Error)
            with self.assertRaises(pefile.PEFormatError):
                pefile.PE(data=self.image()).get_memory_mapped_image(ImageBase=base)
        with self.assertRaises(pefile.PEFormatError):
            pefile.PE(data=self.image()).get_memory_mapped_image(0x1000)

    def test_what_is_no_part_of_an_image_as_loaded(self):
        mode = pe_c.Mode.PERMISSIVE | pe_c.Mode.MAPPED
        for name in ("long_section_name.bin", "signature.bin"):
            file, loaded = pe_c.Image(bytes_of(name)), pe_c.Image(bytes_of(name), mode)
            self.assertTrue(file.symbols.error or file.certificates)
            for part in (loaded.symbols, loaded.certificates, loaded.signatures):
                self.assertEqual((part, part.error), ((), None))
            self.assertEqual((loaded.to_dict()["digest"], file.to_dict()["digest"]), (None, file.digest()))

    def test_the_data_of_sections_of_an_image_as_loaded(self):
        file = pe_c.Image(self.image())
        loaded = pe_c.Image(file.map(), pe_c.Mode.PERMISSIVE | pe_c.Mode.MAPPED)
        one, = loaded.sections
        self.assertEqual(bytes(loaded.data(one)), bytes(loaded.at(one.virtual_address, one.virtual_size)))
        self.assertEqual(bytes(loaded.data(one)), bytes(file.data(one))[:one.virtual_size])
        self.assertEqual((loaded.entropy(one), loaded.entropies), (file.entropy(one), file.entropies))
        self.assertGreater(file.entropy(one), 0)

    def test_more_bytes_than_a_caller_takes(self):
        data = bytearray(self.image())
        self.assertEqual(len(pe_c.Image(bytes(data)).map(most=0x1200)), 0x1200)
        # SizeOfImage is at 0x90.
        for size, more in ((0x1200, {"most": 0x11FF}), (0x10000001, {}), (0xFFFFFFFF, {})):
            struct.pack_into("<I", data, 0x90, size)
            with self.assertRaises(pe_c.Error) as caught:
                pe_c.Image(bytes(data)).map(**more)
            self.assertEqual((caught.exception.kind, caught.exception.part), (Kind.ROOM, f"map of {size} bytes"))


class Everything(unittest.TestCase):
    """After it is open nothing is raised but Error."""

    def test_damaged_images(self):
        chance, opened = random.Random(2026), 0
        names = sorted(it for it in os.listdir(IMAGES) if it.endswith(".bin"))
        for i in range(int(os.environ.get("PE_C_DAMAGED", "400"))):
            data = bytearray(bytes_of(names[i % len(names)]))
            for _ in range(chance.randrange(1, 16)):
                place = chance.randrange(min(len(data), 1024) if chance.random() < 0.6 else len(data))
                data[place] = chance.choice((0, 1, 127, 128, 255, chance.randrange(256)))
            mode = pe_c.Mode(chance.randrange(4))
            for kind in (pe_c.Image, pe_c.Coff, pe_c.Te):
                try:
                    opened += everything(kind(bytes(data), mode) if kind is pe_c.Image else kind(bytes(data)))
                except pe_c.Error:
                    continue
        self.assertGreater(opened, 5_000)

    def test_references(self):
        data = bytes(bytearray(bytes_of("resources.bin")))
        # At first Python itself takes and lets go of some None.
        for _ in range(100):
            everything(pe_c.Image(data))
        gc.collect()
        before, none = sys.getrefcount(data), sys.getrefcount(None)
        for _ in range(300):
            everything(pe_c.Image(data))
        gc.collect()
        self.assertEqual(sys.getrefcount(data), before)
        self.assertLess(abs(sys.getrefcount(None) - none), 150)


def everything(reader):
    """Asks for all that a reader has. Returns how much was not refused."""
    count = 0
    for name in dir(type(reader)):
        if not name.startswith("_") and isinstance(getattr(type(reader), name), property):
            count += asks(lambda: repr(getattr(reader, name)))
    if isinstance(reader, pe_c.Image):
        for call in (reader.facts, reader.to_dict, reader.imphash, reader.exphash, reader.rich_hash, reader.digest, reader.right_checksum,
                     reader.entropy, reader.detach, lambda: reader.attach(bytes(16)), lambda: reader.unwind(0x5018),
                     lambda: reader.arm64_unwind(0x5000), lambda: reader.at(0x1000, 64), lambda: reader.offset_of(0x1000),
                     reader._repr_html_, lambda: pe_c.ResourceEditor(reader).write(), lambda: tell(reader.signatures)):
            count += asks(call)
    return count


def asks(call):
    try:
        call()
        return 1
    except pe_c.Error:
        return 0


if __name__ == "__main__":
    unittest.main()
