"""What the commands of this folder that compare with other readers share: their arguments, finding files, running programs, reading the
headers of an image and what llvm-readobj prints, counts of cases, and the rows of files and their counts."""

import argparse
import os
import re
import shutil
import struct
import subprocess
import sys
import textwrap

from contents import TOOLS as HERE
from contents import TOP, bytes_of, ended
from limits import Failed

SECONDS = 120
X64, ARM64 = 0x8664, 0xAA64


class Unread(Failed):
    """What stands at an offset can't be read; the word is the kind of the refusal."""


class Difference(Failed):
    """Where two readings are unlike, in words."""


def same(what, ours, theirs):
    if ours != theirs:
        raise Difference(f"{what}: {ours}, there {theirs}")


# Arguments, files and programs.

def arguments(about, *places, words=None, one=(), **options):
    """The arguments of a tool, whose use is the second paragraph of what is said about it: places by their names, with + or * after that
    of a list, and options with what they are unless they are named: False of a flag, [] of a list, a number, a text, None, or ... where
    each run names it. Of those in `one` each run names one. `refuse` ends the tool with the use and a text. `words` are those of the command line, unless
    they are given."""
    parser = argparse.ArgumentParser(usage=textwrap.dedent(about.split("\n\n")[1]), description=about,
                                     formatter_class=argparse.RawDescriptionHelpFormatter)
    for it in places:
        parser.add_argument(it.rstrip("+*"), nargs=it[-1] if it[-1] in "+*" else None)
    group = parser.add_mutually_exclusive_group(required=bool(one))
    for it in one:
        group.add_argument(f"--{it}")
    for name, usual in options.items():
        how = {"type": type(usual) if isinstance(usual, int) else str, "required": usual is ...}
        how = {"action": "store_true"} if usual is False else {"nargs": "+", "action": "extend"} if usual == [] else how
        parser.add_argument(f"--{name}", default=None if usual is ... else usual, **how)
    given = parser.parse_intermixed_args(words)
    given.refuse = parser.error
    return given


def all_there(command, places):
    """Whether each path is a file or a folder; if not, this says so in the command's name."""
    for place in places:
        if not os.path.exists(place):
            print(f"{command}: {place}: no such file or folder", file=sys.stderr)
            return False
    return True


def files(places):
    """The files that are named, and those below the folders that are named, without symlinks."""
    for place in places:
        if os.path.isfile(place):
            yield place
        for folder, _, names in sorted(os.walk(place)):
            for path in (os.path.join(folder, it) for it in sorted(names)):
                if os.path.isfile(path) and not os.path.islink(path):
                    yield path


def images(places):
    """Those of the files that start with MZ."""
    for path in files(places):
        try:
            with open(path, "rb") as file:
                if file.read(2) == b"MZ":
                    yield path
        except OSError as fault:
            print(f"{path}: {fault.strerror}", file=sys.stderr)


def run(words):
    """Returns the status, standard output and standard error of a command, or None where it hangs."""
    try:
        done = subprocess.run(words, stdin=subprocess.DEVNULL, capture_output=True, timeout=SECONDS)
    except subprocess.TimeoutExpired:
        return None
    text = done.stdout.decode("utf-8", "replace")
    return done.returncode, text, done.stderr.decode("utf-8", "replace")


def said_of(*words, given=None, good=(0, 1)):
    """The standard output of a command, which may end with a status of these. It ends the tool where the command fails."""
    done = subprocess.run(words, input=given, capture_output=True, text=True, errors="surrogateescape", check=False)
    if done.returncode not in good:
        sys.exit(f"{' '.join(words[:3])}: status {done.returncode}: {done.stderr[-300:]}")
    return done.stdout


def first_unlike(one, other):
    """The index at which two values differ first, or the end of the shorter."""
    return next((at for at, pair in enumerate(zip(one, other)) if pair[0] != pair[1]), min(len(one), len(other)))


# The headers of an image.

class Image:
    """The headers of an image, as far as the readers of these commands need them: of a file, or of bytes. `pe` is the offset of the PE
    signature."""

    def __init__(self, source):
        self.bytes = bytes_of(source) if isinstance(source, str) else bytes(source)
        self.pe = place = self.number("<I", 0x3C)
        if self.bytes[place:place + 4] != b"PE\0\0":
            raise Unread("PeMagic")
        self.machine, count, _, _, _, optional = self.numbers("<HHIIIH", place + 4)
        place += 24
        wide = optional and self.number("<H", place) == 0x20B
        self.base = self.number("<Q", place + 24) if wide else 0
        self.rows = place + (112 if wide else 96)
        self.row_count = self.number("<I", self.rows - 4) if optional else 0
        self.size, self.headers = self.numbers("<II", place + 56) if optional else (0, 0)
        self.sections = [self.numbers("<IIII", place + optional + 40 * i + 8) for i in range(count)]

    def numbers(self, form, place):
        if place + struct.calcsize(form) > len(self.bytes):
            raise Unread("Short")
        return struct.unpack_from(form, self.bytes, place)

    def number(self, form, place):
        return self.numbers(form, place)[0]

    def directory(self, index):
        """The address and the size of a data directory, zeros where there is no row of it."""
        return self.numbers("<II", self.rows + 8 * index) if index < self.row_count else (0, 0)

    def place_of(self, address):
        """Where the byte of an address stands in the file."""
        for virtual_size, virtual, raw_size, raw in self.sections:
            if virtual <= address < virtual + min(raw_size, (virtual_size or raw_size) + 0xFFF & ~0xFFF):
                return raw // 512 * 512 + address - virtual
        raise Unread("Unmapped")


def as_loaded(path):
    """The image in memory, by its file: headers and sections at their RVAs, and zeros between them. None where sections
    are not in order, or where debug records are no part of it."""
    image = Image(path)
    data = image.bytes[:min([raw for *_, raw in image.sections if raw], default=len(image.bytes))]
    for virtual_size, virtual, raw_size, raw in image.sections:
        if virtual < len(data):
            return None
        size = min(raw_size, (virtual_size or raw_size) + 0xFFF & ~0xFFF)
        data = data.ljust(virtual, b"\0") + image.bytes[raw // 512 * 512:][:size]
    start, size = image.directory(6)
    entries = [struct.unpack_from("<4I", data, at + 12) for at in range(start, start + size - 27, 28)]
    return None if any(length and not rva for _, length, rva, _ in entries) else data


# What llvm-readobj prints.

def newest_readobj():
    """The newest llvm-readobj on PATH and its version."""
    best = (0,), None, None
    for name in ["llvm-readobj", *(f"llvm-readobj-{n}" for n in range(40, 10, -1))]:
        found = shutil.which(name)
        if found:
            version = re.search(r"LLVM version (\d[\d.]*)", run([found, "--version"])[1])
            if version:
                best = max(best, (tuple(map(int, version[1].strip(".").split("."))), found, version[1]))
    return best[1:]


def nested(text):
    """The printed tree: lists whose members are lines, and pairs of a name and a list."""
    stack = [("", [])]
    for line in text.split("\n"):
        line = line.strip()
        opened = re.fullmatch(r"(?:(.*) )?[\[{](?: \(0x\w+\))?", line)
        if opened:
            stack.append((opened[1] or "", []))
        elif line in ("}", "]") and len(stack) > 1:
            name, members = stack.pop()
            stack[-1][1].append((name, members))
        elif line:
            stack[-1][1].append(line)
    return stack[0][1] if len(stack) == 1 else None


def parts(members, name):
    return [it[1] for it in members if isinstance(it, tuple) and it[0] == name]


def field(members, name):
    """The text of a field, or None."""
    found = [it[len(name) + 2:] for it in members if isinstance(it, str) and it.startswith(f"{name}: ")]
    return found[0] if found else None


def number(members, name):
    """The hexadecimal number of a field, which may stand in parentheses after a word, or None."""
    text = field(members, name)
    return None if text is None else int(re.search(r"(0x[0-9A-Fa-f]+)\)?$", text)[1], 16)


def value(members, name):
    """The number of a field, in hexadecimal or decimal, which may stand in parentheses after words; None without it."""
    text = field(members, name)
    return None if text is None else int(re.search(r"(0x[0-9A-Fa-f]+|\d+)\)?$", text)[1], 0)


def listed(text):
    """The parts of a list in a source, at the commas outside of all brackets."""
    found, depth = [""], 0
    for letter in text:
        depth += (letter in "([{<") - (letter in ")]}>")
        if letter == "," and depth == 0:
            found.append("")
        else:
            found[-1] += letter
    return [" ".join(it.split()) for it in found if it.strip()]


# Counts and rows.

class Counts:
    """Cases that passed and failed, of which so many are printed, each up to so many characters."""

    def __init__(self, shown=1 << 30, length=1 << 30):
        self.passed = self.failed = 0
        self.shown, self.length = shown, length

    def expect(self, name, is_so, why=""):
        """Counts a case, and prints one that failed. Returns whether it passed."""
        self.passed, self.failed = self.passed + bool(is_so), self.failed + (not is_so)
        if not is_so and self.failed <= self.shown:
            print(f"failed: {name}{': ' if why else ''}{why}".rstrip()[:self.length], flush=True)
        return bool(is_so)

    def tried(self, name, action, *more):
        """Counts an action that raises Failed, or one of `more`, where it fails. Returns its result, or None."""
        try:
            result = action()
        except (Failed, *more) as why:
            self.expect(name, False, str(why) if isinstance(why, Failed) else f"{type(why).__name__}: {why}")
            return None
        self.expect(name, True)
        return result

    def take(self, name, action):
        """Takes the counts of a program that the action runs, whose last line is 'N passed, M failed', and prints its other
        lines."""
        try:
            done = action()
        except Failed as why:
            self.expect(name, False, str(why))
            return
        *lines, last = [it for it in done.stdout.split("\n") if it] or [""]
        found = re.fullmatch(r"(\d+) passed, (\d+) failed", last)
        print("".join(f"{it}\n" for it in (lines if found else [*lines, last, done.stderr]) if it), end="", flush=True)
        passed, failed = (int(found[1]), int(found[2])) if found else (0, 1)
        self.passed, self.failed = self.passed + passed, self.failed + failed
        self.expect(f"{name} ends well", done.returncode == 0 or failed, f"status {done.returncode}")

    def end(self):
        """Prints the counts, and returns the status."""
        return ended(self.passed, self.failed)
