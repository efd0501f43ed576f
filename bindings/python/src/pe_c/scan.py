"""A line of JSON a file, as `pe --json` writes it, but for fewer rows of hostile images: of files, of all images below folders, over
processes.

    for said in pe_c.scan.scan(["C/Windows"], jobs=4):
        out.write(said.line)

What comes out is in the order of the files, however many processes there are, and no more than a few hundred files are read ahead,
so a million files take no more memory than some hundred. `line_of` is the same of one file, for those who have a cluster: `-`, standard
input, is no file there, since each process has its own."""
from __future__ import annotations

import collections
import concurrent.futures
import errno
import json
import os
import signal
import stat
import sys
import typing

from . import _core
from ._facts import facts_of, is_refused
from ._image import Mode
from ._kinds import Kind
from ._part import shown_text
from ._reader import IMAGE

DONE, REFUSED, MISUSED, FILE_ERROR = 0, 1, 2, 3
# How much of a file below a folder is read to see whether it is an image.
START = 4096
# A batch that a process gets has so many bytes or files, and so many batches wait for each process.
BATCH_BYTES, BATCH_FILES, AHEAD = 16 << 20, 64, 4
LIMIT = 1 << 32
# What is skipped below a folder that starts as a file of DOS, where no PE signature or not all headers are in it.
CUT = "it is a DOS or truncated MZ file, as it seems"
# The same of a link to a folder below a folder: there may be images below it.
LINK = "it is a link to a folder, which is not followed"


AnyPath = typing.Union[str, "os.PathLike[str]"]
AnyPaths = typing.Union[AnyPath, typing.Iterable[AnyPath]]


class File(typing.NamedTuple):
    """A file that is asked for."""

    path: str
    is_below: bool
    """whether it is one of those below a folder: what is no image is skipped there"""
    size: int
    """bytes, as far as they are known"""


class How(typing.NamedTuple):
    """How files are read and shown."""

    mode: int = int(Mode.PERMISSIVE)
    has_hashes: bool = True


class Said(typing.NamedTuple):
    """What is said of a file."""

    line: str
    """a line of JSON with its newline; empty for a file that is skipped or can't be read"""
    complaint: str
    """why it can't be read, or is skipped"""
    status: int
    """0, 1 where it or a part of it is refused, 3 where it can't be read"""
    is_skipped: bool
    size: int


def below(folder: str) -> typing.Iterator[File]:
    """The files below a folder, each folder's in the order of their names. Links to folders are not followed, but for the folder that is
    named. A folder that can't be read is an item by itself, so that reading it says why."""
    # With a slash at its end a path leads where the link does.
    waiting = [os.path.join(os.fsencode(folder), b"") if os.path.islink(folder) else os.fsencode(folder)]
    while waiting:
        path = waiting.pop()
        try:
            if stat.S_ISDIR(os.lstat(path).st_mode):
                waiting += sorted((os.path.join(path, it) for it in os.listdir(path)), reverse=True)
                continue
            size = os.stat(path).st_size
        except OSError:
            size = 0
        yield File(os.fsdecode(path), True, size)


def files(paths: AnyPaths, recursive: bool = False) -> typing.Iterator[File]:
    """The files that are named, and those below the folders that are. A text is one path, and not many of one letter."""
    several = [paths] if isinstance(paths, (str, os.PathLike)) else paths
    for path in (os.fspath(it) for it in several):
        if recursive and os.path.isdir(path):
            yield from below(path)
        else:
            yield File(path, False, os.path.getsize(path) if os.path.isfile(path) else 0)


# The standard input that was read. It has its bytes once: whoever reads it again would take it for an empty file.
_read_input: typing.TextIO | None = None


def _standard_input() -> bytes:
    global _read_input
    if sys.stdin is None:
        raise OSError(errno.EBADF, os.strerror(errno.EBADF), "-")
    if sys.stdin is _read_input:
        raise OSError(errno.EINVAL, "standard input can be one file, and was read before")
    _read_input = sys.stdin
    return sys.stdin.buffer.read()


def _content(file: File, reads_input: bool) -> bytes | None:
    """A file whole. Of one below a folder the start is read first: one that is no image is not read on."""
    if file.path == "-":
        if not reads_input:
            raise OSError(errno.EINVAL, "standard input is that of another process, and not read here")
        return _standard_input()
    mode = os.stat(file.path).st_mode
    if not stat.S_ISREG(mode) and not stat.S_ISDIR(mode):
        raise OSError(0, "it is no regular file; - reads standard input", file.path)
    with open(file.path, "rb", buffering=0) as opened:
        if os.fstat(opened.fileno()).st_size > LIMIT:
            raise OSError(0, "it has more than 4 GiB", file.path)
        start = opened.read(START) or b""
        if file.is_below and _core.image(start, int(Mode.PERMISSIVE), False, IMAGE, False)[1] == Kind.BAD_MAGIC:
            return None
        return start + opened.readall() if len(start) == START else start


def json_of(facts: dict[str, typing.Any]) -> str:
    """Facts as a line of JSON without its newline. What is no UTF-8 is an escape of JSON."""
    text = json.dumps(facts, ensure_ascii=False, separators=(",", ":"))
    return text.encode("utf-8", "backslashreplace").decode()


def line_of(file: File, how: How = How()) -> Said:
    """The line of a file. Raises nothing. Standard input, `-`, is read by `scan` alone."""
    return _line_of(file, how, False)


def _line_of(file: File, how: How, reads_input: bool) -> Said:
    try:
        return _said_of(file, how, reads_input)
    except MemoryError:
        return Said("", f"{shown_text(file.path)}: {os.strerror(errno.ENOMEM)}", FILE_ERROR, False, 0)


def _said_of(file: File, how: How, reads_input: bool) -> Said:
    def skipped(why: str) -> Said:
        return Said("", f"{shown_text(file.path)}: skipped, {why}", DONE, True, file.size)
    try:
        if file.is_below and not stat.S_ISREG(os.stat(file.path).st_mode) and not os.path.isdir(file.path):
            return skipped("it is no regular file")
        if file.is_below and os.path.islink(file.path) and os.path.isdir(file.path):
            return skipped(LINK)
        data = _content(file, reads_input)
    except ValueError as error:
        # A path that no file has: with a NUL, or with a character that names of files can't have.
        return Said("", f"{shown_text(file.path)}: {error}", FILE_ERROR, False, 0)
    except OSError as error:
        if file.is_below and os.path.islink(file.path) and error.errno in (errno.ENOENT, errno.ELOOP):
            return skipped("the link leads to no file")
        why = error.strerror or str(error)
        hint = "; -r reads the files below it" if isinstance(error, IsADirectoryError) else ""
        return Said("", f"{shown_text(file.path)}: {why}{hint}", FILE_ERROR, False, 0)
    facts, is_image = facts_of(data, file.path, Mode(how.mode), how.has_hashes) if data is not None else ({}, False)
    if file.is_below and not is_image:
        return skipped(CUT if data and data.startswith(b"MZ") else "it is no image")
    return Said(json_of(facts) + "\n", "", REFUSED if is_refused(facts) else DONE, False, len(data or b""))


def lines_of(batch: list[File], how: How) -> list[Said]:
    return [line_of(it, how) for it in batch]


def _said_here(batch: list[File], how: How) -> concurrent.futures.Future[list[Said]]:
    """The lines of a batch with standard input, which other processes do not have: to them it is an empty file."""
    said: concurrent.futures.Future[list[Said]] = concurrent.futures.Future()
    said.set_result([_line_of(it, how, True) for it in batch])
    return said


def batches(found: typing.Iterable[File], size: int = BATCH_BYTES, count: int = BATCH_FILES) -> typing.Iterator[list[File]]:
    """The files in lists of so many bytes, and of so many files at most: files of 90 MB stand beside files of 9 KB."""
    batch: list[File] = []
    left = size
    for it in found:
        if batch and (it.size > left or len(batch) == count):
            yield batch
            batch, left = [], size
        batch.append(it)
        left -= it.size
    if batch:
        yield batch


def scan(paths: AnyPaths, *, recursive: bool = True, jobs: int | None = None, how: How = How()) -> typing.Generator[Said, None, None]:
    """What is said of each file, in the order of the files, by so many processes: by default as many as the machine has."""
    jobs = jobs or len(os.sched_getaffinity(0))
    found = batches(files(paths, recursive))
    if jobs == 1:
        for batch in found:
            yield from (_line_of(it, how, True) for it in batch)
        return
    # Who interrupts it interrupts this process, which lets the others go.
    with concurrent.futures.ProcessPoolExecutor(jobs, None, signal.signal, (signal.SIGINT, signal.SIG_IGN)) as pool:
        waiting: collections.deque[concurrent.futures.Future[list[Said]]] = collections.deque()
        try:
            for batch in found:
                waiting.append(pool.submit(lines_of, batch, how) if "-" not in (it.path for it in batch) else _said_here(batch, how))
                if len(waiting) > AHEAD * jobs:
                    yield from waiting.popleft().result()
            while waiting:
                yield from waiting.popleft().result()
        finally:
            pool.shutdown(cancel_futures=True)
