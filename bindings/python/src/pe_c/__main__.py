"""python -m pe_c FILE ..: a line of JSON for each file, as `pe --json` writes it. `scan FOLDER ..` is the same of all images below
folders, over as many processes as the machine has."""
from __future__ import annotations

import argparse
import concurrent.futures.process
import os
import signal
import sys
import time
import typing

from ._image import Mode
from .scan import CUT, DONE, FILE_ERROR, LINK, How, scan


def arguments(words: list[str]) -> argparse.Namespace:
    parser = argparse.ArgumentParser(prog="python -m pe_c", description=__doc__, epilog=(
        "The status is 0, 1 where an image or a part of one is refused, 2 for misused arguments, 3 for an error of a file."))
    parser.add_argument("paths", nargs="+", metavar="FILE", help="a file, or with -r a folder; - is standard input, which can be one file")
    parser.add_argument("-r", "--recursive", action="store_true", help="all images below the folders that are named")
    parser.add_argument("-j", "--jobs", type=int, metavar="N", help="processes; 1 without scan, else as many as processors")
    parser.add_argument("-v", "--verbose", action="store_true", help="name the files that are skipped")
    parser.add_argument("--strict", action="store_true", help="damaged directories are errors")
    parser.add_argument("--mapped", action="store_true", help="a module as it was in memory")
    parser.add_argument("--no-hashes", action="store_true", help="leave out hashes and checksums")
    is_scan = words[:1] == ["scan"]
    asked = parser.parse_args(words[1:] if is_scan else words)
    if asked.jobs is not None and asked.jobs < 1:
        parser.error("-j takes 1 or more")
    asked.recursive = asked.recursive or is_scan
    if asked.verbose and not asked.recursive:
        parser.error("-v names what is skipped below folders, with -r or scan")
    asked.jobs = asked.jobs or (None if is_scan else 1)
    return asked


class Bar:
    """A sign that work goes on, on a terminal."""

    def __init__(self, out: typing.TextIO, is_shown: bool) -> None:
        self.out, self.is_shown, self.start, self.next = out, is_shown, time.monotonic(), 0.0
        self.files = self.bytes = 0

    def add(self, size: int) -> None:
        self.files, self.bytes = self.files + 1, self.bytes + size
        now = time.monotonic()
        if self.is_shown and now >= self.next:
            self.next = now + 0.2
            seconds = max(now - self.start, 0.001)
            spinner = "|/-\\"[int(now * 5) % 4]
            self.out.write(f"\r{spinner} {self.files:,} files, {self.bytes >> 20:,} MB, {self.files / seconds:.0f} files/s, "
                           f"{self.bytes / seconds / 1e6:.0f} MB/s\x1b[K")
            self.out.flush()

    def end(self) -> None:
        if self.is_shown:
            self.out.write("\r\x1b[K")
            self.out.flush()


class Complaints:
    """Lines for standard error, and whether one was lost: it may be full or closed."""

    is_lost = False

    def add(self, text: object) -> None:
        if sys.stderr is None:
            self.is_lost = True
            return
        try:
            print(f"pe_c: {text}", file=sys.stderr, flush=True)
        except OSError:
            let_go(sys.stderr)
            self.is_lost = True


def let_go(stream: typing.TextIO) -> None:
    """Has what is left of a stream that takes no more go nowhere: Python would write it once more as it ends."""
    os.dup2(os.open(os.devnull, os.O_WRONLY), stream.fileno())


def written(asked: argparse.Namespace, complaints: Complaints) -> int:
    """Writes the lines, and what is said beside them. Returns the status."""
    mode = (Mode.STRICT if asked.strict else Mode.PERMISSIVE) | (Mode.MAPPED if asked.mapped else Mode.STRICT)
    is_watched = sys.stderr is not None and sys.stderr.isatty()
    bar = Bar(sys.stderr, asked.recursive and is_watched and not sys.stdout.isatty())
    worst, skipped, cut, links, is_any, out = DONE, 0, 0, 0, False, sys.stdout.buffer
    found = scan(asked.paths, recursive=asked.recursive, jobs=asked.jobs, how=How(int(mode), not asked.no_hashes))
    try:
        for said in found:
            bar.add(said.size)
            out.write(said.line.encode())
            worst, skipped = max(worst, said.status), skipped + said.is_skipped
            cut, links = cut + said.complaint.endswith(CUT), links + said.complaint.endswith(LINK)
            is_any = is_any or not said.is_skipped
            if said.complaint and (not said.is_skipped or asked.verbose):
                bar.end()
                complaints.add(said.complaint)
        out.flush()
    finally:
        found.close()
        bar.end()
    if skipped:
        more = f"; by their start {cut} DOS or truncated MZ file{'' if cut == 1 else 's'}" if cut else ""
        more += {0: "", 1: "; one is a link to a folder, which is not followed"}.get(
            links, f"; {links} are links to folders, which are not followed")
        complaints.add(f"{skipped} file{' is no image' if skipped == 1 else 's are no images'}, and skipped{more}")
    if not is_any:
        complaints.add("no image is found")
    return worst


def run(words: list[str]) -> int:
    asked, complaints = arguments(words), Complaints()
    if sys.stdout is None:
        complaints.add("standard output is closed")
        return FILE_ERROR
    try:
        status = written(asked, complaints)
    except OSError as error:
        let_go(sys.stdout)
        # Whoever read from a pipe that is broken has seen enough, as `head` has.
        if not isinstance(error, BrokenPipeError):
            complaints.add(error.strerror or error)
        return FILE_ERROR
    except KeyboardInterrupt:
        # It ends as any program does that is interrupted.
        signal.signal(signal.SIGINT, signal.SIG_DFL)
        os.kill(os.getpid(), signal.SIGINT)
    except concurrent.futures.process.BrokenProcessPool:
        complaints.add("a process ended early, as one that the system killed")
        return FILE_ERROR
    return FILE_ERROR if complaints.is_lost else status


if __name__ == "__main__":
    sys.exit(run(sys.argv[1:]))
