"""Verdicts that are kept: what a check refused or proved stays so while all that the check read is the same.

A verdict is kept by the sum of the kit, the tools that make the check, the crate's line in crates.txt, its sources without bodies
and comments, its definitions and lemmas, the text and proofs of the functions that the check is about with their files, and all
files of the crates below. They stand in the user's cache, one file each, which is written apart and renamed. What failed is never
kept, and nothing of a check whose control failed. Each run makes ten that are kept again, by chance.
"""

import functools
import hashlib
import os
import re
import tempfile
import time

from contents import bytes_of, text_of, write

TOOLS = ("try_edits", "rooms.py", "contracts.py", "contracts.toml", "views.py", "views.toml", "verdicts.py", "contents.py")
HERE = os.path.dirname(os.path.realpath(__file__))
AGAIN = 10
MONTH = 30 * 24 * 3600


def sum_of(*parts):
    return hashlib.sha256(repr(parts).encode()).hexdigest()


def files_of(folder, leave=frozenset()):
    """The files below a folder and what they hold, but for those in some folders of it."""
    found = []
    for at, folders, files in os.walk(folder):
        folders[:] = sorted(it for it in folders if os.path.relpath(f"{at}/{it}", folder) not in leave)
        for it in sorted(files):
            found.append((os.path.relpath(f"{at}/{it}", folder), bytes_of(f"{at}/{it}")))
    return found


@functools.lru_cache(maxsize=None)
def sum_below(folder):
    """The sum of all that a crate above reads of a crate."""
    return sum_of([files_of(f"{folder}/{part}") for part in ("src", "specs", "proofs")])


def bare(text):
    """A source or a definition without comments and empty lines."""
    return [line for line in (it.strip() for it in text.split("\n")) if line and not re.match(r"//|--( |$)", line)]


class Store:
    """Texts under keys in a folder of the user's cache. Where it cannot be used nothing is kept, which is said once."""

    def __init__(self, name):
        cache = os.environ.get("XDG_CACHE_HOME") or os.path.expanduser("~/.cache")
        self.folder, self.is_lost = f"{cache}/lovandezh/{name}", False

    def kept(self, key):
        """The text under a key, or None. What nothing has asked for in a month goes."""
        try:
            os.utime(f"{self.folder}/{key}")
            return text_of(f"{self.folder}/{key}")
        except (OSError, ValueError):
            return None

    def keep(self, key, text):
        try:
            os.makedirs(self.folder, mode=0o700, exist_ok=True)
            handle, path = tempfile.mkstemp(dir=self.folder, prefix="new-")
            os.close(handle)
            write(text, path)
            os.replace(path, f"{self.folder}/{key}")
        except OSError as why:
            if not self.is_lost:
                print(f"{self.folder}: nothing is kept there: {why.strerror}", flush=True)
            self.is_lost = True

    def forget(self, key):
        """What failed is not taken from before, though it passed then."""
        try:
            os.unlink(f"{self.folder}/{key}")
        except OSError:
            pass

    def tidy(self):
        """Removes what is older than a month."""
        try:
            for entry in os.scandir(self.folder):
                if entry.stat().st_mtime < time.time() - MONTH:
                    os.unlink(entry.path)
        except OSError:
            pass


class Verdicts(Store):
    """The verdicts that are kept of a crate."""

    def __init__(self, crate, kit):
        super().__init__("verdicts")
        self.crate = crate
        own = {os.path.relpath(it, f"{crate.folder}/proofs") for path in crate.functions for it in crate.answers_of(path)}
        blank = [(file, bare(crate.without_bodies(file, text, set()))) for file, text in sorted(crate.texts.items())]
        specs = [(path, bare(text.decode())) for path, text in files_of(f"{crate.folder}/specs")]
        below = [(it, sum_below(f"{crate.top}/crates/{it}")) for it in crate.below]
        tools = [open(f"{HERE}/{it}", "rb").read() for it in TOOLS if os.path.exists(f"{HERE}/{it}")]
        self.sum = sum_of(bytes_of(f"{kit}/KIT-ID"), tools, crate.kind, crate.uses, blank, specs,
                          files_of(f"{crate.folder}/proofs", own), below)

    def key(self, text, paths):
        """The key of what a check says of some functions, with what is tried of them."""
        files = sorted({self.crate.files[it] for it in paths if it in self.crate.files})
        proofs = [files_of(it) for path in sorted(paths) for it in self.crate.answers_of(path)]
        return sum_of(self.sum, text, sorted(paths), [(it, self.crate.texts[it]) for it in files], proofs)
