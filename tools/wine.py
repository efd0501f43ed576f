"""Programs for Windows, run by Wine under a limit of time, in a folder of Wine's own."""

import contextlib
import os
import shutil

from limits import Failed, limited
from needs import MINGW, WINE
from targets import run

# Wine makes its folder at the first program, which takes most of a minute on a busy machine.
SECONDS = 600
SECONDS_TO_END = 60
# Debian's package wine64 alone has it under another name, and not on PATH.
SERVER = shutil.which("wineserver") or "/usr/lib/wine/wineserver64"


def random_numbers(room):
    """A folder with the DLL that programs in Rust need of Windows and Wine 8 lacks."""
    folder = os.path.join(room, "random")
    os.mkdir(folder)
    source = os.path.join(os.path.dirname(os.path.realpath(__file__)), "bcryptprimitives.c")
    run([f"{MINGW}-gcc", "-shared", "-O2", "-Wall", "-Werror", source, "-o", os.path.join(folder, "bcryptprimitives.dll"), "-ladvapi32"])
    return folder


class Wine:
    """Wine with its folder in a room, and DLLs of another folder. Wine's server and services leave the process group of the program
    that starts them: `with` ends them at last."""

    def __init__(self, room, dlls=None, **more):
        self.environment = {**os.environ, "WINEPREFIX": os.path.join(room, "wine"), "WINEDEBUG": "-all",
                            "WINEDLLOVERRIDES": "mscoree,mshtml=", **({"WINEPATH": dlls} if dlls else {}), **more}

    def __enter__(self):
        return self

    def __exit__(self, *why):
        self.end()

    def program(self, program, *words, seconds=SECONDS, **more):
        """Runs a program, and returns what `limited` does. Where it does not end, all that runs in this folder of Wine is ended."""
        try:
            return limited([WINE, program, *words], seconds, env=self.environment, **more)
        except Failed:
            self.end()
            raise

    def run(self, program, *words, **more):
        """The standard output of a program, or Failed."""
        done = self.program(program, *words, **more)
        if done.returncode != 0:
            raise Failed(f"{os.path.basename(program)}: status {done.returncode}: {done.stderr.decode(errors='replace')[-400:]}"
                         f" {done.stdout.decode(errors='replace')[-200:]}")
        return done.stdout.decode("utf-8", "replace")

    def end(self):
        """Ends the server, and with it whatever runs in this folder, and waits for its end, since it writes there until then. That it does
        not answer fails nothing: it ends by itself."""
        for word in ("-k", "-w"):
            with contextlib.suppress(Failed, OSError):
                limited([SERVER, word], SECONDS_TO_END, env=self.environment)
