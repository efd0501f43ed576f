"""Runs programs that may never end, each under a limit of time: browsers, engines, emulators, programs under Wine.

A program runs in a process group of its own, and at its end, or at its limit, the whole group is ended. Its output goes into
files: of a pipe no end is seen while a process that was left behind holds it. What has left the group, as Wine's server has,
is ended by who started it (wine.py)."""

import os
import signal
import subprocess
import sys
import tempfile

SECONDS = 1200
# Between the signal that a program may handle and the one that it may not.
GRACE = 5


class Failed(Exception):
    """Why something was not built, or not tried."""


class Late(Failed):
    """A program did not end in its time. `stdout` is what it had written by then."""

    def __init__(self, why, stdout):
        super().__init__(why)
        self.stdout = stdout


# A tool that is ended itself, by a limit of its own, ends what it has started.
signal.signal(signal.SIGTERM, lambda number, frame: sys.exit(128 + number))


def end_group(program):
    """Ends a process group, first by the signal by which its programs end what they have started."""
    for number in (signal.SIGTERM, signal.SIGKILL):
        try:
            os.killpg(program.pid, number)
        except ProcessLookupError:
            return
        if number == signal.SIGTERM and program.returncode is None:
            try:
                program.wait(GRACE)
            except subprocess.TimeoutExpired:
                pass
    program.wait()


def limited(words, seconds=SECONDS, merged=False, **more):
    """Runs a program without standard input, and returns what subprocess.run does with its output as bytes, where it is `merged` in
    one. Raises Late where it does not end in these seconds."""
    with tempfile.TemporaryFile() as out, tempfile.TemporaryFile() as errors:
        more.setdefault("stdin", subprocess.DEVNULL)
        program = subprocess.Popen(words, stdout=out, stderr=out if merged else errors, start_new_session=True, **more)
        is_late = False
        try:
            program.wait(seconds)
        except subprocess.TimeoutExpired:
            is_late = True
        finally:
            end_group(program)
        said, complaints = (written(it) for it in (out, errors))
    if is_late:
        end = (complaints or said).decode(errors="replace").strip()[-1000:]
        raise Late(f"{' '.join(map(str, words))[:400]}: not ended after {seconds} seconds; it said: {end}", said)
    return subprocess.CompletedProcess(words, program.returncode, said, complaints)


def outcome(words, seconds=SECONDS, **more):
    """The status and all output of a command; None, and why, for one that does not end in these seconds."""
    try:
        done = limited(words, seconds, merged=True, **more)
    except Failed as why:
        return None, str(why)
    return done.returncode, done.stdout.decode("utf-8", "replace")


def written(file):
    file.seek(0)
    return file.read()


def limited_text(words, seconds=SECONDS, **more):
    """The same with its output as text."""
    done = limited(words, seconds, **more)
    done.stdout, done.stderr = (it.decode("utf-8", "replace") for it in (done.stdout, done.stderr))
    return done
