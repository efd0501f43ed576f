"""The page of `pe report` in a notebook."""
from __future__ import annotations

import errno
import html
import os
import subprocess
import tempfile

# What a notebook keeps of a page: a file of 5,000 exports has 1.6 MB.
MOST = 8 << 20


class Report:
    """A page that `pe report` made. A notebook shows it in a frame that may run its own scripts, and has no other rights: neither those
    of the notebook's page nor its cookies."""

    def __init__(self, page: str) -> None:
        self.page = page

    @classmethod
    def of(cls, data: memoryview, path: str, program: str, options: tuple[str, ...] | list[str] = ()) -> Report:
        with tempfile.TemporaryDirectory() as room:
            name = os.path.join(room, os.path.basename(path) or "image")
            with open(name, "wb") as file:
                file.write(data)
            done = subprocess.run([program, "report", *options, name, "-"], stdin=subprocess.DEVNULL, capture_output=True)
        if done.returncode not in (0, 1) or not done.stdout:
            raise OSError(errno.EIO, done.stderr.decode("utf-8", "replace").strip() or "no page", program)
        if len(done.stdout) > MOST:
            raise OSError(errno.EFBIG, f"a page of {len(done.stdout)} bytes", program)
        return cls(done.stdout.decode("utf-8", "replace"))

    def _repr_html_(self) -> str:
        return (f'<iframe sandbox="allow-scripts" srcdoc="{html.escape(self.page)}" width="100%" height="640" '
                'style="border:1px solid #8888"></iframe>')
