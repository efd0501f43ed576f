"""What a notebook shows: an image, a part and the page of `pe report`, in a page that Chromium opens without a window.

It needs chromium; with Debian's jupyter-nbconvert and python3-ipykernel the page is a notebook that was run."""
import json
import os
import shutil
import subprocess
import sys
import tempfile
import unittest

import hostile
import pe_c

IMAGES = os.environ["PE_C_IMAGES"]
CHROMIUM = shutil.which("chromium")
# A page that tries to change the one around it, and that shows what it is. `pe report` writes one with scripts of its own.
PROGRAM = """#!/bin/sh
test "$1" = report && test -s "$2" && test "$3" = - || exit 2
echo '<!DOCTYPE html><title>report</title><p>page of'; basename "$2"
echo '</p><script>try { parent.document.body.innerHTML = "bro" + "ken"; } catch (error) { }</script>'
"""


@unittest.skipIf(CHROMIUM is None, "Debian's chromium is missing")
class Notebook(unittest.TestCase):
    def setUp(self):
        self.room = tempfile.mkdtemp()
        self.addCleanup(shutil.rmtree, self.room)
        self.program = os.path.join(self.room, "pe")
        with open(self.program, "w") as file:
            file.write(PROGRAM)
        os.chmod(self.program, 0o755)
        self.path = os.path.join(self.room, "a <b>.dll")
        shutil.copy(os.path.join(IMAGES, "x86_dll.bin"), self.path)

    def shown(self, page):
        """The page as Chromium has it after its scripts have run."""
        path = os.path.join(self.room, "page.html")
        with open(path, "w", encoding="utf-8") as file:
            file.write(page)
        words = [CHROMIUM, "--headless", "--no-sandbox", "--disable-gpu", f"--user-data-dir={self.room}/profile",
                 "--virtual-time-budget=3000", "--dump-dom", f"file://{path}"]
        done = subprocess.run(words, capture_output=True, timeout=120)
        return done.stdout.decode("utf-8", "replace")

    def check(self, dom):
        self.assertIn("<meter", dom)
        self.assertEqual(dom.count("<td>.text</td>"), 1)
        self.assertIn("<td>USER32.dll</td>", dom)
        self.assertIn('sandbox="allow-scripts"', dom)
        self.assertIn("page of", dom)
        self.assertNotIn("broken", dom)
        self.assertNotIn("<b>.dll</h4>", dom)

    def test_a_page(self):
        with pe_c.open(self.path) as image:
            self.check(self.shown("<!DOCTYPE html><meta charset=utf-8>" + image._repr_html_() + image.imports._repr_html_()
                                  + image.report(self.program)._repr_html_()))
            with self.assertRaises(OSError):
                image.report(os.path.join(self.room, "absent"))
            with self.assertRaises(OSError):
                image.report("/bin/false")

    @unittest.skipIf(shutil.which("jupyter-nbconvert") is None, "Debian's jupyter-nbconvert is missing")
    def test_a_notebook(self):
        cells = [f"import sys; sys.path[:0] = {sys.path!r}; import pe_c; image = pe_c.open({self.path!r})", "image", "image.imports",
                 f"image.report({self.program!r})"]
        book = {"nbformat": 4, "nbformat_minor": 4, "metadata": {"kernelspec": {"name": "python3", "display_name": "3", "language": "python"}},
                "cells": [{"cell_type": "code", "execution_count": None, "metadata": {}, "outputs": [], "source": it} for it in cells]}
        path = os.path.join(self.room, "book.ipynb")
        with open(path, "w") as file:
            json.dump(book, file)
        environment = {**os.environ, "HOME": self.room, "JUPYTER_RUNTIME_DIR": self.room}
        words = [shutil.which("jupyter-nbconvert"), "--execute", "--to", "html", "--template", "basic", "--stdout", path]
        done = subprocess.run(words, capture_output=True, env=environment, timeout=240)
        if b"No such kernel" in done.stderr or b"NoSuchKernel" in done.stderr:
            self.skipTest("Debian's python3-ipykernel is missing")
        self.assertEqual(done.returncode, 0, done.stderr[-2000:])
        self.check(self.shown(done.stdout.decode()))


class Pages(unittest.TestCase):
    def test_a_page_is_of_the_mode_of_the_image(self):
        with tempfile.TemporaryDirectory() as room:
            program = os.path.join(room, "pe")
            with open(program, "w") as file:
                file.write('#!/bin/sh\necho "$*"\n')
            os.chmod(program, 0o755)
            for mode, options in ((pe_c.Mode.STRICT, ["--strict"]), (pe_c.Mode.PERMISSIVE, []),
                                  (pe_c.Mode.PERMISSIVE | pe_c.Mode.MAPPED, ["--mapped"])):
                words = pe_c.Image(hostile.imports(1, 1), mode).report(program).page.split()
                self.assertEqual((words[0], words[1:-2], words[-1]), ("report", options, "-"))

    def test_a_large_page_is_refused(self):
        with tempfile.TemporaryDirectory() as room:
            program = os.path.join(room, "pe")
            with open(program, "w") as file:
                file.write("#!/bin/sh\nhead -c 9000000 /dev/zero | tr '\\0' x\n")
            os.chmod(program, 0o755)
            with self.assertRaises(OSError):
                pe_c.Image(hostile.ordinals()).report(program)


if __name__ == "__main__":
    unittest.main()
