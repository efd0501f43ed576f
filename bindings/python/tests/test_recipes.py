"""Each recipe of RECIPES.md runs as it stands, and prints something."""
import importlib.util
import os
import re
import shutil
import subprocess
import sys
import tempfile
import unittest

import hostile
import test_more

HERE = os.path.dirname(os.path.abspath(__file__))
RECIPES = os.environ.get("PE_C_RECIPES", os.path.join(HERE, "..", "RECIPES.md"))
# What of the output of a recipe has to stand in it, by the start of its title.
SAID = {"Who signed": "CN=Signer,OU=Two+O=Probe\\, Inc.,C=DE 2026-11-27T04:37:07Z ['2026-11-27T05:37:07Z'] digest fits",
        "Which images": "images/a.dll", "How often": "(None, 2)", "Which sections": ".text", "The versions": "3.11.3150.1013",
        "The resources": "00", "Where does": "a.pdb/497B72F6390A44FC878E5A2D63B6CC4B1/a.pdb", "Why did": "0xc0000005",
        "The stack": "['0x180005008'] BOTTOM", "Another": "{'040904B0': {'ProductName': 'Probe', 'FileVersion': '1.2.3.4'}}",
        "The symbols": "longer_than_eight 1", "All exports": "exports.dll"}


def recipes():
    with open(RECIPES, encoding="utf-8") as file:
        return re.findall(r"^## (.*?)\n.*?^```python\n(.*?)^```", file.read(), re.M | re.S)


class Recipes(unittest.TestCase):
    def setUp(self):
        self.room = tempfile.mkdtemp()
        self.addCleanup(shutil.rmtree, self.room)
        os.mkdir(os.path.join(self.room, "images"))
        files = {f"{name}.dll": test_more.bytes_of(f"{name}.bin") for name in ("x86_dll", "resources", "functions", "debug", "exports")}
        files |= {"signed.dll": test_more.signed(), "crash.dmp": test_more.bytes_of("x64.dmp"), "object.obj": test_more.bytes_of("object.obj"),
                  "edit.dll": hostile.resources(1, 1, 1), "images/a.dll": test_more.bytes_of("x86_dll.bin"),
                  "images/b.dll": test_more.bytes_of("debug.bin"), "images/no.txt": b"a text",
                  "scan.ndjson": b'{"hashes":{"imphash":null}}\n' * 2}
        for name, data in files.items():
            with open(os.path.join(self.room, name), "wb") as file:
                file.write(data)

    def test_each(self):
        found = recipes()
        self.assertGreaterEqual(len(found), 10)
        self.assertEqual(len(found), len(SAID))
        for title, code in found:
            if code.startswith("# needs pandas") and importlib.util.find_spec("pandas") is None:
                continue
            done = subprocess.run([sys.executable, "-c", f"import sys; sys.path[:] = {sys.path!r}\n{code}"], cwd=self.room,
                                  capture_output=True, text=True, timeout=120)
            self.assertEqual((done.returncode, done.stderr), (0, ""), title)
            self.assertIn(next(said for start, said in SAID.items() if title.startswith(start)), done.stdout, title)


if __name__ == "__main__":
    unittest.main()
