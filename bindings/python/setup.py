"""The extension of pe_c, over the library for C: libpe_c.a in the folder that PE_C_FOLDER names, else in
../../crates/pe_c/out, where `make` in bindings leaves it. pe.h is that of the folder that PE_C_HEADER names, else that of bindings,
of which a source package has a copy.
"""
import os
import re
import shutil
import sys

from setuptools import Extension, setup
from setuptools.command.build_ext import build_ext
from setuptools.command.sdist import sdist
from wheel.bdist_wheel import bdist_wheel

HERE = os.path.dirname(os.path.abspath(__file__))
ARCHIVE = os.path.join(os.environ.get("PE_C_FOLDER", os.path.join(HERE, "..", "..", "crates", "pe_c", "out")), "libpe_c.a")
# A source package has the header beside this file, and no archive.
OWN_HEADER = os.path.join(HERE, "include")
INCLUDE = os.environ.get("PE_C_HEADER", OWN_HEADER if os.path.isdir(OWN_HEADER) else os.path.join(HERE, ".."))


def check_archive():
    """Says in one line what is missing. The archive has the number of its ABI as the name of a call."""
    for path in (ARCHIVE, os.path.join(INCLUDE, "pe.h")):
        if not os.path.exists(path):
            sys.exit(f"pe-c: {path} is missing: PE_C_FOLDER names the folder of libpe_c.a, and `make` in bindings makes one")
    with open(os.path.join(INCLUDE, "pe.h"), encoding="utf-8") as file:
        abi = re.search(r"\bpe_c_abi_\d+", file.read())[0]
    with open(ARCHIVE, "rb") as file:
        if abi.encode() not in file.read():
            sys.exit(f"pe-c: {ARCHIVE} is of another ABI than pe.h, which has {abi}")


class Build(build_ext):
    def run(self):
        check_archive()
        super().run()


class Source(sdist):
    """A source package, with pe.h of the library that it wants."""

    def make_release_tree(self, base_dir, files):
        super().make_release_tree(base_dir, files)
        os.makedirs(os.path.join(base_dir, "include"), exist_ok=True)
        shutil.copyfile(os.path.join(INCLUDE, "pe.h"), os.path.join(base_dir, "include", "pe.h"))


class Stable(bdist_wheel):
    """A wheel for the stable ABI of Python 3.11 and later."""

    def get_tag(self):
        return "cp311", "abi3", super().get_tag()[2]


# No path of this machine goes into the bytes: the same sources and archive make the same extension.
FLAGS = ["-O2", "-g0", "-std=c11", "-fvisibility=hidden", f"-ffile-prefix-map={HERE}=.", "-Wall", "-Wextra", "-Werror",
         "-Wno-cast-function-type"]
setup(
    ext_modules=[Extension(
        "pe_c._core", ["src/pe_c/_core.c"], include_dirs=[INCLUDE], extra_objects=[ARCHIVE],
        depends=[ARCHIVE, *(f"src/pe_c/_{it}.h" for it in ("rows", "row_kinds", "calls", "written", "pdb")), os.path.join(INCLUDE, "pe.h")],
        py_limited_api=True,
        extra_compile_args=FLAGS,
        extra_link_args=["-Wl,--exclude-libs,ALL", "-Wl,-z,relro,-z,now", "-Wl,--build-id=none", "-Wl,-s"])],
    cmdclass={"bdist_wheel": Stable, "build_ext": Build, "sdist": Source})
