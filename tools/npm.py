"""The npm package pe-c: its files put together, and packed by npm, without a network."""

import glob
import os

import header_files
from contents import copy, text_of, write
from header import TOP, Header
from targets import BINDINGS, run

SOURCES = os.path.join(BINDINGS, "js")
# What of the sources is in the package; the rest makes it or tests it.
FILES = ["index.mjs", "browser.mjs", "library.mjs", "memory.mjs", "calls.mjs", "image.mjs", "symbols.mjs", "objects.mjs",
         "dump.mjs", "pdb.mjs", "process.mjs", "resources.mjs", "signatures.mjs", "metadata.mjs", "parts.mjs", "facts.mjs",
         "pe-js.mjs", "README.md"]


def write_package(wasm, folder, build):
    """Writes the files of the package: of the folder of modules that tools/build_target makes, and the text of the
    file BUILD."""
    header = Header()
    for whence, names in ((SOURCES, FILES), (wasm, ("pe_c.wasm", "pe_c64.wasm")), (TOP, ("LICENSE",))):
        for name in names:
            copy(os.path.join(whence, name), folder, name)
    header_files.make(folder, header, ["layouts.mjs", "names.mjs", "index.d.ts", "facts.d.ts"])
    text = text_of(SOURCES, "package.json.in").replace("@VERSION@", header.version)
    for name, content in (("package.json", text), ("BUILD", build)):
        write(content, folder, name)
    os.chmod(os.path.join(folder, "pe-js.mjs"), 0o755)


def pack(folder, to):
    """Packs it, and returns the path of the package."""
    run(["npm", "pack", "--silent", "--ignore-scripts", "--pack-destination", to, folder], cwd=to)
    return glob.glob(os.path.join(to, "pe-c-*.tgz"))[0]


def install(package, folder):
    """Installs a package into an empty folder, without a network."""
    os.makedirs(folder)
    write('{ "name": "user", "private": true, "type": "module" }\n', folder, "package.json")
    run(["npm", "install", "--silent", "--offline", "--no-audit", "--no-fund", "--ignore-scripts", package], cwd=folder)
