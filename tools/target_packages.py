"""The packages of the library for other targets, which tools/make_packages makes of what tools/build_target built:

    linux-arm64     libpe-c-dev_VERSION_arm64.deb
    wasm            pe-c-NUMBER.tgz, for npm; pe.html, the page; and lovandezh-VERSION-portable.tar.gz, plain C
    windows-x64     lovandezh-VERSION-windows-x64.zip

Each says in BUILD of which proof it is, what is trusted beside that of the library for Linux on x86-64, and the
SHA-256 of what was tried: the hashes of tools/try_targets are of these very files."""

import os
import tempfile
import zipfile

import npm
from contents import bytes_of, copy, files_below, text_of, write
from header import Header, TOP
from targets import BINDINGS, MINGW, SOURCES, Failed, files_of, make_portable, proof_lines, run, sha256_of
from wine import Wine

TRUSTED = {
    "linux-arm64": "the kit's own target: LLVM's compiler for AArch64, as on x86-64",
    "wasm": "the kit's own target: LLVM's compiler for WebAssembly and the kit's linker; of pe_c.wasm also binaryen's lowering of the"
            " memory to 32 bits; the JavaScript; the engine",
    "windows-x64": "no target of the kit: the code that the kit made for Linux on x86-64, whose triple, data layout and attributes"
                   " tools/retarget.py changed; LLVM's compiler for Windows; mingw's linker; chkstk.S, dll.c",
}


# What is trusted of plain C, beside the module that it is made of.
PORTABLE = ("trusted of this C, beside that of pe_c.wasm: wasm2c of Debian's wabt; its run-time; pe_portable.c and room.c, which copy"
            " arguments in and out; your C compiler\n")


def proof_text(folder):
    """What PROOF says of the files of a target's folder, as BUILD has it."""
    first, *more = proof_lines(folder)
    return "".join(f"{it}\n" for it in [f"proof {first}", *(
        it if it.startswith("sha256 ") else f"of which in the run that compiled it: {it}" for it in more)])


def build_text(target, folder, common):
    """The file BUILD of a package."""
    return f"{common}target {target}\ntrusted beside the proof {TRUSTED[target]}\n{proof_text(folder)}"


def program_text(program):
    """What BUILD says of the program."""
    return f"sha256 pe.exe {sha256_of(program)}\npe.exe is a program in Rust over libpe_c.a: no proof covers it\n"


# ---- npm and the page

def make_npm(folder, build, room, to):
    """The npm package. Its files are the same bytes each time, and npm gives all of them one date."""
    package = os.path.join(room, "npm")
    npm.write_package(folder, package, build)
    return npm.pack(package, to)


def make_page(folder, to):
    page = os.path.join(to, "pe.html")
    run([os.path.join(TOP, "tools", "make_page"), folder, page])
    return page


def portable_tree(folder, build, tree):
    """Plain C of the module. wasm2c and its run-time have a license of their own."""
    make_portable(folder, tree)
    write(build + PORTABLE, tree, "BUILD")
    copy("/usr/share/common-licenses/Apache-2.0", tree, "LICENSE-wasm2c")
    copy(os.path.join(TOP, "LICENSE"), tree, "LICENSE")


# ---- Windows

def windows_tree(folder, build, tree):
    """What the zip has."""
    header = Header()
    for name in files_of("windows-x64"):
        copy(os.path.join(folder, name), tree, "bin" if name.endswith(".dll") else "lib", name)
    for name in ("pe.h", "pe.hpp"):
        copy(os.path.join(BINDINGS, name), tree, "include", name)
    copy(os.path.join(BINDINGS, "pe_list.c"), tree, "pe_list.c")
    cmake = os.path.join("lib", "cmake", "pe_c")
    for folder, source, *to in ((SOURCES, "windows/README.txt"), (SOURCES, "windows/pe_cConfig.cmake", cmake),
                                (BINDINGS, "pe_cConfigVersion.cmake", cmake)):
        text = text_of(folder, f"{source}.in").replace("@VERSION@", header.version).replace("@ABI@", str(header.abi))
        write(text, tree, *to, os.path.basename(source))
    lines = ["prefix=${pcfiledir}/../..", "libdir=${prefix}/lib", "includedir=${prefix}/include", "", "Name: pe_c",
             "Description: readers of Windows executables", f"Version: {header.version}", "Cflags: -I${includedir}",
             "Libs: -L${libdir} -lpe_c"]
    write("".join(f"{it}\n" for it in lines), tree, "lib", "pkgconfig", "pe_c.pc")
    write(build, tree, "BUILD")


def make_zip(tree, name, date, to):
    """A zip of a tree below a folder of that name: in order, of one date, without owners."""
    path = os.path.join(to, f"{name}.zip")
    with zipfile.ZipFile(path, "w", zipfile.ZIP_DEFLATED) as made:
        for it in files_below(tree):
            entry = zipfile.ZipInfo(os.path.join(name, os.path.relpath(it, tree)), date_time=date)
            entry.compress_type, entry.external_attr = zipfile.ZIP_DEFLATED, 0o644 << 16
            made.writestr(entry, bytes_of(it))
    return path


def try_zip(path):
    """Unpacks the zip into an empty folder, compiles the program that is in it by mingw, as its README says, with the archive and with
    the DLL, and returns what both print under Wine."""
    with tempfile.TemporaryDirectory() as room, Wine(room) as wine:
        with zipfile.ZipFile(path) as packed:
            packed.extractall(room)
        (top,) = os.listdir(room)
        place, said = os.path.join(room, top), {}
        commands = [it.split() for it in text_of(place, "README.txt").split("\n") if it.startswith(f"    {MINGW}-gcc ")]
        for command in commands:
            library, program = command[-3], os.path.join(place, command[-1])
            run(command, cwd=place)
            said[library] = wine.run(program, "list", IMAGE).replace("\r\n", "\n").encode()
        return said


# What the program pe_list.c is asked.
IMAGE = os.path.join(TOP, "crates", "peinfo", "data", "i.bin")


def said_on_linux(archive):
    """What the program says over the archive for Linux on x86-64."""
    with tempfile.TemporaryDirectory() as room:
        program = os.path.join(room, "pe_list")
        run(["gcc", "-std=c11", f"-I{BINDINGS}", os.path.join(BINDINGS, "pe_list.c"), archive, "-o", program])
        return run([program, "list", IMAGE]).encode()


def check(path, said, wanted):
    """Fails where a program over an unpacked package prints another text than over the archive for Linux on x86-64."""
    for library, text in said.items():
        if text != wanted or not wanted:
            raise Failed(f"{path}: a program with {library} prints {text[:200]!r}")


def check_zip(path, archive):
    check(path, try_zip(path), said_on_linux(archive))


def try_deb(path):
    """Unpacks a Debian package for ARM64 into an empty folder, compiles the program pe_list.c against it with the archive and with the
    shared library, and returns what both print under qemu."""
    with tempfile.TemporaryDirectory() as room:
        run(["dpkg-deb", "-x", path, room])
        libraries = os.path.join(room, "usr", "lib", "aarch64-linux-gnu")
        said = {}
        for library in ("libpe_c.a", "libpe_c.so"):
            program = os.path.join(room, library + ".program")
            run(["aarch64-linux-gnu-gcc", "-std=c11", "-Wall", "-Wextra", "-Werror", f"-I{room}/usr/include/pe_c",
                 os.path.join(BINDINGS, "pe_list.c"), os.path.join(libraries, library), f"-Wl,-rpath,{libraries}", "-o", program])
            said[library] = run(["qemu-aarch64", "-L", "/usr/aarch64-linux-gnu", program, "list", IMAGE]).encode()
        return said


def check_deb(path, archive):
    check(path, try_deb(path), said_on_linux(archive))
