"""Building the library for its targets: of proved crates by the kit, or of code that is not proved.

    linux-x64       libpe_c.a, by the kit, for x86_64-unknown-linux-gnu: the archive that `make -C bindings` makes
    linux-arm64     libpe_c.a, by the kit, for aarch64-unknown-linux-gnu
    wasm            pe_c64.wasm, by the kit, for wasm64-unknown-unknown; and pe_c.wasm, that with a memory of 32 bits,
                    by binaryen
    windows-x64     libpe_c.a, pe_c-ABI.dll, libpe_c.dll.a, pe_c.lib and pe_c.def, of the LLVM code that the kit makes
                    for Linux on x86-64, changed as retarget.py says, since Windows is no target of the kit

A folder of a target has these files, and PROOF: the line of the log that says what was proved, and the SHA-256 of each of them, so
that nothing else counts as proved by its place; and for windows-x64 linux.a, the archive for Linux that the kit made of the same code.

One proof serves all. The kit keeps what it checked of a crate in the crate's out/incremental, whatever the target: the
first target that is built proves what has changed, and for each further one the kit says in its log that it checked no
module, `modules loaded=N checked=0`, which stands in PROOF too.

`rt lib` proves all crates below anew that it has not built itself in this folder or another one. Where `rt ci` has proved them under
the gate, its libraries serve too: with OVER_CI among the words tools/prove_changed puts them in place, and proves the others, and then
the kit's compiler proves pe_c over these libraries and makes the archive, with the flags that `rt lib` gives it."""

import contextlib
import hashlib
import os
import re
import resource
import shutil
import tempfile
import time

import header_files
from contents import bytes_of, copy, text_of, write
from header import TOP, Header
from limits import SECONDS, Failed, limited
from needs import GROUPS, MINGW, missing
from rooms import Crate, read_lines
from retarget import Compiler, compiled, edited

BINDINGS = os.path.join(TOP, "bindings")
SOURCES = os.path.join(BINDINGS, "targets")
CRATE = os.path.join(TOP, "crates", "pe_c")
BUILT = os.path.join(CRATE, "out", "libpe_c.a")
TRIPLES = {"linux-x64": "x86_64-unknown-linux-gnu", "linux-arm64": "aarch64-unknown-linux-gnu",
           "wasm": "wasm64-unknown-unknown", "windows-x64": "x86_64-pc-windows-gnu"}
# Those that have a folder beside the archive for Linux on x86-64.
OTHERS = [it for it in TRIPLES if it != "linux-x64"]
# The files that are shipped, of windows-x64 by the number of the ABI.
SHIPPED = {"linux-x64": ["libpe_c.a"], "linux-arm64": ["libpe_c.a"], "wasm": ["pe_c.wasm", "pe_c64.wasm"]}
# For every x86-64 processor.
CPU = ["--cpu", "x86-64"]
OVER_CI = "--over-ci"
# From nothing, on a busy machine.
SECONDS_TO_PROVE = 6 * 3600
# What the module uses beside a memory of 64 bits; engines have had it since 2021.
FEATURES = ["--enable-bulk-memory", "--enable-sign-ext", "--enable-mutable-globals", "--enable-nontrapping-float-to-int"]


def expect_there(what):
    """Fails where a program is missing that a build needs: of a target, or of plain C."""
    group = f"build-{what}"
    lacking = missing(group) if group in GROUPS else []
    if lacking:
        raise Failed(f"{what}: programs of the Debian packages {', '.join(lacking)} are missing: ./setup {group} installs them")


def run(words, seconds=SECONDS, **more):
    """The output of a command, or Failed, also where it does not end in these seconds."""
    done = limited(words, seconds, merged=True, **more)
    said = done.stdout.decode("utf-8", "replace")
    if done.returncode != 0:
        raise Failed(f"{' '.join(words)}: status {done.returncode}: {said.strip()[-2000:]}")
    return said


def timed(action):
    """What an action returns, and the seconds that it takes: by the clock, and of a processor in the programs that it runs."""
    before, start = resource.getrusage(resource.RUSAGE_CHILDREN), time.monotonic()
    result = action()
    after = resource.getrusage(resource.RUSAGE_CHILDREN)
    return result, time.monotonic() - start, after.ru_utime + after.ru_stime - before.ru_utime - before.ru_stime


def find_rt():
    """The kit's command."""
    return run(["bash", "-c", '. tools/kit.sh && readlink -f -- "$RT"'], cwd=TOP).strip()


# ---- the library, of proved crates

@contextlib.contextmanager
def kit_that_keeps(rt, code):
    """A kit, made of links to another, whose compiler keeps a copy of the code that it compiles last. Yields its command."""
    kit = os.path.dirname(os.path.dirname(rt))
    with tempfile.TemporaryDirectory() as above:
        # what the kit keeps beside its folder goes with it
        room = os.path.join(above, "kit")
        for part in ("", "bin", "toolchain", "toolchain/bin"):
            os.makedirs(os.path.join(room, part), exist_ok=True)
            for name in os.listdir(os.path.join(kit, part)):
                target = os.path.join(room, part, name)
                # the kit's command takes the folder that it stands in for the kit
                if name.startswith("rt") and part == "bin":
                    shutil.copy2(os.path.join(kit, part, name), target)
                elif os.path.join(part, name) not in ("bin", "toolchain", "toolchain/bin", "toolchain/bin/clang"):
                    os.symlink(os.path.join(kit, part, name), target)
        script = os.path.join(room, "toolchain/bin/clang")
        write(f'#!/bin/sh\nfor word in "$@"; do\n  case $word in *.bc) cp -- "$word" "{code}" ;; esac\ndone\n'
                   f'exec "{kit}/toolchain/bin/clang" "$@"\n', script)
        os.chmod(script, 0o755)
        yield os.path.join(room, "bin", "rt")


# Runs a command whose lines come on standard error too, by the number of its copy, as they are said.
LOUD = """set -o pipefail; heard=$1; shift
"$@" 2>&1 | while IFS= read -r line; do printf '%s\\n' "$line"; printf '%s\\n' "$line" >&"$heard"; done"""


def run_loud(words, seconds, **more):
    """The output of a command of minutes, which is shown as it comes."""
    heard = os.dup(2)
    try:
        return run(["bash", "-c", LOUD, "bash", str(heard), *words], seconds, pass_fds=(heard,), **more)
    finally:
        os.close(heard)


def prove_below():
    """Has the libraries proved that pe_c rests on, but for those that were proved on this machine as they are."""
    said = run_loud([os.path.join(TOP, "tools", "prove_changed"), "--below", "pe_c"], SECONDS_TO_PROVE)
    if not re.search(r"^\d+ passed, 0 failed$", said, re.M):
        raise Failed(f"not all crates are proved: {said[-2000:]}")


def over_ci(rt, words):
    """The command that makes the archive over the libraries that prove_below put in place."""
    kit = os.path.dirname(os.path.dirname(rt))
    own = Crate(TOP, "pe_c", read_lines(TOP)).words(kit)[1:]
    jobs = [] if "--jobs" in words else ["--jobs", str(len(os.sched_getaffinity(0)))]
    kept = ["--incremental", os.path.join(CRATE, "out", "incremental"), "--toolchain", f"{kit}/toolchain"]
    return [f"{kit}/bin/rattle", "build", *own, *jobs, *kept, "-o", BUILT, *(it for it in words if it != OVER_CI)]


def archive_of_kit(rt, out, words):
    """Proves what has changed of the crates, and writes the archive, by `rt lib` or over `rt ci`. The archive for Linux on x86-64
    stays as it is, unless it is the one that is written. Returns the lines of the log that say what was proved, and how much of it in
    this run."""
    kept = f"{BUILT}.kept"
    if os.path.exists(BUILT):
        os.replace(BUILT, kept)
    try:
        command = over_ci(rt, words) if OVER_CI in words else [rt, "lib", *words]
        said = run_loud(command, SECONDS_TO_PROVE, cwd=CRATE)
        proofs = re.findall(r"^logic=proved .*", said, re.M)
        if not proofs:
            raise Failed(f"no proof of pe_c: {said[-2000:]}")
        if out == BUILT:
            with contextlib.suppress(FileNotFoundError):
                os.remove(kept)
        else:
            shutil.move(BUILT, out)
    finally:
        if os.path.exists(kept):
            os.replace(kept, BUILT)
    return "\n".join([proofs[-1], *re.findall(r"^crate pe_c: modules loaded=\d+ checked=\d+$", said, re.M)[-1:]])


# ---- the library, of code

def archive_of_code(target, text, out, level="-O2"):
    """Writes the archive of the target, of LLVM code. The kit compiles what is proved at -O3."""
    compiler = Compiler(find_rt())
    folder = os.path.dirname(out)
    piece = os.path.join(folder, "calls.o")
    flags = [level, *{"linux-arm64": ["-fPIC"], "wasm": ["-mbulk-memory"], "windows-x64": []}[target]]
    if target == "wasm":
        # what the kit's linker exports
        text = edited(text, r"^(define .*@(pe_c_\w+)\(.*\) #\d+) \{", r'\1 "wasm-export-name"="\2" {')
    compiled(compiler, text, TRIPLES[target], piece, flags)
    pieces = [piece]
    if target == "windows-x64":
        pieces.append(os.path.join(folder, "chkstk.o"))
        source = os.path.join(SOURCES, "windows", "chkstk.S")
        run([compiler.tool("clang"), f"--target={TRIPLES[target]}", "-c", source, "-o", pieces[1]])
    with contextlib.suppress(FileNotFoundError):
        os.remove(out)
    run([compiler.tool("llvm-ar"), "rcsD", out, *pieces])
    for it in pieces:
        os.remove(it)


# ---- the other files of a target

def lowered(module, out):
    """Writes the module with a memory of 32 bits in place of 64. Pointers and lengths stay numbers of 64 bits at its calls."""
    run(["wasm-opt", "--enable-memory64", *FEATURES, "--memory64-lowering", module, "-o", out])


def finish_wasm(folder):
    kit = os.path.dirname(os.path.dirname(find_rt()))
    archive, module = (os.path.join(folder, it) for it in ("libpe_c.a", "pe_c64.wasm"))
    run([os.path.join(kit, "bin", "rattle-link"), "--target", TRIPLES["wasm"], "--toolchain", os.path.join(kit, "toolchain"),
         "-o", module, archive])
    lowered(module, os.path.join(folder, "pe_c.wasm"))
    os.remove(archive)


def write_resource(path, header):
    """The script of the DLL's version resource."""
    text = text_of(SOURCES, "windows", "pe_c.rc.in")
    numbers = (header.version.split(".") + ["0"] * 4)[:4]
    for name, value in (("VERSION", header.version), ("COMMAS", ",".join(numbers)), ("ABI", str(header.abi))):
        text = text.replace(f"@{name}@", value)
    write(text, path)


def link_dll(folder, dll, objects):
    """Links a DLL that exports the calls of pe.h: reproducibly, without start-up code, for any base."""
    exports = os.path.join(folder, "pe_c.def")
    flags = "-Wl,--no-insert-timestamp,--image-base,0x180000000,--dynamicbase,--nxcompat,--high-entropy-va"
    run([f"{MINGW}-gcc", "-shared", "-s", "-nostartfiles", "-o", dll, *objects, exports, flags, "-lmsvcrt"], cwd=folder)


def finish_windows(folder):
    header = Header()
    header_files.make(folder, header, ["pe_c.def"])
    dll = f"pe_c-{header.abi}.dll"
    with tempfile.TemporaryDirectory() as room:
        pieces = [os.path.join(room, it) for it in ("dll.o", "version.o")]
        source = os.path.join(SOURCES, "windows", "dll.c")
        run([f"{MINGW}-gcc", "-O2", "-Wall", "-Wextra", "-Werror", "-c", source, "-o", pieces[0]])
        write_resource(os.path.join(room, "pe_c.rc"), header)
        run([f"{MINGW}-windres", os.path.join(room, "pe_c.rc"), pieces[1]])
        archive = ["-Wl,--whole-archive", os.path.join(folder, "libpe_c.a"), "-Wl,--no-whole-archive"]
        link_dll(folder, os.path.join(folder, dll), [*pieces, *archive])
    exports = os.path.join(folder, "pe_c.def")
    # short import libraries, which mingw's linker takes too; its own dlltool makes other bytes each time
    for library in ("libpe_c.dll.a", "pe_c.lib"):
        run(["llvm-dlltool", "-m", "i386:x86-64", "-d", exports, "-D", dll, "-l", os.path.join(folder, library)])


FINISH = {"linux-x64": lambda folder: None, "linux-arm64": lambda folder: None, "wasm": finish_wasm, "windows-x64": finish_windows}


def build(target, folder, code=None, words=()):
    """Builds the files of a target into a folder: of proved crates, by `rt lib` with these words more, or of the text
    of LLVM code, which is not proved. Returns the lines that say what was proved, or "not proved"."""
    expect_there(target)
    folder = os.path.realpath(folder)
    if OVER_CI in words:
        prove_below()
    os.makedirs(folder, exist_ok=True)
    archive = os.path.join(folder, "libpe_c.a")
    proof = "not proved"
    if code is None and target == "windows-x64":
        kept = os.path.join(folder, "module.bc")
        rt = find_rt()
        with kit_that_keeps(rt, kept) as own:
            proof = archive_of_kit(own, os.path.join(folder, "linux.a"), [*CPU, *words])
        archive_of_code(target, Compiler(rt).text(kept), archive, "-O3")
        os.remove(kept)
    elif code is None:
        own = CPU if target == "linux-x64" else ["--target", TRIPLES[target]]
        proof = archive_of_kit(find_rt(), archive, [*own, *words])
    else:
        archive_of_code(target, code, archive)
    FINISH[target](folder)
    sums = (f"sha256 {name} {sha256_of(os.path.join(folder, name))}" for name in files_of(target))
    write("".join(f"{it}\n" for it in (proof, *sums)), folder, "PROOF")
    return proof


# ---- what was proved

PROVED, NOT_PROVED = "is proved to return what its definition says for every byte string", "is not proved here"


def files_of(target):
    """The files of a target's folder that are shipped."""
    return SHIPPED.get(target) or [f"pe_c-{Header().abi}.dll", "libpe_c.a", "libpe_c.dll.a", "pe_c.lib", "pe_c.def"]


def sha256_of(path):
    return hashlib.sha256(bytes_of(path)).hexdigest()


def proof_lines(folder):
    """The lines of PROOF in the folder of a target. It fails where a file is another than the one that they speak of."""
    path = os.path.join(folder, "PROOF")
    if not os.path.exists(path):
        raise Failed(f"{path} is missing, which says what was proved: build it anew")
    lines = text_of(path).strip().split("\n")
    sums = [it.split(" ") for it in lines if it.startswith("sha256 ")]
    for _, name, digest in sums:
        if sha256_of(os.path.join(folder, name)) != digest:
            raise Failed(f"{os.path.join(folder, name)} is not the file of which PROOF beside it speaks: build it anew")
    if not sums:
        raise Failed(f"{path} names no file: build it anew")
    return lines


def proof_of(folder):
    """What is said of the proof of a target's library, by its file PROOF."""
    return PROVED if proof_lines(folder)[0].startswith("logic=proved ") else NOT_PROVED


# ---- plain C

# What the module's C needs of wasm2c. Its header stands in a folder, since portable/wasm-rt.h comes before it.
WASM2C = {"wasm2c/wasm-rt.h": "/usr/include/wasm-rt.h", "wasm-rt-impl.c": "/usr/share/wabt/wasm2c/wasm-rt-impl.c",
          "wasm-rt-impl.h": "/usr/share/wabt/wasm2c/wasm-rt-impl.h"}

PORTABLE = """The library pe_c, compiled to WebAssembly and translated to C by wasm2c: for systems that it is not compiled for, 64-bit
little-endian ones with a compiler of GNU C11. Its calls are those of pe.h; pe_portable.h says what is different.

The library's code @PROOF@. No proof covers the compilation to WebAssembly, binaryen's lowering of the module's memory to
32 bits, the translation by wasm2c, its run-time (wasm-rt-impl.c), what copies arguments in and out (pe_portable.c, room.c) or the C
compiler.

    cc -std=gnu11 -O2 -c module.c pe_portable.c room.c wasm-rt-impl.c
    ar rcs libpe_portable.a module.o pe_portable.o room.o wasm-rt-impl.o

A program includes pe_portable.h, or pe.h, and links with -lpe_portable -lm. Each access to the module's memory is tested, and one beyond
it ends the program: what the library does wrong there reaches no other memory. Any thread may call at any time.
"""


def make_portable(wasm, folder):
    """Writes the C that wasm2c makes of the module of a folder, the calls of pe.h over it, and what both need, into another folder."""
    expect_there("portable")
    os.makedirs(folder, exist_ok=True)
    run(["wasm2c", os.path.realpath(os.path.join(wasm, "pe_c.wasm")), "-n", "pe_c", "-o", "module.c"], cwd=folder)
    own = {it: os.path.join(SOURCES, "portable", it) for it in os.listdir(os.path.join(SOURCES, "portable"))}
    for name, path in {**WASM2C, **own, "pe.h": os.path.join(BINDINGS, "pe.h")}.items():
        copy(path, folder, name)
    header_files.make(folder, Header(), ["pe_portable.c"])
    write(PORTABLE.replace("@PROOF@", proof_of(wasm)), folder, "README")


def build_all(folder, words=(), say=print):
    """Builds every target, each into a folder of its own, of one proof. Says of each what was proved and what it took. The
    code that is compiled for Windows has to be that of the archive for Linux."""
    for target in TRIPLES:
        proof, clock, spent = timed(lambda: build(target, os.path.join(folder, target), None, words))
        say(f"{target}: {clock:.0f} s by the clock, {spent:.0f} s of a processor\n{proof}")
    check_code(os.path.join(folder, "linux-x64", "libpe_c.a"), os.path.join(folder, "windows-x64"))


def check_code(archive, windows):
    """Fails where the archive is not the one that the kit made of the code that was compiled for Windows."""
    if bytes_of(archive) != bytes_of(windows, "linux.a"):
        raise Failed(f"{windows} is not of the code of {archive}: build both anew")
