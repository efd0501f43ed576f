"""What the commands and the steps of the gate need beside the kit: the one table of programs and of the packages that have them.
./setup is its command line."""

import collections
import glob
import os
import re
import shutil
import signal
import subprocess
import sys
import time

# ---- the table

# The first package that a system has, with this version or a later one, is taken. Debian 12 has a cargo of 2022 and its cargo-web,
# Ubuntu 24.04 one of 2024 and later ones by their versions.
CARGO, RUSTC = ((name, f"{name}-web", *(f"{name}-1.{it}" for it in (89, 85))) for name in ("cargo", "rustc"))
# The feature serde of the cargo crate: cargo looks for what it depends on also without it.
SERDE = {"crate serde-1": "librust-serde-dev", "crate serde_derive-1": "librust-serde-derive-dev",
         "crate serde_json-1": "librust-serde-json-dev"}
RUST = {"cargo 1.85": CARGO, "rustc 1.85": RUSTC, "cc": "gcc", "libc.a of cc": "libc6-dev", **SERDE}
CRATES = {"crate clap-4": "librust-clap-dev", "crate clap_complete-4": "librust-clap-complete-dev", "crate chrono-0.4": "librust-chrono-dev",
          "crate csv-1": "librust-csv-dev", "crate cpp_demangle-0.4": "librust-cpp-demangle-dev",
          "crate rustc-demangle-0.1": "librust-rustc-demangle-dev", "crate indicatif-0.17": "librust-indicatif-dev",
          "crate libc-0.2": "librust-libc-dev", "crate md-": "librust-md-5-dev", "crate rayon-1": "librust-rayon-dev",
          "crate sha1-": "librust-sha1-dev", "crate sha2-": "librust-sha2-dev",
          "crate openssl-0.10": "librust-openssl-dev", "libcrypto.a of cc": "libssl-dev", "pkg-config": "pkg-config"}
SCROLL = {"crate scroll-0.": "librust-scroll-dev", "crate scroll_derive-0.": "librust-scroll-derive-dev",
          "crate goblin-0.2": "librust-goblin-dev"}
# That very version. Debian 12 has it without its security updates, Ubuntu 24.04 beside others, and `rustup toolchain install 1.85` anywhere.
OLDEST = "rustc =1.85"
MINGW = "x86_64-w64-mingw32"
# Its program wine speaks of what is missing of 32 bits.
WINE = shutil.which("wine64") or "/usr/lib/wine/wine64"
WASM = {"wasm-opt": "binaryen"}
WINDOWS = {f"{MINGW}-gcc": "gcc-mingw-w64-x86-64-win32", f"{MINGW}-windres": "binutils-mingw-w64-x86-64", "llvm-dlltool": "llvm"}
TRIAL = {"cc": "gcc", "libc.a of cc": "libc6-dev", "rustc 1.85": RUSTC, "cargo 1.85": CARGO}

Group = collections.namedtuple("Group", "about needs is_of_gate")


def of_gate(about, **needs):
    return Group(about, needs, True)


def by_hand(about, **needs):
    return Group(about, needs, False)


# What a need is: a command, and its lowest version; a library that a compiler finds; a module of Debian's Python; a crate of Debian's
# packages; a file.
GROUPS = {
    "kit": of_gate("the kit's commands", **{"python3": "python3"}),
    "pe": of_gate("./pe", **RUST, **CRATES),
    "verify": of_gate("signatures that osslsigncode makes, by pe verify", **{"osslsigncode": "osslsigncode", "openssl": "openssl"}),
    "documents": of_gate("files and commits that the documents name", **{"git": "git"}),
    "callers": of_gate("the callers of the library for C", **RUST, **{
        "gcc": "gcc", "g++": "g++", "clang": "clang", "clang++": "clang", "nm": "binutils", "objdump": "binutils", "readelf": "binutils",
        "make": "make"}),
    "pe-tests": of_gate("what pe opens, its man page, and queries over its JSON",
                        **{"strace": "strace", "groff": "groff-base", "jq": "jq", "sqlite3": "sqlite3"}),
    "goblin": of_gate("bindings/goblin", **SCROLL),
    "oldest": by_hand("the crates by the Rust that they declare", **{OLDEST: ("rustc-1.85", "rustc-web")}, **RUST, **CRATES, **SCROLL),
    "cmake": of_gate("a project of CMake", **{"cmake": "cmake"}),
    "python": of_gate("the Python module", **{"/usr/include/python3.*/Python.h": "python3-dev", "module setuptools": "python3-setuptools",
                                              "module wheel": "python3-wheel"}),
    "wheel": of_gate("the wheel in an empty venv", **{"module build": "python3-build", "module pip": "python3-pip"}),
    "dask": of_gate("the Python module over a cluster, and with pandas",
                    **{"module distributed": "python3-distributed", "module pandas": "python3-pandas"}),
    "jsonschema": of_gate("the schema of pe's JSON", **{"module jsonschema": "python3-jsonschema"}),
    "pefile": of_gate("the values of the Python module beside pefile's", **{"module pefile": "python3-pefile"}),
    "scripts": by_hand("programs over pefile as they are", **{
        "module pefile": "python3-pefile", "module icoextract": "python3-icoextract",
        "/usr/share/games/renpy/launcher/game/change_icon.py": "renpy"}),
    "mypy": of_gate("the types of the Python module", **{"module mypy": "mypy"}),
    "linux-arm64": of_gate("the library for linux-arm64", **TRIAL, **{
        "aarch64-linux-gnu-gcc": "gcc-aarch64-linux-gnu", "libc.a of aarch64-linux-gnu-gcc": "libc6-dev-arm64-cross",
        "qemu-aarch64": "qemu-user"}),
    "wasm": of_gate("the library for wasm", **TRIAL, **WASM, **{"node": "nodejs", "clang": "clang"}),
    "windows-x64": of_gate("the library for windows-x64", **TRIAL, **WINDOWS, **{
        WINE: "wine64", "clang": "clang", "lld-link": "lld", "objcopy": "binutils", "ld": "binutils"}),
    "js": of_gate("the npm package", **WASM, **{"node": "nodejs", "npm": "npm", "rustc 1.85": RUSTC}),
    "types": of_gate("the types of the npm package", **{"tsc": "node-typescript"}),
    "build-wasm": by_hand("a build for wasm", **WASM),
    "build-windows-x64": by_hand("a build for windows-x64", **WINDOWS),
    "clippy": by_hand("cargo clippy", **{"cargo-clippy": "rust-clippy"}),
    "page": by_hand("the page in Chromium", **{"node": "nodejs", "chromium": "chromium", "rustc 1.85": RUSTC}),
    "pictures": by_hand("pictures of pe", **{"module rich": "python3-rich"}),
    "pdb": by_hand("names and lines of pe by PDB files",
                   **{"clang": "clang", "lld-link": "lld", "ld.lld": "lld", "llvm-pdbutil": "llvm"}),
    "symbolizer": by_hand("frames of pe by PDB files beside llvm-symbolizer", **{"llvm-symbolizer-19": "llvm-19"}),
    "readers": by_hand("exception data, names of functions and dumps by other readers", **{
        "llvm-readobj": "llvm", "obj2yaml": "llvm", "module yaml": "python3-yaml", f"{MINGW}-objdump": "binutils-mingw-w64-x86-64"}),
    "clr": by_hand("CLR headers by mono", **{"pedump": "mono-utils", "monodis": "mono-utils"}),
    "packages": by_hand("packages on bare trees", **{
        "mmdebstrap": "mmdebstrap", "unshare": "util-linux", "rpm2cpio": "rpm2cpio", "cpio": "cpio", "module ensurepip": "python3-venv",
        "npm": "npm", "node": "nodejs", "chromium": "chromium", "rustc 1.85": RUSTC, WINE: "wine64", "gcc": "gcc", "clang": "clang"}),
    "breakpad": by_hand("symbol files of pe by LLDB", **{"clang": "clang", "lld-link": "lld", "lldb-19": "lldb-19",
                                                         "yaml2obj-14": "llvm-14"}),
    "arm64-dumps": by_hand("ARM64 dumps by pe", **{"clang": "clang", "lld-link": "lld", "yaml2obj-14": "llvm-14"}),
    "notebook": by_hand("notebooks", **{"chromium": "chromium", "jupyter-nbconvert": "jupyter-nbconvert",
                                        "module ipykernel": "python3-ipykernel"}),
    "dumps": by_hand("dumps of programs that crash", **{
        f"{MINGW}-gcc": "gcc-mingw-w64-x86-64-win32", WINE: "wine64", "clang": "clang", "ld.lld": "lld"}),
    "emulator": by_hand("steps and walks at the states of an emulator", **{
        "module unicorn": "python3-unicorn", "module capstone": "python3-capstone", "cc": "gcc", "clang": "clang", "lld-link": "lld"}),
    "portable": by_hand("plain C", **TRIAL, **WASM, **{"node": "nodejs", "clang": "clang", "wasm2c": "wabt"}),
    "build-portable": by_hand("a build of plain C", **{"wasm2c": "wabt"}),
}
# What else ./setup can be asked for.
SETS = {"gate": [name for name, group in GROUPS.items() if group.is_of_gate], "fast": ["kit", "documents"]}
SETUP = os.path.join(os.path.dirname(os.path.dirname(os.path.realpath(__file__))), "setup")
# Debian's Python, and the crates of its packages.
PYTHON, DEBIAN_CRATES = "/usr/bin/python3", "/usr/share/cargo/registry"

# ---- what is there


def version_of(text):
    """The first version in a text, as numbers."""
    return tuple(map(int, re.search(r"(\d+)\.(\d+)", text).groups()))


def said_by(*words):
    """What a command prints; nothing where there is none, or it fails."""
    try:
        plain = {**os.environ, "LC_ALL": "C"}
        return subprocess.run(words, stdin=subprocess.DEVNULL, stdout=subprocess.PIPE, stderr=subprocess.DEVNULL, text=True, env=plain).stdout
    except OSError:
        return ""


def fits(version, wanted):
    """Whether the version in a text is that version, or without a sign before it no older one."""
    return version_of(version) == version_of(wanted) if wanted.startswith("=") else version_of(version) >= version_of(wanted)


def find_command(need):
    """The path of a command of the version that is needed. Ubuntu's later versions of cargo are not on PATH, nor are all of rustup's."""
    name, _, wanted = need.partition(" ")
    if not wanted:
        return shutil.which(name)
    more = sorted(glob.glob(f"/usr/lib/rust-1.*/bin/{name}"), key=version_of, reverse=True)
    if wanted.startswith("="):
        more += [f"/usr/bin/{name}", *glob.glob(os.path.expanduser(f"~/.rustup/toolchains/{wanted[1:]}*/bin/{name}"))]
    for path in filter(None, [shutil.which(name), *more]):
        said = said_by(path, "--version")
        if re.search(r"\d+\.\d+", said) and fits(said, wanted):
            return path
    return None


def is_there(need, modules):
    if need.startswith("module "):
        return need[7:] not in modules
    if need.startswith("crate "):
        return bool(glob.glob(f"{DEBIAN_CRATES}/{need[6:]}*"))
    if " of " in need:
        library, _, compiler = need.partition(" of ")
        return said_by(compiler, f"-print-file-name={library}").startswith("/")
    return bool(glob.glob(need)) if need.startswith("/") else find_command(need) is not None


def lacking(*groups):
    """What of these groups is missing: each need, with its packages."""
    needs = {need: packages for name in groups for need, packages in GROUPS[name].needs.items()}
    modules = [it[7:] for it in needs if it.startswith("module ")]
    ask = "import importlib.util as it, sys; print(*[name for name in sys.argv[1:] if not it.find_spec(name)])"
    if modules and os.access(PYTHON, os.X_OK):
        modules = said_by(PYTHON, "-c", ask, *modules).split()
    return {need: packages for need, packages in needs.items() if not is_there(need, modules)}


def missing(*groups):
    """The packages that these groups need and that are not there, each by its first name."""
    return sorted({of_names(packages)[0] for packages in lacking(*groups).values()})


def of_names(packages):
    return (packages,) if isinstance(packages, str) else packages


def is_left_out(tool, name, hear=lambda line: None):
    """Whether a step cannot be tried here, and says so in a line. The gate counts these, but for what is tried by hand."""
    packages = missing(name)
    if packages:
        how = "left out, for want of" if GROUPS[name].is_of_gate else "not tried, which is by hand, and needs"
        line = f"{tool}: {GROUPS[name].about}: {how} {', '.join(packages)}"
        print(line, flush=True)
        hear(line)
    return bool(packages)


def stops(tool, *groups):
    """Whether a tool cannot run here, and says so."""
    packages = missing(*groups)
    if packages:
        print(f"{tool}: missing, of Debian: {', '.join(packages)}: ./setup {' '.join(groups)} installs it", file=sys.stderr)
    return bool(packages)


# ---- setting up

def has_apt():
    return shutil.which("apt-get") is not None


def as_root(words):
    return words if os.geteuid() == 0 else ["sudo", *words]


def have_lists():
    """Gets apt's lists of packages, where they are missing or older than a day."""
    folder = "/var/lib/apt/lists"
    times = [os.path.getmtime(it) for it in (folder, f"{folder}/partial") if os.path.exists(it)]
    if not glob.glob(f"{folder}/*Packages*") or time.time() - max(times, default=0) > 24 * 3600:
        why = apt_get("update")
        if why:
            print(f"setup: apt-get update failed: {why}", file=sys.stderr)


def apt_get(*words):
    """Runs apt-get. Returns why it failed, or nothing."""
    options = ("Dpkg::Use-Pty=0", "DPkg::Lock::Timeout=300", "Acquire::http::Timeout=30", "APT::Update::Error-Mode=any")
    words = ["apt-get", "-qq", "-y", *(f"-o={it}" for it in options), *words]
    done = subprocess.run(as_root(["env", "DEBIAN_FRONTEND=noninteractive", *words]), stdin=subprocess.DEVNULL, stdout=subprocess.PIPE,
                          stderr=subprocess.STDOUT, text=True, errors="replace")
    lines = [it for it in done.stdout.split("\n") if it.startswith("E: ")] or done.stdout.strip().split("\n")
    return "; ".join(lines[:3]) or f"status {done.returncode}" if done.returncode else ""


def chosen(needs):
    """The packages that this system has for these needs, and the needs that it has none for."""
    names = sorted({name for packages in needs.values() for name in of_names(packages)})
    said = said_by("apt-cache", "policy", *names)
    versions = dict(re.findall(r"^(\S+):\n(?:.*\n)?  Candidate: (?!\(none\))(?:\d+:)?(\S+)", said, re.M))
    packages, without = set(), []
    for need, names in needs.items():
        wanted = need.split(" ")[1] if re.fullmatch(r"\S+ =?[\d.]+", need) else ""
        found = [it for it in of_names(names) if it in versions and (not wanted or fits(versions[it], wanted))]
        packages.update(found[:1])
        without += [] if found else [need]
    return sorted(packages), without


def install(groups):
    """Installs what the groups lack. What apt-get refuses is tried once more, each group by itself, and named."""
    have_lists()
    packages, without = chosen(lacking(*groups))
    for need in without:
        print(f"setup: no package of this system has {need}", file=sys.stderr)
    if not packages:
        return
    print(f"setup: apt-get install --no-install-recommends {' '.join(packages)}", file=sys.stderr, flush=True)
    begun = time.monotonic()
    why = apt_get("install", "--no-install-recommends", *packages)
    if why:
        print(f"setup: apt-get failed: {why}: once more, after apt-get update", file=sys.stderr, flush=True)
        why = apt_get("update")
        if why:
            print(f"setup: apt-get update failed: {why}", file=sys.stderr)
        for name in [] if why else groups:
            packages = chosen(lacking(name))[0]
            why = packages and apt_get("install", "--no-install-recommends", *packages)
            if why:
                print(f"setup: {name}: apt-get failed to install {' '.join(packages)}: {why}", file=sys.stderr)
    print(f"setup: {time.monotonic() - begun:.0f} s", file=sys.stderr, flush=True)


def in_words(needs):
    """Needs, in a line."""
    return ", ".join(f"{it} or later" if re.fullmatch(r"\S+ [\d.]+", it) else f"Debian's {it}" if it.startswith(("crate", "module")) else it
                     for it in needs)


def set_up(groups):
    """Installs what is missing, where that can be. Returns the status."""
    needs = lacking(*groups)
    if needs and has_apt() and (os.geteuid() == 0 or shutil.which("sudo")):
        install(groups)
        needs = lacking(*groups)
    elif needs and has_apt():
        print("setup: run it as root, or install sudo", file=sys.stderr)
    elif needs:
        print("setup: it installs packages of Debian and Ubuntu alone, by apt-get", file=sys.stderr)
    if needs:
        print(f"setup: missing: {in_words(needs)}", file=sys.stderr)
    return 1 if needs else 0


def before(what):
    """What ./pe and ./gate call. ./pe takes the crates of crates.io where Debian's are not there; the gate leaves out what it lacks where
    no set-up is wished, or apt-get has failed to install it."""
    groups = SETS.get(what, [what])
    needs, is_wished = lacking(*groups), not os.environ.get("PE_NO_SETUP")
    may_lack = what == "gate" and not is_wished
    if needs and is_wished and has_apt() and os.geteuid() == 0:
        set_up(groups)
        needs, may_lack = lacking(*groups), what == "gate"
    needs = [it for it in needs if not may_lack and not (what == "pe" and it.startswith("crate "))]
    if needs:
        how = f"run {'' if os.geteuid() == 0 else 'sudo '}{SETUP} {what}" if has_apt() else "install these"
        leave = ", or set PE_NO_SETUP=1 to leave out what needs them" if what == "gate" else ""
        print(f"{what}: missing: {in_words(needs)}: {how}{leave}", file=sys.stderr)
        return 1
    print(os.path.dirname(find_command("cargo 1.85") or ""))
    return 0


def list_all():
    """Prints the table, and what is missing."""
    for name, group in GROUPS.items():
        print(f"{name}: {group.about}{'' if group.is_of_gate else ' (by hand)'}")
        gone = lacking(name)
        for need, packages in group.needs.items():
            print(f"    {need:32} {' or '.join(of_names(packages))}{' (missing)' if need in gone else ''}")


def main(words):
    if words == ["--list"]:
        list_all()
        return 0
    if len(words) == 2 and words[0] == "--before" and words[1] in ("pe", *SETS):
        return before(words[1])
    groups = [name for it in words or ["gate"] for name in SETS.get(it, [it])]
    if any(it not in GROUPS for it in groups):
        print("setup: what it can set up is listed by ./setup --list, and gate for all that the gate needs", file=sys.stderr)
        return 2
    return set_up(groups)


if __name__ == "__main__":
    # Whoever reads the list may stop before its end, as `head` does.
    signal.signal(signal.SIGPIPE, signal.SIG_DFL)
    sys.exit(main(sys.argv[1:]))
