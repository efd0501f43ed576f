"""The program pe for Windows on x64, which cargo builds over the library that tools/build_target makes for windows-x64.

It needs the standard library of Rust for x86_64-pc-windows-gnu, as rustup has it, or else its sources beside the compiler, as
Debian's rust-web-src has them: then cargo builds it too. The variable CARGO names the command, and RUSTC its compiler, where
they are not those on PATH."""

import glob
import json
import os

from contents import copy
from needs import DEBIAN_CRATES
from targets import BINDINGS, Failed, run

TARGET = "x86_64-pc-windows-gnu"


def compiler_says(*words):
    return run([os.environ.get("RUSTC", "rustc"), *words]).strip()


def sources_of_std():
    """The folder of the sources of Rust's library, or None where the library itself is there."""
    if glob.glob(os.path.join(compiler_says("--print", "target-libdir", "--target", TARGET), "libstd-*")):
        return None
    sources = os.path.join(compiler_says("--print", "sysroot"), "lib", "rustlib", "src", "rust", "library")
    if not os.path.isdir(sources):
        raise Failed(f"there is no standard library of Rust for {TARGET}, and no sources of it: `rustup target add {TARGET}`, or"
                     " Debian's rust-web-src")
    return sources


def copied(room):
    """The sources of the program and of the crate that it uses, as git has them, so that what cargo writes beside them, which
    crates it takes, is not left in the tree."""
    for name in ("pe", "rust"):
        for it in run(["git", "ls-files", name], cwd=BINDINGS).split("\n")[:-1]:
            copy(os.path.join(BINDINGS, it), room, it)
    return os.path.join(room, "pe")


def registry(room, sources):
    """A folder of the crates of Debian's packages and of those that Rust's library uses."""
    folder = os.path.join(room, "registry")
    os.mkdir(folder)
    for path in (*glob.glob(f"{DEBIAN_CRATES}/*"), *glob.glob(f"{sources}/vendor/*")):
        link = os.path.join(folder, os.path.basename(path))
        if not os.path.lexists(link):
            os.symlink(os.path.realpath(path), link)
    return ["--config", 'source.crates-io.replace-with = "here"', "--config", f"source.here.directory = {json.dumps(folder)}"]


def words_of(room, sources, debian):
    """The words of cargo. The folders of this machine and the time have no place in the program. It goes without OpenSSL, of which Debian
    has no archive for Windows."""
    names = {room: ".", os.path.expanduser("~"): "~"}
    if sources:
        names.update(dict.fromkeys((sources, os.path.realpath(sources)), "library"))
    flags = [f"--remap-path-prefix={path}={name}" for path, name in names.items()]
    flags += ["-C", "link-arg=-Wl,--no-insert-timestamp", "-C", "strip=symbols"]
    words = ["--config", f"target.{TARGET}.rustflags = {json.dumps(flags)}", "--target", TARGET, "--release", "--quiet", "--no-default-features"]
    if sources:
        words += ["-Z", "build-std=std,panic_abort"]
    return words + (["--offline", *registry(room, sources)] if debian and sources else debian)


def build(library, archive_text, room, debian, target_dir):
    """Builds the program over the library in a folder, with the crates of Debian's packages where `debian` has words for
    cargo, and returns its path."""
    cargo, sources, room = os.environ.get("CARGO", "cargo"), sources_of_std(), os.path.realpath(room)
    place = copied(room)
    environment = {**os.environ, "CARGO_TARGET_DIR": target_dir, "PE_C_FOLDER": library, "PE_ARCHIVE": archive_text}
    environment.pop("RUSTFLAGS", None)
    if sources:
        # for -Z; no crate of the program's asks for what is not stable
        environment["RUSTC_BOOTSTRAP"] = "1"
        # the crates are chosen before those of Rust's library are there too
        run([cargo, "generate-lockfile", *debian], cwd=place, env=environment)
    # Rust's library too
    run([cargo, "build", *words_of(room, sources, debian)], 3600, cwd=place, env=environment)
    return os.path.join(target_dir, TARGET, "release", "pe.exe")
