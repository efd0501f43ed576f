//! Finds libpe_c.a: in the folder that PE_C_FOLDER names; without that variable in crates/pe_c/out, where `rt lib` puts
//! it, or in the folder there that `make -C bindings TARGET=..` builds for another target, else where pkg-config finds pe_c.
//! Takes no archive of another ABI or version. Without one the crate compiles, so `cargo check`, `cargo doc` and editors need
//! none; a build ends with an error that says why.

use std::path::{Path, PathBuf};
use std::{env, fs, process};

/// The name that an archive of this ABI defines.
const ABI: &[u8] = b"pe_c_abi_5\0";
/// What a build looks at beside files.
const VARIABLES: [&str; 6] =
    ["PE_C_FOLDER", "PKG_CONFIG", "PKG_CONFIG_PATH", "PKG_CONFIG_LIBDIR", "PKG_CONFIG_SYSROOT_DIR", "DOCS_RS"];
const NO_ARCHIVE: &str = "there is no libpe_c.a: PE_C_FOLDER names its folder, or PKG_CONFIG_PATH that of pe_c.pc";
const NO_TARGET: &str = "there are archives for Linux on x86-64 and ARM64 and for Windows on x64";

/// The folder of an archive of this crate's version, or why there is none.
type Found = Result<PathBuf, String>;

/// Says why a build will end with an error, and has rustc say it there: as the name of a library that it does not find. A
/// warning alone is not shown of a crate that is not the user's own, and other ways end `cargo check` too.
fn refuse_to_link(why: &str) {
    println!("cargo:warning={why}");
    // In a name a colon stands before another name.
    println!("cargo:rustc-link-lib=static=pe_c ({})", why.replace(':', ","));
    // An archive may come wherever it is looked for: a file that never is there has this run again.
    println!("cargo:rerun-if-changed=no-archive");
}

/// What pkg-config says of the installed archive.
fn installed(question: &str) -> Option<String> {
    let command = env::var("PKG_CONFIG").unwrap_or_else(|_| "pkg-config".to_owned());
    let answer = process::Command::new(command).args([question, "pe_c"]).output().ok()?;
    let said = String::from_utf8(answer.stdout).ok()?;
    Some(said.trim().to_owned()).filter(|it| answer.status.success() && !it.is_empty())
}

/// The folder of the installed archive, whose version is this crate's.
fn installed_folder() -> Found {
    let (Some(folder), Some(version)) = (installed("--variable=libdir"), installed("--modversion")) else {
        return Err(NO_ARCHIVE.to_owned());
    };
    let ours = env!("CARGO_PKG_VERSION");
    match version == ours {
        true => Ok(PathBuf::from(folder)),
        false => Err(format!("pkg-config finds version {version} of pe_c, and this crate is {ours}: install it anew")),
    }
}

fn archive_of(folder: &Path) -> PathBuf {
    folder.join("libpe_c.a")
}

/// The folder of a target's archive below crates/pe_c/out.
fn folder_of(arch: &str, os: &str) -> Option<&'static str> {
    match (arch, os) {
        ("x86_64", "linux") => Some(""),
        ("aarch64", "linux") => Some("linux-arm64"),
        ("x86_64", "windows") => Some("windows-x64"),
        _ => None,
    }
}

/// Looks where an archive may be, in this order.
fn found(folder: &str) -> Found {
    if let Some(named) = env::var_os("PE_C_FOLDER") {
        return Ok(PathBuf::from(named));
    }
    let here = env::var("CARGO_MANIFEST_DIR").expect("cargo names the crate's folder");
    let built = Path::new(&here).join("../../crates/pe_c/out").join(folder);
    if archive_of(&built).is_file() {
        return Ok(built);
    }
    // An archive that is built later comes first.
    if let Some(above) = built.parent().filter(|it| it.is_dir()) {
        println!("cargo:rerun-if-changed={}", above.display());
    }
    installed_folder()
}

/// The archive for the target, of this crate's ABI.
fn archive(arch: &str, os: &str) -> Found {
    let archive = archive_of(&found(folder_of(arch, os).ok_or(NO_TARGET)?)?);
    let unread = |why| format!("{} is not read ({why}): PE_C_FOLDER names its folder", archive.display());
    let content = fs::read(&archive).map_err(unread)?;
    match content.windows(ABI.len()).any(|it| it == ABI) {
        true => Ok(archive),
        false => Err(format!("{} is of another ABI than this crate: build it anew", archive.display())),
    }
}

fn main() {
    for name in VARIABLES {
        println!("cargo:rerun-if-env-changed={name}");
    }
    // docs.rs builds documents alone.
    if env::var_os("DOCS_RS").is_some() {
        return;
    }
    let target = |part: &str| env::var(format!("CARGO_CFG_TARGET_{part}")).unwrap_or_default();
    let os = target("OS");
    let archive = match archive(&target("ARCH"), &os) {
        Ok(archive) => archive,
        Err(why) => return refuse_to_link(&why),
    };
    println!("cargo:rerun-if-changed={}", archive.display());
    println!("cargo:rustc-link-search=native={}", archive.parent().expect("it is in a folder").display());
    // An import library for MSVC may stand beside it, under the name that is looked for first.
    let kind = if os == "windows" { "static:+verbatim=libpe_c.a" } else { "static=pe_c" };
    println!("cargo:rustc-link-lib={kind}");
}
