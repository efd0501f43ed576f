//! Hashes by which images are known. These are the program's own: of the image the library says what they cover.

use super::{both, hex_of, imports, ordinals};
use md5::Md5;
use pe_c::{Image, Import, Layout};
use serde::Serialize;
use sha1::Sha1;
use sha2::{Digest as _, Sha256};

#[derive(Clone, Debug, Serialize)]
pub struct Hashes {
    /// Of the file. Those by which older lists know it are left out of a summary.
    pub md5_hex: Option<String>,
    pub sha1_hex: Option<String>,
    pub sha256_hex: String,
    /// MD5 of the imports, `dll.function` in lower case, with commas between them, as pefile has it. Null without imports, and
    /// where an import is refused or is not UTF-8.
    pub imphash: Option<String>,
    /// What it is of: `lookup_tables`, or `address_tables` where a lookup table is unmapped, in whose place the address table stands.
    pub imphash_of: Option<&'static str>,
    /// MD5 of the Rich header without its key, as pefile has it. Null without one.
    pub rich_hash: Option<String>,
    /// SHA-256 of what an Authenticode signature covers. Null of a module in memory, and where headers have no room for one.
    pub authenticode_sha256_hex: Option<String>,
}

pub fn sha256_of(bytes: &[u8]) -> String {
    hex_of(&Sha256::digest(bytes))
}

/// Extensions that an imphash leaves out.
const EXTENSIONS: [&str; 3] = ["ocx", "sys", "dll"];
/// How many times the bytes of a file the names of imports may have: those of a hostile file may be shared.
const READINGS: usize = 16;

/// The DLL's name as an imphash has it.
fn stem_of(library: &str) -> &str {
    match library.rsplit_once('.') {
        Some((stem, extension)) if EXTENSIONS.contains(&extension) => stem,
        _ => library,
    }
}

fn function_of(library: &str, import: &Import<'_>) -> Option<String> {
    match import.name {
        Some(name) => Some(name.to_lowercase()),
        None => {
            let known = ordinals::name_of(library, import.ordinal).map(str::to_lowercase);
            Some(known.unwrap_or_else(|| format!("ord{}", import.ordinal)))
        }
    }
}

/// The hash, and what it is of.
fn imphash_of(image: &Image<'_>) -> Option<(String, &'static str)> {
    let (mut hash, mut left, mut is_first) = (Md5::new(), image.bytes().len().saturating_mul(READINGS), true);
    let mut of = "lookup_tables";
    for library in image.libraries().ok()? {
        let library = library.ok()?;
        if library.has_unmapped_list() {
            of = "address_tables";
        }
        let name = library.name.to_lowercase();
        for import in imports::functions_of(&library) {
            let text = format!("{}.{}", stem_of(&name), function_of(&name, &import.ok()?)?);
            left = left.checked_sub(text.len())?;
            if !is_first {
                hash.update(",");
            }
            hash.update(text);
            is_first = false;
        }
    }
    (!is_first).then(|| (hex_of(&hash.finalize()), of))
}

/// `DanS` and three numbers that are 0, and the entries: each a product and a build in one number, and a count.
fn rich_hash_of(image: &Image<'_>) -> Option<String> {
    let header = image.rich_header().ok()??;
    let mut hash = Md5::new();
    hash.update(b"DanS");
    hash.update([0; 12]);
    for entry in header.entries() {
        let entry = entry.ok()?;
        hash.update((u32::from(entry.product) << 16 | u32::from(entry.build)).to_le_bytes());
        hash.update(entry.count.to_le_bytes());
    }
    Some(hex_of(&hash.finalize()))
}

/// The Authenticode digest.
pub fn authenticode_of(image: &Image<'_>) -> Result<String, pe_c::Error> {
    let covered = image.digest_ranges()?;
    let mut hash = Sha256::new();
    covered.slices().for_each(|slice| hash.update(slice));
    hash.update(vec![0; covered.zeros()]);
    Ok(hex_of(&hash.finalize()))
}

impl Hashes {
    /// The imphash for text, with what it is of where that is not the lookup tables.
    pub fn shown_imphash(&self) -> Option<String> {
        let of = if self.imphash_of == Some("address_tables") { ", of address tables" } else { "" };
        self.imphash.as_ref().map(|it| format!("{it}{of}"))
    }
}

/// The hashes; where all are wanted the older ones of the file and the Authenticode digest too.
pub fn of(image: &Image<'_>, has_all: bool) -> Hashes {
    let has_digest = has_all && image.layout() == Layout::File;
    let digest = || if has_digest { authenticode_of(image).ok() } else { None };
    let older = || has_all.then(|| older_of(image.bytes())).unzip();
    let (sha256_hex, (authenticode_sha256_hex, (md5_hex, sha1_hex))) =
        both(image, || sha256_of(image.bytes()), || both(image, digest, older));
    let (imphash, imphash_of) = imphash_of(image).unzip();
    let rich_hash = rich_hash_of(image);
    Hashes { md5_hex, sha1_hex, sha256_hex, imphash, imphash_of, rich_hash, authenticode_sha256_hex }
}

/// MD5 and SHA-1.
fn older_of(bytes: &[u8]) -> (String, String) {
    (hex_of(&Md5::digest(bytes)), hex_of(&Sha1::digest(bytes)))
}

/// The hash of a file that is no image.
pub fn of_bytes(bytes: &[u8]) -> Hashes {
    let (md5_hex, sha1_hex) = Some(older_of(bytes)).unzip();
    Hashes {
        md5_hex,
        sha1_hex,
        sha256_hex: sha256_of(bytes),
        imphash: None,
        imphash_of: None,
        rich_hash: None,
        authenticode_sha256_hex: None,
    }
}

#[cfg(test)]
mod tests {
    use super::*;

    #[test]
    fn extensions_of_three_kinds_are_left_out() {
        let stems = ["kernel32.dll", "a.drv", "b.ocx", "c.d.sys", "dll", ".dll"].map(stem_of);
        assert_eq!(stems, ["kernel32", "a.drv", "b", "c.d", "dll", ""]);
    }
}
