//! `pe key --missing`: which images and PDB files of a minidump's modules are not found, as a symbol server spells them. An image
//! is looked for as `pe stack` looks for it, and both in folders that are laid out as symbol servers are. The folders are listed once,
//! and what stands in the dump is compared with the lists: no path of it is opened.

use super::told::Module;
use super::{told, Asked, Known, Places, SymbolFolders};
use crate::escape::escaped;
use crate::facts::{counted, entry, List, Origin, Part, Refusal};
use crate::files;
use crate::page::{Page, Style};
use crate::Status;
use serde::Serialize;
use std::collections::BTreeSet;
use std::io::{self, Write};
use std::path::{Path, PathBuf};

/// How many parts a path on a symbol server has: NAME/KEY/NAME.
const PARTS: usize = 3;

/// What has no path, and why.
const WITHOUT_PATH: [(&str, &str, &str); 2] = [
    ("no image", "image", "the dump has no file's name of them"),
    ("no PDB", "PDB", "the dump names no PDB of version 7.0 with a file's name"),
];

/// What is below the folders that the user names.
pub struct Stores {
    places: Places,
    /// The paths NAME/KEY/NAME, in lower case.
    paths: BTreeSet<String>,
}

impl Stores {
    /// A folder below them that cannot be listed is said: what stands in it counts as missing.
    pub fn below(images: &[PathBuf], symbols: &[PathBuf]) -> Stores {
        let (mut paths, mut of_images) = (BTreeSet::new(), Vec::new());
        for folder in images {
            let below = files::below(folder);
            paths.extend(below.iter().filter_map(|it| store_path(it, folder)));
            of_images.extend(below);
        }
        for folder in symbols {
            let (folders, files): (Vec<_>, Vec<_>) = files::below(folder).into_iter().partition(|it| it.is_dir());
            folders.iter().for_each(|it| files::say_unlisted(it));
            paths.extend(files.iter().filter_map(|it| store_path(it, folder)));
        }
        Stores { paths, places: Places { images: Known::of(of_images, images), symbols: SymbolFolders::none() } }
    }

    fn has(&self, path: &str) -> bool {
        self.paths.contains(&path.to_lowercase())
    }
}

/// The last parts of a file's path below a folder, if it has so many.
fn store_path(path: &Path, folder: &Path) -> Option<String> {
    let parts: Vec<String> =
        path.strip_prefix(folder).ok()?.iter().map(|it| it.to_string_lossy().to_lowercase()).collect();
    Some(parts.get(parts.len().checked_sub(PARTS)?..)?.join("/"))
}

/// What is not found.
#[derive(Debug, Serialize)]
struct Wanted {
    /// `image`, `PDB`.
    kind: &'static str,
    /// The first module that needs it.
    module: Option<String>,
    base_va: u64,
    /// Null where the dump does not say it.
    symbol_server_path: Option<String>,
}
entry!(Wanted, "missing");

#[derive(Debug, Serialize)]
struct Missing {
    #[serde(flatten)]
    origin: Origin,
    /// How many modules the dump has; null where their list is absent or refused.
    modules: Option<usize>,
    /// Each path once, in the order of the modules.
    #[serde(flatten)]
    missing: Part<List<Wanted>>,
    /// Why the dump is refused whole.
    error: Option<Refusal>,
}

/// What a module needs and is not found.
fn needs_of(module: &Module, stores: &Stores) -> Vec<Wanted> {
    let wanted = |kind: &'static str, path: &Option<String>| Wanted {
        kind,
        module: module.name.clone(),
        base_va: module.base_va,
        symbol_server_path: path.clone(),
    };
    let is_there = |path: &Option<String>| path.as_ref().is_some_and(|it| stores.has(it));
    let has_image = matches!(module.image, Some("memory" | "file")) || is_there(&module.symbol_server_path);
    let image = (!has_image).then(|| wanted("image", &module.symbol_server_path));
    let pdb = (!is_there(&module.pdb_symbol_server_path)).then(|| wanted("PDB", &module.pdb_symbol_server_path));
    image.into_iter().chain(pdb).collect()
}

fn missing_of(path: &Path, bytes: &[u8], stores: &Stores) -> Missing {
    let asked = Asked { thread: None, frames: 0, has_registers: false, is_json: true };
    let dump = told(path, bytes, &stores.places, asked);
    let mut seen = BTreeSet::new();
    let needs = dump.modules.entries().iter().flat_map(|it| needs_of(it, stores));
    let entries = needs
        .filter(|it| it.symbol_server_path.as_ref().is_none_or(|path| seen.insert((it.kind, path.to_lowercase()))));
    let list = List { entries: entries.collect(), error: None, is_limited: dump.texts_is_limited };
    Missing {
        origin: Origin::of(path),
        modules: dump.modules.present().map(|it| it.entries.len()),
        missing: match dump.modules {
            Part::Present(_) => Part::Present(list),
            Part::Refused(refusal) => Part::Refused(refusal),
            Part::Absent => Part::Absent,
        },
        error: dump.error,
    }
}

/// Writes what is not found, as text or JSON.
pub fn write(path: &Path, bytes: &[u8], stores: &Stores, is_json: bool, out: &mut dyn Write) -> io::Result<Status> {
    let missing = missing_of(path, bytes, stores);
    if is_json {
        serde_json::to_writer(&mut *out, &missing)?;
        out.write_all(b"\n")?;
    } else {
        out.write_all(text_of(&missing).as_bytes())?;
    }
    let is_refused = missing.error.is_some() || missing.missing.refusal().is_some();
    Ok(if is_refused { Status::Refused } else { Status::Done })
}

/// Its lines end where they end: the paths are there to be copied.
fn text_of(missing: &Missing) -> String {
    let mut page = Page::new(Style::of_stdout().whole());
    page.heading(&missing.origin.shown_file());
    for refusal in missing.error.iter().chain(missing.missing.refusal()) {
        page.warning(refusal);
    }
    for it in missing.missing.entries() {
        if let Some(path) = &it.symbol_server_path {
            page.row(it.kind, escaped(path));
        }
    }
    for (label, kind, why) in WITHOUT_PATH {
        let of_kind = missing.missing.entries().iter().filter(|it| it.kind == kind && it.symbol_server_path.is_none());
        let modules: Vec<String> = of_kind.map(name_of).collect();
        if !modules.is_empty() {
            page.row(label, format!("{}: {}; {why}", counted(modules.len(), "module"), modules.join(", ")));
        }
    }
    if let Some(modules) = missing.modules {
        let named = missing.missing.entries().iter().filter(|it| it.symbol_server_path.is_some());
        let (images, pdbs): (Vec<_>, Vec<_>) = named.partition(|it| it.kind == "image");
        let (images, pdbs) = (counted(images.len(), "image"), counted(pdbs.len(), "PDB file"));
        page.row("missing", format!("{images} and {pdbs} with a path, of {}", counted(modules, "module")));
    }
    if missing.missing.present().is_some_and(|it| it.is_limited) {
        page.row("names", "the dump has more names than are shown".to_string());
    }
    page.into_text()
}

/// A module by its name, or by its address.
fn name_of(wanted: &Wanted) -> String {
    wanted.module.as_deref().map_or(format!("{:#x}", wanted.base_va), escaped)
}
