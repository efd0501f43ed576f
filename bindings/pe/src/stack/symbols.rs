//! The folders in which PDB files are looked for: those that the user names, and those of the variable `_NT_SYMBOL_PATH`. They are
//! laid out as [symbol servers](https://learn.microsoft.com/windows/win32/debug/using-symsrv) and debuggers' caches are: NAME/KEY/NAME,
//! in two tiers NA/NAME/KEY/NAME; or a PDB stands in the folder itself. Where a PDB is looked for a symbol file of Breakpad is too, after it.
//!
//! No path is made of what a dump says. Folders are listed, and what stands in them is compared with the name and the key that are
//! looked for, in upper or lower case: servers ignore the case, and file systems need not.

use super::breakpad;
use crate::files::paths_in;
use crate::streams::fail;
use std::cell::RefCell;
use std::collections::BTreeMap;
use std::env;
use std::fs;
use std::io::ErrorKind;
use std::path::{Path, PathBuf};
use std::rc::Rc;

/// The variable that has the folders of debuggers, with semicolons between them.
const VARIABLE: &str = "_NT_SYMBOL_PATH";
/// What it has before a server or a cache, with stars between the parts.
const SERVERS: [&str; 2] = ["srv", "symsrv"];
const CACHE: &str = "cache";
/// How a part starts that is on the network.
const URLS: [&str; 2] = ["http://", "https://"];
/// What stands in place of a file that is elsewhere.
const POINTER: &str = "file.ptr";

/// What stands where a PDB is looked for.
#[derive(Clone, Debug, PartialEq, Eq)]
pub enum Candidate {
    File(PathBuf),
    /// A cabinet, whose name ends in `_`.
    Compressed(PathBuf),
    /// A text that says where the file is.
    Pointer(PathBuf),
    /// A folder that cannot be listed, and why.
    Unread(PathBuf, String),
}

impl Candidate {
    pub fn path(&self) -> &Path {
        match self {
            Candidate::File(path)
            | Candidate::Compressed(path)
            | Candidate::Pointer(path)
            | Candidate::Unread(path, _) => path,
        }
    }

    /// Whether it has the name of a PDB, or of its symbol file, in upper or lower case.
    pub fn has_name(&self, name: &str) -> bool {
        let own = self.path().file_name().map(|it| it.to_string_lossy().to_lowercase());
        own.is_some_and(|it| [name.to_string(), breakpad::name_of(name)].iter().any(|name| it == name.to_lowercase()))
    }

    /// Its path, and what is wrong with it. None of a file.
    pub fn problem(&self) -> Option<(&Path, String)> {
        match self {
            Candidate::File(_) => None,
            Candidate::Compressed(path) => Some((path, "compressed: `cabextract` makes the PDB of it".to_string())),
            Candidate::Pointer(path) => Some((path, "leads to another file, which is not followed".to_string())),
            Candidate::Unread(path, why) => Some((path, why.clone())),
        }
    }
}

/// What a folder has, by its names in lower case. Two may differ in their case alone.
type Listing = Rc<Result<BTreeMap<String, Vec<PathBuf>>, String>>;

/// The folders, in the order in which they are looked in.
#[derive(Debug)]
pub struct SymbolFolders {
    folders: Vec<PathBuf>,
    left_out: Vec<String>,
    listings: RefCell<BTreeMap<PathBuf, Listing>>,
}

impl SymbolFolders {
    /// These folders, and after them those of the variable.
    pub fn new(named: &[PathBuf]) -> SymbolFolders {
        SymbolFolders::with_variable(named, &env::var_os(VARIABLE).unwrap_or_default().to_string_lossy())
    }

    /// Nowhere.
    pub fn none() -> SymbolFolders {
        SymbolFolders::with_variable(&[], "")
    }

    fn with_variable(named: &[PathBuf], variable: &str) -> SymbolFolders {
        let (mut folders, mut left_out) = (named.to_vec(), Vec::new());
        for part in variable.split(';').flat_map(parts_of).filter(|it| !it.is_empty()) {
            if URLS.iter().any(|it| starts_with(part, it)) {
                left_out.push(format!("{part} (no network is used)"));
            } else if Path::new(part).exists() {
                folders.push(part.into());
            } else {
                left_out.push(format!("{part} (it is not there)"));
            }
        }
        SymbolFolders { folders, left_out, listings: RefCell::default() }
    }

    /// Whether there is nowhere to look.
    pub fn is_empty(&self) -> bool {
        self.folders.is_empty() && self.left_out.is_empty()
    }

    /// The parts of the variable that are left out, each with why.
    pub fn left_out(&self) -> &[String] {
        &self.left_out
    }

    /// What stands where a PDB of this name and key is looked for, in order. A file that is named in place of a folder counts for each
    /// PDB.
    pub fn candidates(&self, name: &str, key: &str) -> Vec<Candidate> {
        let mut found = Vec::new();
        for folder in &self.folders {
            if folder.is_file() {
                found.push(Candidate::File(folder.clone()));
                continue;
            }
            self.by_key(folder, (name, key), &mut found);
            let tier: String = name.chars().take(2).collect();
            for folder in self.named(folder, &tier, &mut found) {
                self.by_key(&folder, (name, key), &mut found);
            }
            for name in [name, &breakpad::name_of(name)] {
                found.extend(self.files(folder, name).map(Candidate::File));
            }
        }
        found
    }

    /// The files NAME/KEY/NAME below a folder.
    fn by_key(&self, folder: &Path, (name, key): (&str, &str), found: &mut Vec<Candidate>) {
        for of_name in &self.named(folder, name, found) {
            for of_key in &self.named(of_name, key, found) {
                self.named(of_key, name, found);
                found.extend(self.files(of_key, name).map(Candidate::File));
                found.extend(self.files(of_key, &compressed(name)).map(Candidate::Compressed));
                found.extend(self.files(of_key, POINTER).map(Candidate::Pointer));
                found.extend(self.files(of_key, &breakpad::name_of(name)).map(Candidate::File));
            }
        }
    }

    /// What a folder has under a name and is no folder itself. That the folder cannot be listed is found before.
    fn files(&self, folder: &Path, name: &str) -> impl Iterator<Item = PathBuf> {
        self.named(folder, name, &mut Vec::new()).into_iter().filter(|it| !it.is_dir())
    }

    /// What a folder has under a name, the same case first. Of a folder that cannot be listed nothing, and that is found.
    fn named(&self, folder: &Path, name: &str, found: &mut Vec<Candidate>) -> Vec<PathBuf> {
        match &*self.listing(folder) {
            Ok(listing) => {
                let mut paths = listing.get(&name.to_lowercase()).cloned().unwrap_or_default();
                paths.sort_by_key(|it| it.file_name().is_none_or(|it| it != name));
                paths
            }
            Err(why) => {
                let unread = Candidate::Unread(folder.to_path_buf(), why.clone());
                if !found.contains(&unread) {
                    found.push(unread);
                }
                Vec::new()
            }
        }
    }

    /// What a folder has, which is listed once. A file has nothing, nor has a link that leads nowhere.
    fn listing(&self, folder: &Path) -> Listing {
        if let Some(listing) = self.listings.borrow().get(folder) {
            return listing.clone();
        }
        // What cannot be looked at may be a folder.
        let listed = match fs::metadata(folder) {
            Ok(it) if !it.is_dir() => Ok(BTreeMap::new()),
            Err(error) if error.kind() == ErrorKind::NotFound => Ok(BTreeMap::new()),
            it => it.and_then(|_| paths_in(folder)).map(by_name).map_err(|error| error.to_string()),
        };
        if listed.is_err() {
            fail();
        }
        let listing = Rc::new(listed);
        self.listings.borrow_mut().insert(folder.to_path_buf(), listing.clone());
        listing
    }
}

fn by_name(mut paths: Vec<PathBuf>) -> BTreeMap<String, Vec<PathBuf>> {
    let mut listing: BTreeMap<String, Vec<PathBuf>> = BTreeMap::new();
    paths.sort_unstable();
    for path in paths {
        let name = path.file_name().map(|it| it.to_string_lossy().to_lowercase());
        listing.entry(name.unwrap_or_default()).or_default().push(path);
    }
    listing
}

fn starts_with(text: &str, start: &str) -> bool {
    text.get(..start.len()).is_some_and(|it| it.eq_ignore_ascii_case(start))
}

/// The folders and URLs of an element of the variable: of a server its caches before it, and the server.
fn parts_of(element: &str) -> Vec<&str> {
    let parts: Vec<&str> = element.trim().split('*').map(str::trim).collect();
    let is = |word: &&str| parts[0].eq_ignore_ascii_case(word);
    match SERVERS.iter().any(is) || is(&CACHE) {
        // `symsrv*symsrv.dll*` is `srv*`.
        true => parts[1..].iter().copied().filter(|it| !it.eq_ignore_ascii_case("symsrv.dll")).collect(),
        false => vec![element.trim()],
    }
}

/// The name of the cabinet that has a file, as servers write it: the last letter is `_`.
fn compressed(name: &str) -> String {
    let mut letters = name.chars();
    letters.next_back();
    letters.as_str().to_string() + "_"
}

#[cfg(test)]
mod tests {
    use super::*;

    /// The forms of Microsoft's page "Symbol path for Windows debuggers".
    #[test]
    fn the_variable_has_folders_servers_and_caches() {
        let of =
            |text: &'static str| text.split(';').flat_map(parts_of).filter(|it| !it.is_empty()).collect::<Vec<_>>();
        assert_eq!(of("C:\\a;/b c"), ["C:\\a", "/b c"]);
        assert_eq!(of("srv*c:\\sym*https://x/y"), ["c:\\sym", "https://x/y"]);
        assert_eq!(of("SRV**\\\\s\\t; cache*d:\\c ;cache*"), ["\\\\s\\t", "d:\\c"]);
        assert_eq!(of("symsrv*symsrv.dll*/a*/b"), ["/a", "/b"]);
        assert_eq!(of(""), Vec::<&str>::new());
    }

    #[test]
    fn what_is_on_the_network_or_not_there_is_left_out() {
        let folders = SymbolFolders::with_variable(&[], "srv*/dev*HTTPS://x/y;/nowhere/at/all");
        assert_eq!(folders.folders, [Path::new("/dev")]);
        assert_eq!(folders.left_out, ["HTTPS://x/y (no network is used)", "/nowhere/at/all (it is not there)"]);
        assert!(!folders.is_empty() && SymbolFolders::with_variable(&[], "").is_empty());
    }

    #[test]
    fn a_cabinet_has_an_underscore() {
        assert_eq!(compressed("a.pdb"), "a.pd_");
    }
}
