//! The files in which the images of a dump's modules are looked for. No path that a dump has is ever opened: the files are those
//! below the folders that the user names. Each is known by the time stamp and the size in its headers; of several that have the
//! same, as builds without a time stamp may, by its name.

use crate::facts::Refusal;
use crate::files::{below, headers_of, whole};
use crate::streams::{complain, complain_of_unread, complaint};
use pe_c::sys::DumpModule;
use pe_c::{Image, Mode};
use std::collections::BTreeMap;
use std::path::{Path, PathBuf};

/// `TimeDateStamp` and `SizeOfImage`, by which a module knows its image.
type Key = (u32, u32);

/// The images below folders by their headers, in the order of the folders and of names.
pub struct Known(BTreeMap<Key, Vec<PathBuf>>);

impl Known {
    /// Those of the files below folders.
    pub fn below(folders: &[PathBuf]) -> Known {
        Known::of(folders.iter().flat_map(|folder| below(folder)), folders)
    }

    /// Reads the headers of each file. One that is no image is none of these, which is said of a file that is named; nor is one that
    /// cannot be read, which is said.
    pub fn of(paths: impl IntoIterator<Item = PathBuf>, named: &[PathBuf]) -> Known {
        let mut known: BTreeMap<Key, Vec<PathBuf>> = BTreeMap::new();
        for path in paths {
            let headers = match headers_of(&path) {
                Ok(headers) => headers,
                Err(error) => {
                    complain_of_unread(&path, &error);
                    continue;
                }
            };
            match Image::parse(&headers, Mode::Permissive)
                .map(|it| (it.info().time_date_stamp, it.info().size_of_image))
            {
                Ok(key) => known.entry(key).or_default().push(path),
                Err(error) if named.contains(&path) => {
                    complain(complaint(&path, Refusal::of_file(error, &headers, "pe FILE")));
                }
                Err(_) => (),
            }
        }
        Known(known)
    }

    /// The file for a module of this name: one that has the name, in upper or lower case, or else the first.
    fn path_of(&self, key: Key, name: &str) -> Option<&Path> {
        let has_name = |path: &&PathBuf| {
            path.file_name().is_some_and(|it| it.to_string_lossy().to_lowercase() == name.to_lowercase())
        };
        let paths = self.0.get(&key)?;
        paths.iter().find(has_name).or(paths.first()).map(PathBuf::as_path)
    }

    /// Reads the files of modules, each a module and its name, and each file once. One that cannot be read is left out, which is said.
    pub fn read<'m>(&self, modules: impl Iterator<Item = (DumpModule, &'m str)>) -> Images<'_> {
        let mut images = Images { paths: BTreeMap::new(), contents: BTreeMap::new() };
        for (module, name) in modules {
            let key = (module.time_date_stamp, module.size_of_image);
            if let Some(path) = self.path_of(key, name) {
                images.paths.insert(place_of(&module), path);
                images.contents.entry(path).or_insert_with(|| whole(path).unwrap_or_else(|error| unread(path, &error)));
            }
        }
        images
    }
}

/// Says why a file cannot be read, in place of its bytes.
fn unread(path: &Path, error: &std::io::Error) -> Vec<u8> {
    complain_of_unread(path, error);
    Vec::new()
}

/// What tells the modules of a dump apart: where they are loaded, what they are, and where their name is.
type Place = (u64, Key, u32);

fn place_of(module: &DumpModule) -> Place {
    (module.base_of_image, (module.time_date_stamp, module.size_of_image), module.module_name_rva)
}

/// The files of the modules of one dump.
pub struct Images<'k> {
    paths: BTreeMap<Place, &'k Path>,
    contents: BTreeMap<&'k Path, Vec<u8>>,
}

impl Images<'_> {
    pub fn bytes_of(&self, module: &DumpModule) -> Option<&[u8]> {
        self.contents.get(self.paths.get(&place_of(module))?).map(Vec::as_slice)
    }

    pub fn path_of(&self, module: &DumpModule) -> Option<&Path> {
        self.paths.get(&place_of(module)).copied()
    }
}
