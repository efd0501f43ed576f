//! Files that the program writes. Each is whole under its name, or absent: its bytes go to a temporary file beside it, which is
//! synced, where the file system can, and then linked to the name. Who ends the program meanwhile, or fills the disk, leaves no part
//! of it there. After SIGKILL and others that are not caught (`system`), a crash of the program or of the machine, and under Windows,
//! the temporary file stays, as `.pe-NUMBER-NUMBER.tmp`.

use crate::system::{self, Doomed};
use clap::Args;
use std::fs::{self, File, OpenOptions};
use std::io::{self, BufWriter, Write};
use std::path::{Path, PathBuf};
use std::time::{SystemTime, UNIX_EPOCH};

/// Where a command writes what it made.
#[derive(Args, Clone, Debug)]
pub struct Target {
    /// The file to write, or - for standard output.
    #[arg(value_name = "OUT")]
    pub to: PathBuf,
    /// Replace OUT where it exists. The file that is read may be OUT.
    #[arg(long)]
    pub replace: bool,
}

impl Target {
    /// Writes the file, with the permissions of the one that it replaces, else of another one where one is named. Without `--replace`
    /// it must not exist.
    pub fn write(&self, bytes: &[u8], like: Option<&Path>) -> io::Result<()> {
        self.write_by(like, &mut |out| out.write_all(bytes))
    }

    /// The same of what is written as it is made.
    pub fn write_by(
        &self,
        like: Option<&Path>,
        write: &mut dyn FnMut(&mut dyn Write) -> io::Result<()>,
    ) -> io::Result<()> {
        let name = self.name()?;
        let like = if self.replace && name.exists() { Some(name.as_path()) } else { like };
        let begun = Begun::beside(&name, like.is_some())?;
        let mut out = BufWriter::new(&begun.file);
        write(&mut out)?;
        out.flush()?;
        drop(out);
        if let Some(like) = like {
            begun.file.set_permissions(system::permissions_of(&fs::metadata(like)?))?;
        }
        match begun.file.sync_all() {
            // The file system has no call for it.
            Err(error) if error.kind() == io::ErrorKind::InvalidInput => (),
            other => other?,
        }
        match self.replace {
            true => fs::rename(&begun.path, &name),
            false => link(&begun.path, &name),
        }
    }

    /// The name of the new file: of a link that is replaced, the file that it leads to.
    fn name(&self) -> io::Result<PathBuf> {
        let error = |kind, why| Err(io::Error::new(kind, why));
        match (self.to.symlink_metadata(), self.replace) {
            (Err(_), _) => Ok(self.to.clone()),
            (Ok(_), _) if !self.to.is_file() => error(io::ErrorKind::InvalidInput, "it exists, and is no regular file"),
            (Ok(_), false) => error(io::ErrorKind::AlreadyExists, "it exists; --replace replaces it"),
            (Ok(_), true) => fs::canonicalize(&self.to),
        }
    }
}

/// A second name of a file, which must not exist. Where a file system has no second names the file is moved.
fn link(from: &Path, to: &Path) -> io::Result<()> {
    match fs::hard_link(from, to) {
        Err(error) if error.kind() != io::ErrorKind::AlreadyExists => system::move_new(from, to),
        other => other,
    }
}

/// A temporary file, which goes away by its name when it is dropped or a signal ends the program.
struct Begun {
    file: File,
    path: PathBuf,
    _doomed: Doomed,
}

impl Begun {
    /// One in the folder of another file. What is private is so from the start.
    fn beside(name: &Path, is_private: bool) -> io::Result<Begun> {
        let folder = name.parent().unwrap_or(Path::new(""));
        let time = SystemTime::now().duration_since(UNIX_EPOCH).map_or(0, |it| it.as_nanos());
        let path = folder.join(format!(".pe-{}-{time}.tmp", std::process::id()));
        let doomed = Doomed::put(&path);
        let mut options = OpenOptions::new();
        let file = system::private(options.write(true).create_new(true), is_private).open(&path)?;
        Ok(Begun { file, path, _doomed: doomed })
    }
}

impl Drop for Begun {
    fn drop(&mut self) {
        // After it was moved it is no more.
        drop(fs::remove_file(&self.path));
    }
}
