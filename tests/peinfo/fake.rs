//! A system in memory.

use std::alloc::{Allocator, Global};
use std::cell::RefCell;
use std::fmt::Display;
use std::fs::{Metadata, OpenFile, OpenOptions};
use std::io;
use std::io::{Read, Seek, SeekFrom, Write};
use std::rt::Files;

/// The name of a file that returns zeros, a byte a read, and never ends.
pub const ENDLESS: &str = "endless";

/// The name of what can be opened, but not read.
pub const FOLDER: &str = "folder";

/// The name of the file.
pub const IMAGE: &str = "image";

/// A system with one file. It keeps what is printed.
#[derive(Drop)]
pub struct FakeSystem<'a> {
    pub alloc: Global,
    pub image: &'a [u8],
    pub is_output_full: bool,
    pub printed: RefCell<Vec<u8>>,
    pub complaints: RefCell<Vec<u8>>,
}

impl<'a> FakeSystem<'a> {
    pub fn new(alloc: Global, image: &'a [u8], is_output_full: bool) -> FakeSystem<'a> {
        FakeSystem {
            alloc,
            image,
            is_output_full,
            printed: RefCell::new(Vec::new(alloc)),
            complaints: RefCell::new(Vec::new(alloc)),
        }
    }
}

fn keep(kept: &RefCell<Vec<u8>>, bytes: &[u8]) -> io::Result<()> {
    match kept.try_borrow_mut() {
        Ok(mut all) => Ok(all.extend_from_slice(bytes)?),
        Err(_) => Err(io::Error::from(io::ErrorKind::ResourceBusy)),
    }
}

fn unsupported<T>() -> io::Result<T> {
    Err(io::Error::from(io::ErrorKind::Unsupported))
}

impl<'a> Alloc for FakeSystem<'a> {
    type A = Global;

    fn alloc(&self) -> Global {
        self.alloc
    }
}

impl<'a> Print for FakeSystem<'a> {
    fn print<D: Display + Drop>(&self, value: D) -> io::Result<()> {
        self.write_all(value.to_string(self.alloc)?.as_bytes())
    }

    fn println<D: Display + Drop>(&self, value: D) -> io::Result<()> {
        self.print(value)?;
        self.write_all(b"\n")
    }

    fn write_all(&self, bytes: &[u8]) -> io::Result<()> {
        if self.is_output_full {
            return Err(io::Error::from(io::ErrorKind::StorageFull));
        }
        keep(&self.printed, bytes)
    }
}

impl<'a> Eprint for FakeSystem<'a> {
    fn eprint<D: Display + Drop>(&self, value: D) -> io::Result<()> {
        keep(&self.complaints, value.to_string(self.alloc)?.as_bytes())
    }

    fn eprintln<D: Display + Drop>(&self, value: D) -> io::Result<()> {
        self.eprint(value)?;
        keep(&self.complaints, b"\n")
    }
}

/// What a file returns when it is read.
#[derive(Drop)]
pub enum FakeFile<'a> {
    Bytes(&'a [u8]),
    Endless,
    Folder,
}

impl<'a> Read for FakeFile<'a> {
    fn read(&mut self, buf: &mut [u8]) -> io::Result<usize> {
        match self {
            FakeFile::Bytes(rest) => {
                let count = buf.len().min(rest.len()).min(700);
                let (front, after) = rest.split_at(count);
                buf[..count].copy_from_slice(front);
                *rest = after;
                Ok(count)
            }
            FakeFile::Endless => match buf.first_mut() {
                Some(first) => {
                    *first = 0;
                    Ok(1)
                }
                None => Ok(0),
            },
            FakeFile::Folder => Err(io::Error::from(io::ErrorKind::IsADirectory)),
        }
    }
}

impl<'a> Write for FakeFile<'a> {
    fn write(&mut self, _buf: &[u8]) -> io::Result<usize> {
        unsupported()
    }

    fn flush(&mut self) -> io::Result<()> {
        unsupported()
    }
}

impl<'a> Seek for FakeFile<'a> {
    fn seek(&mut self, _to: SeekFrom) -> io::Result<u64> {
        unsupported()
    }
}

impl<'a> OpenFile for FakeFile<'a> {
    fn metadata(&self) -> io::Result<Metadata> {
        unsupported()
    }

    fn set_len(&self, _size: u64) -> io::Result<()> {
        unsupported()
    }

    fn sync_all(&self) -> io::Result<()> {
        unsupported()
    }

    fn sync_data(&self) -> io::Result<()> {
        unsupported()
    }
}

impl<'a> Files for FakeSystem<'a> {
    type File = FakeFile<'a>;

    type Dir = FakeFile<'a>;

    fn open_file(&self, _how: &OpenOptions, path: &str) -> io::Result<FakeFile<'a>> {
        match path {
            IMAGE => Ok(FakeFile::Bytes(self.image)),
            ENDLESS => Ok(FakeFile::Endless),
            FOLDER => Ok(FakeFile::Folder),
            _ => Err(io::Error::from(io::ErrorKind::NotFound)),
        }
    }

    fn open_dir(&self, _path: &str) -> io::Result<FakeFile<'a>> {
        unsupported()
    }

    fn metadata(&self, _path: &str) -> io::Result<Metadata> {
        unsupported()
    }

    fn symlink_metadata(&self, _path: &str) -> io::Result<Metadata> {
        unsupported()
    }

    fn copy(&self, _from: &str, _to: &str) -> io::Result<u64> {
        unsupported()
    }

    fn rename(&self, _from: &str, _to: &str) -> io::Result<()> {
        unsupported()
    }

    fn remove_file(&self, _path: &str) -> io::Result<()> {
        unsupported()
    }

    fn create_dir(&self, _path: &str) -> io::Result<()> {
        unsupported()
    }

    fn remove_dir(&self, _path: &str) -> io::Result<()> {
        unsupported()
    }

    fn remove_dir_all<B: Allocator>(&self, _alloc: B, _path: &str) -> io::Result<()> {
        unsupported()
    }
}
