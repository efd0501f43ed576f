//! PDB files that are read in parts: the frames of a dump need the directory, and of the streams mostly that of one module. A file of which
//! a stream is scattered that is needed is read whole, as is one that is no PDB.

use crate::files::{opened, whole_of};
use pe_c::{Error, Pdb, PdbReader};
use std::fs::File;
use std::io::{self, Read, Seek, SeekFrom};
use std::ops::Range;
use std::path::Path;
use std::sync::OnceLock;

/// How many bytes of a file are read first: the superblock, and the first line of a symbol file.
const START: usize = 4096;
const MAGIC: &[u8] = b"Microsoft C/C++ MSF 7.00\r\n\x1ADS\0\0\0";
/// Where the superblock has the size of a block, that of the directory, and the block that lists those of the directory; its end.
const BLOCK_SIZE: usize = 32;
const DIRECTORY_SIZE: usize = 44;
const LIST: usize = 52;
const END: usize = 56;
/// The streams of which [`Pdb::parse`] reads something, besides those that the DBI stream names.
const STREAMS: [u32; 2] = [1, 3];
/// The number of no stream.
const NO_STREAM: u16 = 0xFFFF;

/// Memory for the bytes of a file: zeros, but where they were read.
#[derive(Default)]
pub struct Memory {
    bytes: Vec<u8>,
    read: Vec<Range<usize>>,
}

impl Memory {
    /// Memory for so many bytes, which are zeros.
    fn zeros(&mut self, length: usize) -> io::Result<()> {
        if self.bytes.len() < length {
            // Where there is none this is an error; zeros are mapped when they are written to.
            Vec::<u8>::new().try_reserve_exact(length)?;
            *self = Memory { bytes: vec![0; length], read: Vec::new() };
        }
        for part in self.read.drain(..) {
            self.bytes[part].fill(0);
        }
        Ok(())
    }
}

/// A file that is open.
pub struct PdbFile {
    file: File,
    length: usize,
    memory: Memory,
    is_whole: bool,
    /// The file, of which a stream is scattered. None where it could not be read.
    whole: OnceLock<Option<Vec<u8>>>,
}

impl PdbFile {
    /// Opens a file, in this memory: of a PDB the parts are read that [`Pdb::parse`] needs, and any other file whole.
    pub fn open(path: &Path, memory: Memory) -> io::Result<PdbFile> {
        let file = opened(path)?;
        let length = usize::try_from(file.metadata()?.len()).unwrap_or(usize::MAX);
        let mut it = PdbFile { file, length, memory, is_whole: false, whole: OnceLock::new() };
        if !it.read_parts()? {
            let memory = std::mem::take(&mut it.memory);
            let bytes = whole_of(it.at(0)?, memory.bytes)?;
            it.length = bytes.len();
            it.memory = Memory { read: vec![0..bytes.len()], bytes };
            it.is_whole = true;
        }
        Ok(it)
    }

    /// As many bytes as the file has. Zeros stand for those that were not read.
    pub fn bytes(&self) -> &[u8] {
        &self.memory.bytes[..self.length]
    }

    /// Whether all of them are there.
    pub fn is_whole(&self) -> bool {
        self.is_whole
    }

    /// The memory, for another file.
    pub fn into_memory(self) -> Memory {
        self.memory
    }

    fn at(&self, offset: usize) -> io::Result<&File> {
        (&self.file).seek(SeekFrom::Start(offset as u64)).map(|_| &self.file)
    }

    /// Reads the parts of a PDB, and returns whether these are all that is needed.
    fn read_parts(&mut self) -> io::Result<bool> {
        let mut start = [0; START];
        let start = &mut start[..START.min(self.length)];
        self.at(0)?.read_exact(start)?;
        if !start.starts_with(MAGIC) || start.len() < END {
            return Ok(false);
        }
        self.memory.zeros(self.length)?;
        self.memory.read.push(0..start.len());
        self.memory.bytes[..start.len()].copy_from_slice(start);
        if !self.read_directory()? {
            return Ok(false);
        }
        for number in STREAMS {
            if !self.read_stream(number)? {
                return Ok(false);
            }
        }
        let headers =
            Pdb::parse(self.bytes()).map(|it| [it.info().section_headers, it.info().original_section_headers]);
        for number in headers.into_iter().flatten().filter(|it| *it != NO_STREAM) {
            if !self.read_stream(number.into())? {
                return Ok(false);
            }
        }
        Ok(true)
    }

    /// The directory, if one block lists its blocks.
    fn read_directory(&mut self) -> io::Result<bool> {
        let [size, length, list] = [BLOCK_SIZE, DIRECTORY_SIZE, LIST].map(|at| self.number(at));
        let blocks = if size == 0 { 0 } else { length.div_ceil(size) };
        let list = list.saturating_mul(size);
        if blocks == 0 || blocks > size / 4 || !self.read_part(list, 4 * blocks)? {
            return Ok(false);
        }
        for block in 0..blocks {
            let start = self.number(list + 4 * block).saturating_mul(size);
            if !self.read_part(start, size)? {
                return Ok(false);
            }
        }
        Ok(true)
    }

    fn number(&self, at: usize) -> usize {
        let bytes = self.bytes().get(at..at + 4).and_then(|it| it.try_into().ok());
        bytes.map_or(0, u32::from_le_bytes) as usize
    }

    /// A stream, if its blocks follow one another. One that is refused has nothing to read.
    fn read_stream(&mut self, number: u32) -> io::Result<bool> {
        match Pdb::stream_range(self.bytes(), number) {
            Ok(Some(range)) => self.read_part(range.start, range.len()),
            Ok(None) => Ok(false),
            Err(_) => Ok(true),
        }
    }

    /// Some bytes, if the file has them.
    fn read_part(&mut self, start: usize, length: usize) -> io::Result<bool> {
        let part = start..start.saturating_add(length);
        if part.end > self.length {
            return Ok(false);
        }
        (&self.file).seek(SeekFrom::Start(start as u64))?;
        self.memory.read.push(part.clone());
        (&self.file).read_exact(&mut self.memory.bytes[part])?;
        Ok(true)
    }
}

impl PdbReader for PdbFile {
    fn part(&self, range: Range<usize>) -> Result<Vec<u8>, Error> {
        let mut bytes = Vec::new();
        bytes.try_reserve_exact(range.len()).map_err(|_| Error::MEMORY)?;
        let read = self.at(range.start).and_then(|it| it.take(range.len() as u64).read_to_end(&mut bytes));
        // A file that was shortened since it was opened has fewer.
        read.ok().filter(|it| *it == range.len()).map(|_| bytes).ok_or(Error::SHORT)
    }

    fn whole(&self) -> Result<&[u8], Error> {
        let whole = self.whole.get_or_init(|| whole_of(self.at(0).ok()?, Vec::new()).ok());
        whole.as_deref().ok_or(Error::SHORT)
    }
}

#[cfg(test)]
mod tests {
    use super::*;

    /// What is not read stands as zeros, also where a longer file was read before.
    #[test]
    fn memory_is_zeros_again() {
        let mut memory = Memory::default();
        memory.zeros(8).unwrap();
        memory.bytes[2..5].fill(7);
        memory.read.push(2..5);
        memory.zeros(6).unwrap();
        assert_eq!((&memory.bytes[..], memory.read.len()), (&[0; 8][..], 0));
        memory.zeros(9).unwrap();
        assert_eq!(memory.bytes, [0; 9]);
    }
}
