//! Program databases: one that lld-link wrote (`pdb_bytes`), by what llvm-pdbutil 14.0.6 prints of it; its streams again in smaller
//! blocks, from the last block to the first; and files made by hand from LLVM's page on MSF files.

use crate::errors::refused;
use crate::images::{image, piece_at, put, range_at};
use crate::pdb_bytes::{LENGTH, PIECES};
use pe_pdb::{Msf, PdbError};
use std::alloc::{AllocError, Global};
use std::test::Fail;

/// The file of lld-link.
pub(crate) fn pdb(alloc: Global) -> Result<Vec<u8>, AllocError> {
    image(alloc, LENGTH, &PIECES)
}

/// Writes a number of 4 bytes.
fn put_number(bytes: &mut Vec<u8>, offset: usize, number: usize) {
    put(bytes, &[(offset, &u32::to_le_bytes(number as u32))]);
}

/// A file of so many blocks of 512 bytes, and of a directory that starts at block 4; block 3 lists its blocks.
fn of_blocks(alloc: Global, blocks: usize, directory_size: usize) -> Result<Vec<u8>, AllocError> {
    let mut bytes = image(
        alloc,
        512 * blocks,
        &[(0, b"Microsoft C/C++ MSF 7.00\r\n\x1ADS\0\0\0")],
    )?;
    put_number(&mut bytes, 32, 512);
    put_number(&mut bytes, 36, 1);
    put_number(&mut bytes, 40, blocks);
    put_number(&mut bytes, 44, directory_size);
    put_number(&mut bytes, 52, 3);
    for index in 0..directory_size.div_ceil(512).min(128) {
        put_number(&mut bytes, 512 * 3 + 4 * index, 4 + index);
    }
    Ok(bytes)
}

/// All bytes of a stream.
pub(crate) fn all_of(alloc: Global, msf: &Msf<'_>, index: u32) -> Result<Vec<u8>, Fail> {
    let stream = msf.stream(index)?;
    let mut room = vec![in alloc; 0u8; stream.len()]?;
    stream.read_at(0, &mut room)?;
    Ok(room)
}

/// The same streams in blocks of 512 bytes, which stand in the file from the last to the first.
pub(crate) fn scattered(alloc: Global, msf: &Msf<'_>) -> Result<Vec<u8>, Fail> {
    let mut count = 0;
    for index in 0..msf.streams() as u32 {
        count += msf.stream(index)?.len().div_ceil(512);
    }
    let size = 4 * (1 + msf.streams() + count);
    let first = 4 + size.div_ceil(512);
    let mut bytes = of_blocks(alloc, first + count, size)?;
    let directory = 512 * 4;
    put_number(&mut bytes, directory, msf.streams());
    let mut list = directory + 4 + 4 * msf.streams();
    let mut block = first + count;
    for index in 0..msf.streams() as u32 {
        let stream = all_of(alloc, msf, index)?;
        put_number(&mut bytes, directory + 4 + 4 * index as usize, stream.len());
        for part in stream.chunks(512) {
            block -= 1;
            put(&mut bytes, &[(512 * block, part)]);
            put_number(&mut bytes, list, block);
            list += 4;
        }
    }
    Ok(bytes)
}

/// Whether a call was refused for this.
pub(crate) fn short(needed: usize, length: usize) -> PdbError {
    PdbError::Short { needed, length }
}

pub(crate) fn record_truncated(offset: usize, needed: usize, length: usize) -> PdbError {
    PdbError::RecordTruncated {
        offset,
        needed,
        length,
    }
}

#[test]
fn scattered_streams_have_the_same_bytes(rt: HostRuntime) -> Result<(), Fail> {
    let bytes = pdb(rt.alloc())?;
    let msf = Msf::parse(&bytes)?;
    let other = scattered(rt.alloc(), &msf)?;
    let moved = Msf::parse(&other)?;
    assert_eq!(rt; moved.streams(), 16);
    for index in 0..16 {
        let (one, two) = (
            all_of(rt.alloc(), &msf, index)?,
            all_of(rt.alloc(), &moved, index)?,
        );
        assert!(rt; one[..] == two[..]);
    }
    let ids = moved.stream(4)?;
    assert!(rt; ids.contiguous().is_none());
    let whole = all_of(rt.alloc(), &moved, 4)?;
    let mut room = [0u8; 600];
    ids.read_at(500, &mut room)?;
    assert_eq!(rt; &room[..], &whole[500..1100]);
    assert_eq!(rt; ids.piece_at(500), &whole[500..512]);
    assert_eq!(rt; ids.piece_at(1024), &whole[1024..1160]);
    assert_eq!(rt; ids.piece_at(1160).len(), 0);
    // shows: pe_pdb/src/stream_bytes.rt read_at Outside
    let outside = PdbError::Outside {
        offset: 561,
        needed: 600,
        length: 1160,
    };
    assert!(rt; refused(ids.read_at(561, &mut room), outside));
    assert_eq!(rt; &room[..], &whole[500..1100]);
    Ok(())
}

#[test]
fn a_directory_may_take_several_blocks_of_its_list(rt: HostRuntime) -> Result<(), Fail> {
    // 16,400 streams of which the last has a block: 129 blocks of the directory, 2 of the list of them.
    let size = 4 * (1 + 16_400 + 1);
    let mut bytes = of_blocks(rt.alloc(), 135, size)?;
    put_number(&mut bytes, 56, 134);
    put_number(&mut bytes, 512 * 134, 4 + 128);
    put_number(&mut bytes, 512 * 4, 16_400);
    put_number(&mut bytes, 512 * 4 + 4 * 16_399, 0xFFFF_FFFF);
    put_number(&mut bytes, 512 * 4 + 4 * 16_400, 5);
    put_number(&mut bytes, 512 * 4 + 4 * 16_401, 133);
    put(&mut bytes, &[(512 * 133, b"hello")]);
    let msf = Msf::parse(&bytes)?;
    let deleted = msf.stream_from(16_398, 0)?;
    assert_eq!(rt; deleted.len(), 0);
    let last = all_of(rt.alloc(), &msf, 16_399)?;
    assert_eq!(rt; &last[..], b"hello".as_slice());
    Ok(())
}

#[test]
fn damaged_files_are_refused(rt: HostRuntime) -> Result<(), Fail> {
    let good = of_blocks(rt.alloc(), 6, 12)?;
    // shows: pe_pdb/src/error.rt require_bytes Short
    assert!(rt; refused(Msf::parse(&good[..55]), short(56, 55)));
    let older = image(
        rt.alloc(),
        60,
        &[(0, b"Microsoft C/C++ program database 2.00\r\n\x1AJG\0\0")],
    )?;
    assert!(rt; refused(Msf::parse(&older), PdbError::Pdb20));
    let portable = image(rt.alloc(), 60, &[(0, b"BSJB\x01\0\x01\0")])?;
    assert!(rt; refused(Msf::parse(&portable), PdbError::PortablePdb));
    for index in [0, 8, 16, 31] {
        let mut bytes = good.clone()?;
        bytes[index] ^= 1;
        assert!(rt; refused(Msf::parse(&bytes), PdbError::Magic));
    }
    // shows: pe_pdb/src/msf.rt parse BlockSize
    for size in [0, 3, 256, 1000, 65_536] {
        let mut bytes = good.clone()?;
        put_number(&mut bytes, 32, size);
        assert!(rt; refused(Msf::parse(&bytes), PdbError::BlockSize(size as u32)));
    }
    // shows: pe_pdb/src/msf.rt parse FileSize
    for blocks in [7, 0x80_0000, 0xFFFF_FFFF] {
        let mut bytes = good.clone()?;
        put_number(&mut bytes, 40, blocks);
        let size = PdbError::FileSize {
            blocks: blocks as u32,
            length: 3072,
        };
        assert!(rt; refused(Msf::parse(&bytes), size));
    }
    Ok(())
}

#[test]
fn damaged_directories_are_refused(rt: HostRuntime) -> Result<(), Fail> {
    let good = of_blocks(rt.alloc(), 6, 12)?;
    // shows: pe_pdb/src/msf.rt with_directory BlockMap
    // A directory of all blocks of the file is read, and one of more is not.
    let mut bytes = good.clone()?;
    put_number(&mut bytes, 44, 6 * 512 + 4);
    assert!(rt; refused(Msf::parse(&bytes), PdbError::BlockMap(6 * 512 + 4)));
    put_number(&mut bytes, 44, 6 * 512);
    assert!(rt; Msf::parse(&bytes).is_ok());
    // The superblock of 512 bytes lists 115 blocks, each of which lists 128 of 512 bytes.
    let most = 115 * 128 * 512;
    let mut bytes = of_blocks(rt.alloc(), 115 * 128 + 1, most + 4)?;
    assert!(rt; refused(Msf::parse(&bytes), PdbError::BlockMap(most as u32 + 4)));
    put_number(&mut bytes, 44, most);
    assert!(rt; refused(Msf::parse(&bytes), PdbError::Block(115 * 128 + 1)));
    let mut bytes = good.clone()?;
    put_number(&mut bytes, 52, 6);
    assert!(rt; refused(Msf::parse(&bytes), PdbError::Block(6)));
    let mut bytes = good.clone()?;
    put_number(&mut bytes, 512 * 3, 6);
    assert!(rt; refused(Msf::parse(&bytes), PdbError::Block(6)));
    // shows: pe_pdb/src/msf.rt with_directory Directory
    for streams in [3, 0xFFFF_FFFF] {
        let mut bytes = good.clone()?;
        put_number(&mut bytes, 512 * 4, streams);
        let directory = PdbError::Directory {
            stream: 0,
            words: 3,
        };
        assert!(rt; refused(Msf::parse(&bytes), directory));
    }
    Ok(())
}

#[test]
fn damaged_streams_are_refused_alone(rt: HostRuntime) -> Result<(), Fail> {
    // Two streams, of which the second says 2^32 - 2 bytes, then 3 blocks, of which one is listed.
    let mut bytes = of_blocks(rt.alloc(), 6, 16)?;
    put_number(&mut bytes, 512 * 4, 2);
    put_number(&mut bytes, 512 * 4 + 4, 512);
    put_number(&mut bytes, 512 * 4 + 8, 0xFFFF_FFFE);
    put_number(&mut bytes, 512 * 4 + 12, 5);
    let msf = Msf::parse(&bytes)?;
    let first = msf.stream(0)?;
    let found = first.contiguous();
    assert_eq!(rt; found, Some(range_at(2560, 512)));
    // shows: pe_pdb/src/streams.rt stream_from StreamSize
    let size = PdbError::StreamSize {
        stream: 1,
        size: 0xFFFF_FFFE,
    };
    assert!(rt; refused(msf.stream(1), size));
    // shows: pe_pdb/src/streams.rt stream_from NoStream
    // shows: pe_pdb/src/streams.rt stream NoStream
    assert!(rt; refused(msf.stream(2), PdbError::NoStream(2)));
    assert!(rt; refused(msf.stream_from(65_535, 3), PdbError::NoStream(65_535)));
    let mut other = bytes.clone()?;
    put_number(&mut other, 512 * 4 + 8, 1025);
    let msf = Msf::parse(&other)?;
    // shows: pe_pdb/src/streams.rt stream_from Directory
    let directory = PdbError::Directory {
        stream: 1,
        words: 4,
    };
    assert!(rt; refused(msf.stream(1), directory));
    assert!(rt;
        refused(
            msf.stream_from(0, 0xFFFF_FFFF_FFFF_FFFF),
            PdbError::Directory {
                stream: 0,
                words: 4
            }
        )
    );
    assert_eq!(rt; msf.stream(0)?.len(), 512);
    put_number(&mut bytes, 512 * 4 + 12, 6);
    let msf = Msf::parse(&bytes)?;
    assert!(rt; refused(msf.stream(0), PdbError::Block(6)));
    Ok(())
}
