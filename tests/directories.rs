//! The directories of pe_directories. Vectors named after a file are bytes of that file, and what llvm-readobj 14.0.6 prints of
//! them; all others are made by hand from the layouts.

use crate::images::{directory_at, image};
use crate::shared::SECTION;
use pe_core::{DataDirectory, Error, Header, OptionalHeader, ParseOptions, Reason};
use pe_directories::{
    BaseRelocation, BoundImportDirectory, ChosenDirectories, ClrHeader, ClrMetadata, DelayImport,
    DelayImports, DelayedFunction, Directories, DirectoryError, ImageBytes, IndexedImage,
    LoadConfig, ReadyToRunHeader, RelocationBlock, RelocationBlocks, RichHeader, TlsDirectory,
    relocate,
};
use pe_images::with_every_directory;
use std::test::Fail;

pub(crate) fn image_of(bytes: &[u8], is_64: bool) -> ImageBytes<'_> {
    ImageBytes {
        bytes,
        sections: &[SECTION],
        file_alignment: 0x200,
        image_base: 0x40_0000,
        is_64,
        opts: ParseOptions::default(),
    }
}

pub(crate) fn at(virtual_address: u32, size: u32) -> DataDirectory {
    directory_at(virtual_address, size)
}

fn relocation(kind: u8, rva: usize) -> BaseRelocation {
    BaseRelocation {
        kind,
        rva,
        argument: None,
    }
}

/// The numbers in why a relocation is not applied.
#[test]
fn says_which_relocation_is_refused(rt: HostRuntime) {
    let mut image = [7; 16];
    // shows: pe_directories/src/relocating.rt word_of RelocationOutside
    // shows: pe_directories/src/relocating.rt word_of RelocationKind
    let outside = relocate(&mut image, None, b"\0\x10\0\0\x0C\0\0\0\x09\xA0\0\0", 1);
    assert!(rt; matches!(outside, Err(DirectoryError::RelocationOutside(0x1009))));
    let kind = relocate(&mut image, None, b"\0\x10\0\0\x0C\0\0\0\x09\x70\0\0", 1);
    assert_matches!(rt; kind => Err(DirectoryError::RelocationKind { kind: 7, rva: 0x1009 }));
    assert_eq!(rt; image, [7; 16]);
}

/// The argument of the first HIGHADJ is the entry after it. The second one has none.
#[test]
fn a_highadj_takes_the_next_entry(rt: HostRuntime) -> Result<(), Fail> {
    let block = RelocationBlock {
        page_rva: 0xFFFF_F000,
        entries: b"\xFF\x4F\x34\x92\xFF\x3F\x07\x40",
    };
    let mut relocations = block.relocations();
    for _ in 0..2u8 {
        assert!(rt; matches!(relocations.next(), Some(Ok(_))));
    }
    // shows: pe_directories/src/base_relocation.rt first_relocation NoArgument
    assert_matches!(rt; relocations.next() => Some(Err(DirectoryError::NoArgument(0xFFFF_F007))));
    assert!(rt; relocations.next().is_none());
    Ok(())
}

/// The first item of these bytes as an error.
fn refusal_of(bytes: &[u8]) -> Result<DirectoryError, Fail> {
    let mut blocks = RelocationBlocks::new(bytes);
    let first = blocks.next();
    if blocks.next().is_some() {
        return Err(Fail::new("an item follows the error"));
    }
    match first {
        Some(Err(error)) => Ok(error),
        _ => Err(Fail::new("no error")),
    }
}

#[test]
fn refuses_blocks(rt: HostRuntime) -> Result<(), Fail> {
    // shows: pe_directories/src/base_relocation.rt first_block BlockSize
    // shows: pe_directories/src/base_relocation.rt first_block BlockTruncated
    for size in [0, 7, 9, 11] {
        let error = refusal_of(&[0, 0x10, 0, 0, size, 0, 0, 0, 0, 0, 0])?;
        assert!(rt; matches!(error, DirectoryError::BlockSize(n) if n == u32::from(size)));
    }
    let error = refusal_of(&[0, 0x10, 0, 0, 12, 0, 0, 0, 0, 0, 0])?;
    assert_matches!(rt; error => DirectoryError::BlockTruncated { size: 12, length: 11 });
    let error = refusal_of(&[0, 0x10, 0, 0, 12, 0, 0])?;
    assert_matches!(rt; error => DirectoryError::Image(Error::Short { at: 0, needed: 8 }));
    // A page and a size of 0 end the list, whatever follows; a truncated one does not.
    let zeros = b"\0\x10\0\0\x08\0\0\0\0\0\0\0\0\0\0\0\0\x20\0\0\x09\0\0\0";
    let mut blocks = RelocationBlocks::new(zeros);
    assert!(rt; matches!(blocks.next(), Some(Ok(block)) if block.page_rva == 0x1000));
    assert!(rt; blocks.next().is_none());
    assert_eq!(rt; blocks.rest().len(), 0);
    assert!(rt; RelocationBlocks::new(&zeros[8..16]).next().is_none());
    assert_matches!(rt; refusal_of(&zeros[8..15])? =>
        DirectoryError::Image(Error::Short { at: 0, needed: 8 }));
    // A block without entries, and one at no multiple of 4, are read.
    let bytes = b"\0\x10\0\0\x08\0\0\0\0\x20\0\0\x0A\0\0\0\x01\x30\0\x30\0\0\x08\0\0\0";
    let pages = [0x1000, 0x2000, 0x3000];
    for (block, page) in RelocationBlocks::new(bytes).zip(pages) {
        assert_eq!(rt; block?.page_rva, page);
    }
    assert_eq!(rt; RelocationBlocks::new(bytes).count(), 3);
    Ok(())
}

#[test]
fn reads_tls_of_pe32(rt: HostRuntime) -> Result<(), Fail> {
    let mut bytes = *b"\x01\x20\x40\0\x02\x20\x40\0\x03\x20\x40\0\x18\x10\x40\0\x05\0\0\0\0\0\xE0\0\
        \x10\x10\x40\0\0\0";
    let tls = TlsDirectory::parse(&image_of(&bytes, false), at(0x1000, 0))?;
    assert_eq!(rt; tls.alignment(), Some(8192));
    // The table has one callback, and two bytes of its zero.
    let mut callbacks = tls.callbacks(&image_of(&bytes, false))?;
    assert!(rt; matches!(callbacks.next(), Some(Ok(0x40_1010))));
    assert_matches!(rt; callbacks.next() =>
        Some(Err(DirectoryError::Image(Error::Short { at: 0, needed: 4 }))));
    assert!(rt; callbacks.next().is_none());
    // Other addresses of the table, and alignments 0 and 15.
    bytes[12..16].copy_from_slice(&[0xFF, 0xFF, 0x3F, 0]);
    bytes[22] = 0xF0;
    // shows: pe_directories/src/image_bytes.rt offset_of_va_by VaBelowBase
    let below = TlsDirectory::parse(&image_of(&bytes, false), at(0x1000, 0))?;
    assert_matches!(rt; below.callbacks(&image_of(&bytes, false)) =>
        Err(DirectoryError::VaBelowBase(0x3F_FFFF)));
    assert_eq!(rt; below.alignment(), None);
    bytes[12..16].copy_from_slice(&[0, 0x50, 0x40, 0]);
    bytes[22] = 0;
    let unmapped = TlsDirectory::parse(&image_of(&bytes, false), at(0x1000, 0))?;
    // shows: pe_directories/src/image_bytes.rt offset_of_va_by Unmapped
    match unmapped.callbacks(&image_of(&bytes, false)) {
        Err(DirectoryError::Image(Error::Malformed(reason))) => {
            assert_eq!(rt; reason, Reason::Unmapped(0x5000));
        }
        _ => return Err(Fail::new("callbacks at an unmapped RVA are read")),
    }
    assert_eq!(rt; unmapped.alignment(), None);
    bytes[12..16].copy_from_slice(&[0; 4]);
    let none = TlsDirectory::parse(&image_of(&bytes, false), at(0x1000, 0))?;
    assert!(rt; none.callbacks(&image_of(&bytes, false))?.next().is_none());
    let end = TlsDirectory::parse(&image_of(&bytes, true), at(0x1000, 40));
    assert_matches!(rt; end => Err(DirectoryError::Image(Error::Short { at: 0, needed: 40 })));
    Ok(())
}

/// Whether the error is that of this unmapped RVA.
fn is_unmapped<T: Drop>(read: Result<T, DirectoryError>, rva: u64) -> bool {
    match read {
        Err(DirectoryError::Image(Error::Malformed(reason))) => reason == Reason::Unmapped(rva),
        _ => false,
    }
}

/// A CLR header of 72 bytes, and at RVA 0x1048 metadata of 80 bytes with two streams, by the layouts of ECMA-335.
const CLR: &[u8] = b"\x48\0\0\0\x02\0\x05\0\x48\x10\0\0\x50\0\0\0\x01\0\0\0\x01\0\0\x06\
    \x11\x20\0\0\x12\0\0\0\x13\x20\0\0\x14\0\0\0\0\0\0\0\0\0\0\0\x15\x20\0\0\x16\0\0\0\0\0\0\0\0\0\0\0\
    \x17\x20\0\0\x18\0\0\0\
    BSJB\x01\0\x02\0\0\0\0\0\x0C\0\0\0v4.0.30319\0\0\0\0\x02\0\
    \x40\0\0\0\x08\0\0\0#~\0\0\x48\0\0\0\x08\0\0\0#Strings\0\0\0\0\
    tables..\0\x3CMod\x3E\0\0";

#[test]
fn reads_the_version_of_metadata(rt: HostRuntime) -> Result<(), Fail> {
    let image = image_of(CLR, false);
    let header = ClrHeader::parse(&image, at(0x1000, 72))?;
    let metadata = header.metadata(&image)?;
    assert_eq!(rt; metadata.version_text(), Some("v4.0.30319"));
    Ok(())
}

/// A header of ReadyToRun code of version 9.2 with 5 sections, by the layout; one that is truncated, and one of NGEN.
#[test]
fn reads_ready_to_run_headers(rt: HostRuntime) -> Result<(), Fail> {
    let bytes = b"pad.RTR\0\x09\0\x02\0\x03\0\0\x01\x05\0\0\0";
    let image = image_of(bytes, true);
    let mut header = ClrHeader::parse(&image_of(CLR, false), at(0x1000, 72))?;
    header.managed_native_header = at(0x1004, 16);
    let code = ReadyToRunHeader {
        major_version: 9,
        minor_version: 2,
        flags: 0x0100_0003,
        number_of_sections: 5,
    };
    assert_eq!(rt; header.ready_to_run(&image)?, Some(code));
    for (directory, short) in [
        (at(0x1004, 15), Some((0, 16))),
        (at(0x1004, 4), Some((0, 16))),
        (at(0x1004, 3), None),
        (at(0x1000, 20), None),
        (at(0x3000, 0), None),
        (at(0x1004, 17), Some((4, 17))),
    ] {
        header.managed_native_header = directory;
        match header.ready_to_run(&image) {
            Ok(none) => assert_eq!(rt; (none, short), (None, None)),
            Err(DirectoryError::Image(Error::Short { at, needed })) => {
                assert_eq!(rt; Some((at, needed)), short);
            }
            Err(_) => return Err(Fail::new("another refusal")),
        }
    }
    header.managed_native_header = at(0x3000, 16);
    assert!(rt; is_unmapped(header.ready_to_run(&image), 0x3000));
    Ok(())
}

#[test]
fn refuses_clr_headers(rt: HostRuntime) -> Result<(), Fail> {
    // shows: pe_directories/src/clr.rt parse ClrHeaderSize
    let small = image(rt.alloc(), 72, &[(0, &[71])])?;
    let found = ClrHeader::parse(&image_of(&small, false), at(0x1000, 72));
    assert!(rt; matches!(found, Err(DirectoryError::ClrHeaderSize(71))));
    assert!(rt;
        is_unmapped(
            ClrHeader::parse(&image_of(CLR, false), at(0x3000, 72)),
            0x3000
        )
    );
    let metadata = &CLR[72..];
    assert_matches!(rt; ClrMetadata::parse(&metadata[..15]) =>
        Err(DirectoryError::Image(Error::Short { at: 0, needed: 16 })));
    assert_matches!(rt; ClrMetadata::parse(&metadata[..31]) =>
        Err(DirectoryError::Image(Error::Short { at: 16, needed: 16 })));
    // shows: pe_directories/src/clr.rt parse BadMagic
    assert_matches!(rt; ClrMetadata::parse(&metadata[1..]) =>
        Err(DirectoryError::Image(Error::BadMagic(0x0142_4A53))));
    // The second header is truncated in its numbers, in its name, or in the zeros after the name.
    for (length, is_name) in [(51, false), (52, true), (60, true), (62, false)] {
        let metadata = ClrMetadata::parse(&metadata[..length])?;
        let mut streams = metadata.streams();
        assert!(rt; matches!(streams.next(), Some(Ok(_))));
        match streams.next() {
            Some(Err(DirectoryError::StreamName)) => assert!(rt; is_name),
            Some(Err(DirectoryError::Image(Error::Short { at: 0, .. }))) => assert!(rt; !is_name),
            _ => return Err(Fail::new("a truncated header is read")),
        }
        assert!(rt; streams.next().is_none());
    }
    Ok(())
}

/// The structure of distlib's w32.exe, 0x48 bytes: it ends before the guards of control flow.
#[test]
fn reads_a_load_configuration(rt: HostRuntime) -> Result<(), Fail> {
    let bytes = image(
        rt.alloc(),
        0x48,
        &[
            (0, &[0x48]),
            (0x36, &[0, 8]),
            (0x3C, &[0x84, 0x02, 0x41, 0, 0xA0, 0xF0, 0x40, 0, 3]),
        ],
    )?;
    let config = LoadConfig::parse(&image_of(&bytes, false), at(0x1000, 0x40))?;
    assert_eq!(rt; config.size, 0x48);
    assert_eq!(rt; config.time_date_stamp, Some(0));
    let found = (config.major_version, config.minor_version);
    assert_eq!(rt; found, (Some(0), Some(0)));
    assert_eq!(rt; config.dependent_load_flags, Some(0x800));
    assert_eq!(rt; config.security_cookie, Some(0x41_0284));
    assert_eq!(rt; config.se_handler_table, Some(0x40_F0A0));
    assert_eq!(rt; config.se_handler_count, Some(3));
    assert_eq!(rt; config.guard_cf_check_function_pointer, None);
    assert_eq!(rt; config.guard_flags, None);
    // With the fields of Control Flow Guard.
    let bytes = image(
        rt.alloc(),
        0x5C,
        &[
            (0, &[0x5C]),
            (0x48, &[4, 0x90, 0x41, 0, 5, 0, 0, 0, 6, 0, 0, 0, 7]),
            (0x58, &[0, 1]),
        ],
    )?;
    let config = LoadConfig::parse(&image_of(&bytes, false), at(0x1000, 0x40))?;
    assert_eq!(rt; config.guard_cf_check_function_pointer, Some(0x41_9004));
    assert_eq!(rt; config.guard_cf_dispatch_function_pointer, Some(5));
    assert_eq!(rt; config.guard_cf_function_table, Some(6));
    assert_eq!(rt; config.guard_cf_function_count, Some(7));
    assert_eq!(rt; config.guard_flags, Some(0x100));
    Ok(())
}

/// An entry by RVAs, of PE32+, and one by virtual addresses, of PE32.
#[test]
fn refuses_delay_imports(rt: HostRuntime) -> Result<(), Fail> {
    for (is_64, attributes, base) in [(true, 1, 0), (false, 0, 0x40)] {
        let parts: [(usize, &[u8]); 2] = [
            (0, &[attributes, 0, 0, 0, 0x40, 0x10, base]),
            (0x28, &[1]),
        ];
        let mut bytes = image(rt.alloc(), 0x80, &parts)?;
        let parts = image_of(&bytes, is_64);
        let mut entries = DelayImports::parse(&parts, at(0x1000, 0x40))?;
        let Some(Ok(entry)) = entries.next() else {
            return Err(Fail::new("no entry"));
        };
        let base = u32::from(base) << 16;
        // A name that does not end, a truncated hint, and a directory of half an entry more.
        assert_matches!(rt; entry.imported(&parts, u64::from(base) + 0x107F) =>
            Err(DirectoryError::Image(Error::Short { at: 0x7F, needed: 2 })));
        // shows: pe_directories/src/delay_import.rt name_at DelayImportName
        bytes[0x7F] = 1;
        let parts = image_of(&bytes, is_64);
        assert_matches!(rt; entry.imported(&parts, u64::from(base) + 0x107D) =>
            Err(DirectoryError::DelayImportName(0x7F)));
        let mut entries = DelayImports::parse(&parts, at(0x1000, 0x30))?;
        assert!(rt; matches!(entries.next(), Some(Ok(_))));
        assert_matches!(rt; entries.next() =>
            Some(Err(DirectoryError::Image(Error::Short { at: 0, needed: 32 }))));
        assert!(rt; entries.next().is_none());
        let mut entries = DelayImports::parse(&parts, at(0x1000, 0x20))?;
        assert!(rt; matches!(entries.next(), Some(Ok(_))));
        assert!(rt; entries.next().is_none());
    }
    Ok(())
}

/// An entry with virtual addresses in PE32+, whose base is 2 GiB, and one near the end of the address space: `f` with hint 5. In
/// PE32 such an address is an ordinal. Where the entry has RVAs, the bits above 31 do not count.
#[test]
fn reads_delay_imports_above_2_gib(rt: HostRuntime) -> Result<(), Fail> {
    let alloc = rt.alloc();
    let bytes = image(
        alloc,
        0x80,
        &[
            (0x04, &[0x40, 0x10, 0, 0x80]),
            (0x10, &[0x50, 0x10, 0, 0x80]),
            (0x40, b"d.dll\0\0\0\x05\0f\0"),
            (0x50, &[0x48, 0x10, 0, 0x80]),
        ],
    )?;
    let named = DelayedFunction::Name { hint: 5, name: "f" };
    let mut parts = image_of(&bytes, true);
    parts.image_base = 0x8000_0000;
    let Some(Ok(entry)) = DelayImports::parse(&parts, at(0x1000, 0x20))?.next() else {
        return Err(Fail::new("no entry"));
    };
    assert_eq!(rt; entry.dll(&parts)?, "d.dll");
    assert_eq!(rt; entry.imported(&parts, 0x8000_1048)?, named);
    assert_eq!(rt; entry.offset_of_hint(&parts, 0x8000_1048)?, 0x48);
    let functions = entry.functions(alloc, &IndexedImage::new(alloc, &parts)?)?;
    assert_eq!(rt; functions.as_slice(), [named].as_slice());
    assert_matches!(rt; entry.imported(&parts, 0x1048) => Err(DirectoryError::VaBelowBase(0x1048)));
    parts.image_base = 0x7FFF_FFFF_0000_0000;
    assert_eq!(rt; entry.imported(&parts, 0x7FFF_FFFF_0000_1048)?, named);
    parts.is_64 = false;
    let found = entry.imported(&parts, 0x8000_1048)?;
    assert_eq!(rt; found, DelayedFunction::Ordinal(0x1048));
    let by_rva = DelayImport {
        attributes: 1,
        ..entry
    };
    parts.is_64 = true;
    assert_eq!(rt; by_rva.imported(&parts, 0x7FFF_0000_8000_1048)?, named);
    Ok(())
}

fn optional_header_of<'h>(header: &'h Header<'_>) -> Result<&'h OptionalHeader, Fail> {
    match &header.optional_header {
        Some(optional_header) => Ok(optional_header),
        None => Err(Fail::new("no optional header")),
    }
}

/// A damaged directory costs itself.
#[test]
fn reads_the_chosen_directories(rt: HostRuntime) -> Result<(), Fail> {
    let bytes = with_every_directory(rt.alloc())?;
    let opts = ParseOptions::default();
    let mut header = Header::parse_with_opts(&bytes, &opts)?;
    let Some(optional_header) = &mut header.optional_header else {
        return Err(Fail::new("no optional header"));
    };
    let entries = &mut optional_header.data_directories;
    entries.set(9, at(0x3F_0000, 40));
    entries.set(10, at(0, 0));
    let optional_header = optional_header_of(&header)?;
    let image = ImageBytes::new(&bytes, optional_header, &[SECTION], &opts);
    assert!(rt; image.is_64);
    assert_eq!(rt; image.image_base, optional_header.windows_fields.image_base);
    let entries = &optional_header.data_directories;
    let read = Directories::parse(&image, entries, ChosenDirectories::all());
    assert!(rt; read.load_config.is_none());
    let Some(tls) = read.tls else {
        return Err(Fail::new("the TLS directory is left out"));
    };
    assert!(rt; is_unmapped(tls, 0x3F_0000));
    let mut chosen = ChosenDirectories::all();
    chosen.tls = false;
    assert!(rt; Directories::parse(&image, entries, chosen).tls.is_none());
    Ok(())
}

/// A name, and one that is not NUL-terminated.
#[test]
fn refuses_names_of_bound_imports(rt: HostRuntime) -> Result<(), Fail> {
    let directory = BoundImportDirectory::parse(b"skipone.dll\0six.dll", at(4, 15))?;
    assert_eq!(rt; directory.name(0)?, "one.dll");
    // shows: pe_directories/src/bound_import.rt name BoundImportName
    assert!(rt; matches!(directory.name(8), Err(DirectoryError::BoundImportName(8))));
    Ok(())
}

/// The first 232 bytes of t32.exe of distlib 0.3.8, a launcher that Microsoft's linker made. The entries are those that pefile
/// 2023.2.7 prints, and the key is the checksum since nobody changed them.
const T32: &[u8] = b"MZ\x90\0\x03\0\0\0\x04\0\0\0\xFF\xFF\0\0\xB8\0\0\0\0\0\0\0\x40\0\0\0\0\0\0\0\
    \0\0\0\0\0\0\0\0\0\0\0\0\0\0\0\0\0\0\0\0\0\0\0\0\0\0\0\0\xE8\0\0\0\
    \x0E\x1F\xBA\x0E\0\xB4\x09\xCD\x21\xB8\x01\x4C\xCD\x21This program cannot be run in DOS mode.\x0D\x0D\x0A\x24\
    \0\0\0\0\0\0\0\x8C\x71\xCD\x76\xC8\x10\xA3\x25\xC8\x10\xA3\x25\xC8\x10\xA3\x25\
    \x5B\x5E\x3B\x25\xC9\x10\xA3\x25\xD3\x8D\x08\x25\xE9\x10\xA3\x25\xD3\x8D\x3D\x25\xC7\x10\xA3\x25\
    \xD3\x8D\x09\x25\xB1\x10\xA3\x25\xC1\x68\x30\x25\xCD\x10\xA3\x25\xC8\x10\xA2\x25\x97\x10\xA3\x25\
    \xD3\x8D\x0D\x25\xC9\x10\xA3\x25\xD3\x8D\x39\x25\xC9\x10\xA3\x25\xD3\x8D\x3E\x25\xC9\x10\xA3\x25\
    Rich\xC8\x10\xA3\x25\0\0\0\0\0\0\0\0";

/// What hid the header, or stands beside it: a word `Rich` in the DOS header and after the key, another header before it.
#[test]
fn finds_the_last_rich_header(rt: HostRuntime) -> Result<(), Fail> {
    let mut bytes = [0; 512];
    bytes[..232].copy_from_slice(T32);
    for offset in [24, 64, 120, 224, 228] {
        let mut damaged = bytes;
        damaged[offset..offset + 4].copy_from_slice(b"Rich");
        let Some(header) = RichHeader::find(&damaged[..232]) else {
            return Err(Fail::new("no Rich header"));
        };
        let found = (header.key, header.before.len());
        assert_eq!(rt; found, (0x25A3_10C8, 128), "{offset}");
        assert_eq!(rt; header.len(), 9, "{offset}");
    }
    // Two headers: the last one.
    bytes[240..344].copy_from_slice(&T32[128..232]);
    for end in [232, 344] {
        let Some(header) = RichHeader::find(&bytes[..end]) else {
            return Err(Fail::new("no Rich header"));
        };
        let start = if end == 232 { 128 } else { 240 };
        assert_eq!(rt; (header.before.len(), header.len()), (start, 9));
    }
    // Each of the words before the entries, and `Rich`.
    for offset in [128, 132, 136, 140, 216] {
        let mut damaged = [0; 232];
        damaged.copy_from_slice(T32);
        damaged[offset] ^= 1;
        assert!(rt; RichHeader::find(&damaged).is_none(), "{offset}");
    }
    Ok(())
}

/// 1 MiB of words: all of them `Rich`, all of them `DanS` under the key that stands last, and both by turns. To look from each for
/// the other would take minutes.
#[test]
fn many_words_rich(rt: HostRuntime) -> Result<(), Fail> {
    for words in [b"RichRich", b"DanSDanS", b"RichDanS"] {
        let mut bytes = Vec::with_capacity(rt.alloc(), 0x10_0008)?;
        for _ in 0..0x2_0000u32 {
            bytes.extend_from_slice(words)?;
        }
        bytes.extend_from_slice(b"Rich\0\0\0\0")?;
        assert!(rt; RichHeader::find(&bytes).is_none());
    }
    Ok(())
}

#[test]
fn finds_no_rich_header(rt: HostRuntime) -> Result<(), Fail> {
    // The key is cut off, as are `Rich` and `DanS`.
    assert!(rt; RichHeader::find(&T32[..223]).is_none());
    assert!(rt; RichHeader::find(&T32[..216]).is_none());
    assert!(rt; RichHeader::find(&T32[132..]).is_none());
    // No whole entries: the end of the three words, and half an entry.
    assert!(rt; RichHeader::find(b"DanS\0\0\0\0\0\0\0\0Rich\0\0\0\0").is_none());
    let half = b"DanS\0\0\0\0\0\0\0\0\0\0\0\0half";
    assert!(rt; RichHeader::find(b"DanS\0\0\0\0\0\0\0\0\0\0\0\0halfRich\0\0\0\0").is_none());
    assert_eq!(rt; half.len(), 20);
    let Some(empty) = RichHeader::find(b"DanS\0\0\0\0\0\0\0\0\0\0\0\0Rich\0\0\0\0") else {
        return Err(Fail::new("no empty Rich header"));
    };
    assert_eq!(rt; (empty.len(), empty.checksum()), (0, 0));
    Ok(())
}

#[test]
fn texts(rt: HostRuntime) -> Result<(), Fail> {
    for (error, text) in [
        (
            DirectoryError::BlockTruncated {
                size: 12,
                length: 11,
            },
            "base relocation block truncated: 12 bytes needed, 11 left",
        ),
        (
            DirectoryError::NoArgument(0x2007),
            "base relocation at RVA 0x2007 has no argument",
        ),
    ] {
        let shown = format!(in rt.alloc(); "{error}")?;
        assert_eq!(rt; shown.as_str(), text);
    }
    Ok(())
}
