//! Why items of iterators, and what is read by its key, are errors. Expected values come from how the images are made.

use crate::made::*;
use pe_c::{Arm64Unwinding, Coff, DirectoryIndex, Error, Failure, Image, Mode, Te};

/// The file offset of a directory.
fn start_of(image: &Image<'_>, index: DirectoryIndex) -> usize {
    image.offset(image.info().directory(index).unwrap().virtual_address).unwrap() as usize
}

fn put(bytes: &mut [u8], offset: usize, number: u32) {
    bytes[offset..offset + 4].copy_from_slice(&number.to_le_bytes());
}

/// The error of the last item, and why it is one: both or none.
fn last<T>(items: impl Iterator<Item = Result<T, Error>>) -> Option<Error> {
    items.last().and_then(Result::err)
}

/// Tests that there is a failure exactly where an item was an error, and of the same error.
fn agree(error: Option<Error>, failure: Option<Failure>) {
    assert_eq!(error, failure.map(|it| it.error), "{failure:?}");
}

/// How many errors a walk to the end of a list meets: its own, which it tests, and those that are met in each item.
macro_rules! errors_of {
    ($items:expr) => { errors_of!($items, _item => 0) };
    ($items:expr, $item:ident => $inner:expr) => {{
        let (mut items, mut errors) = ($items, 0);
        let error = last(items.by_ref().map(|item| item.map(|$item| errors += $inner)));
        agree(error, items.failure());
        errors + usize::from(error.is_some())
    }};
}

/// Tests the error of what is read by its key, and its failure; returns how many errors that are.
fn error_of<T>(found: Result<T, Error>, failure: Option<Failure>) -> usize {
    let error = found.err();
    agree(error, failure);
    usize::from(error.is_some())
}

/// Walks over all lists of an image that have failures, and returns how many errors it met.
fn walk(image: &Image<'_>) -> usize {
    let mut errors = errors_of!(image.certificates());
    if let Ok(libraries) = image.libraries() {
        errors += errors_of!(libraries, library => errors_of!(library.imports()));
    }
    if let Ok(libraries) = image.delay_imports() {
        errors += errors_of!(libraries, library => errors_of!(library.functions()));
    }
    if let Ok(imports) = image.imports() {
        errors += errors_of!(imports);
    }
    if let Ok(functions) = image.delayed_functions() {
        errors += errors_of!(functions);
    }
    if let Ok(imports) = image.bound_imports() {
        errors += errors_of!(imports, import => errors_of!(import.forwarders()));
    }
    if let Ok(forwarders) = image.bound_forwarders() {
        errors += errors_of!(forwarders);
    }
    if let Ok(Some(leaves)) = image.resource_leaves() {
        errors += errors_of!(leaves);
    }
    if let Ok(blocks) = image.relocation_blocks() {
        errors += errors_of!(blocks, block => errors_of!(block.relocations()));
    }
    if let Ok(Some(symbols)) = image.symbols() {
        errors += symbols.flatten().map(|it| error_of(it.name(), it.name_failure())).sum::<usize>();
    }
    errors + walk_functions(image)
}

/// The same of the functions of an image, their records and codes.
fn walk_functions(image: &Image<'_>) -> usize {
    let mut errors = 0;
    if let Ok(Some(functions)) = image.functions() {
        for function in functions.iter() {
            let record = functions.record(function);
            errors += error_of(record.as_ref().map_err(|it| *it), functions.record_failure(function));
            if let Ok(record) = record {
                errors += errors_of!(record.codes());
            }
        }
    }
    if let Ok(Some(functions)) = image.arm64_functions() {
        for function in functions.iter() {
            let unwinding = functions.unwinding(function);
            errors += error_of(unwinding.as_ref().map_err(|it| *it), functions.unwinding_failure(function));
            if let Ok(Arm64Unwinding::Record(record)) = unwinding {
                errors += record.codes(0).map_or(0, |codes| errors_of!(codes));
            }
        }
    }
    errors
}

/// Each byte of each image set to 255, and to one more than it is.
#[test]
fn damaged_images_have_the_failures_of_their_errors() {
    let mut errors = 0;
    for (_, bytes) in all() {
        let mut damaged = bytes.clone();
        for i in 0..bytes.len() {
            for byte in [0xFF, bytes[i].wrapping_add(1)] {
                damaged[i] = byte;
                if let Ok(image) = Image::parse(&damaged, Mode::Permissive) {
                    errors += walk(&image);
                }
            }
            damaged[i] = bytes[i];
        }
    }
    assert!(errors > 1000, "{errors}");
}

#[test]
fn failures_of_imports_have_rvas() {
    let mut bytes = with_imports();
    let start = start_of(&Image::parse(&bytes, Mode::Strict).unwrap(), DirectoryIndex::Import);
    put(&mut bytes, start + 20 + 12, 0x0123_4567);
    let image = Image::parse(&bytes, Mode::Strict).unwrap();
    let mut libraries = image.libraries().unwrap();
    assert_eq!(libraries.failure(), None);
    assert!(libraries.next().unwrap().is_ok());
    assert_eq!(libraries.failure(), None);
    assert_eq!(libraries.next().unwrap().unwrap_err(), Error::UNMAPPED);
    let failure = libraries.failure().unwrap();
    assert_eq!((failure.error, failure.value), (Error::UNMAPPED, Some(0x0123_4567)));
    assert!(failure.to_string().starts_with("RVA 0x1234567 maps to no file offset"));
    // It stays after the end.
    assert!(libraries.next().is_none());
    assert_eq!(libraries.failure(), Some(failure));
    // The same of the walk over the imports of all, whose first items are those of the DLL before it.
    let mut imports = image.imports().unwrap();
    assert_eq!((imports.by_ref().filter(Result::is_ok).count(), imports.failure()), (2, Some(failure)));
}

#[test]
fn failures_of_forwarders_have_the_offset_of_the_name() {
    let mut bytes = with_bound_imports();
    let image = Image::parse(&bytes, Mode::Strict).unwrap();
    let start = image.info().directory(DirectoryIndex::BoundImport).unwrap().virtual_address as usize;
    // The name of the first forwarder, whose entry follows the 8 bytes of its DLL, is past the directory's 64 bytes.
    put(&mut bytes, start + 8 + 4, 0x50);
    let image = Image::parse(&bytes, Mode::Strict).unwrap();
    let mut forwarders = image.bound_imports().unwrap().next().unwrap().unwrap().forwarders();
    assert_eq!(forwarders.failure(), None);
    assert_eq!(last(forwarders.by_ref()), Some(Error::DIRECTORY_BOUND_IMPORT_NAME));
    let failure = forwarders.failure().unwrap();
    assert_eq!((failure.error, failure.offset, failure.value), (Error::DIRECTORY_BOUND_IMPORT_NAME, 0x50, None));
    let mut all = image.bound_forwarders().unwrap();
    assert_eq!((last(all.by_ref()), all.failure()), (Some(failure.error), Some(failure)));
}

#[test]
fn failures_of_headers_of_others() {
    let bytes = object();
    assert_eq!(Coff::failure(&bytes), None);
    let failure = Coff::failure(&bytes[..19]).unwrap();
    assert_eq!((failure.error, failure.offset, failure.needed), (Error::SHORT, 0, 20));
    let count = Coff::parse(&bytes).unwrap().sections().len();
    let failure = Coff::failure(&bytes[..20 + 40 * count - 1]).unwrap();
    assert_eq!((failure.error, failure.offset, failure.needed), (Error::SHORT, 20, 40 * count as u64));
    let bytes = te_image();
    assert_eq!(Te::failure(&bytes), None);
    let failure = Te::failure(&bytes[..79]).unwrap();
    assert_eq!(failure.to_string(), "truncated: 40 bytes needed at offset 0x28");
}
