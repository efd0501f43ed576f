//! The feature `rest`: other formats by goblin itself, images by this crate, and one error type.
#![cfg(feature = "rest")]

use goblin::{error, peek_bytes, Hint, Object};

const IMAGE: &[u8] = include_bytes!(concat!(env!("CARGO_MANIFEST_DIR"), "/../../crates/peinfo/data/i.bin"));

#[test]
fn an_image_is_this_crates_and_other_formats_are_goblins() -> error::Result<()> {
    let program = std::fs::read(std::env::current_exe()?)?;
    assert!(matches!(Object::parse(&program)?, Object::Elf(elf) if elf.is_64 && !elf.syms.is_empty()));
    assert!(matches!(Object::parse(IMAGE)?, Object::PE(pe) if pe.entry == 0x1000));
    assert!(matches!(Object::parse(b"no format has these bytes")?, Object::Unknown(_)));
    let start = IMAGE[..16].try_into().expect("sixteen bytes");
    assert!(matches!(peek_bytes(start)?, Hint::PE));
    Ok(())
}
