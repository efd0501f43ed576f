//! What each file is, by `Object::parse`, and what is in it.
//!
//!     objects FILE ..
//!
//! It needs the feature `rest`, compiles over goblin 0.2.1 too, and `tools/try_goblin` compares what both print.

use goblin::pe::PE;
use goblin::{error, Object};

fn show_image(pe: &PE<'_>) {
    println!("image, entry {:#x}, base {:#x}, DLL {}, 64 bits {}", pe.entry, pe.image_base, pe.is_lib, pe.is_64);
    for it in &pe.sections {
        println!("section {:?} {:#x} {:#x}", it.name().ok(), it.virtual_address, it.characteristics);
    }
    for it in &pe.exports {
        println!("export {:?} {:#x}", it.name, it.rva);
    }
    for it in &pe.imports {
        println!("import {} of {}, {:#x}", it.name, it.dll, it.offset);
    }
}

fn show(bytes: &[u8]) -> error::Result<()> {
    match Object::parse(bytes)? {
        Object::PE(pe) => show_image(&pe),
        Object::Elf(elf) => println!("{elf:#?}"),
        Object::Mach(mach) => println!("{mach:#?}"),
        Object::Archive(archive) => println!("{archive:#?}"),
        Object::Unknown(magic) => println!("unknown, {magic:#x}"),
        // TE images and objects, which 0.2.1 does not know.
        #[allow(unreachable_patterns)]
        other => println!("{other:#?}"),
    }
    Ok(())
}

fn main() -> std::io::Result<()> {
    for path in std::env::args().skip(1) {
        println!("{path}");
        if let Err(error) = show(&std::fs::read(&path)?) {
            println!("refused");
            eprintln!("{path}: {error}");
        }
    }
    Ok(())
}
