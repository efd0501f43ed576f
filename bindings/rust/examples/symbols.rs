//! Prints where a symbol server has the PDB of an image, and the image.
//!
//!     cargo run --example symbols FILE

use pe_c::{Error, Image, Mode};

/// The paths on a symbol server of an image's PDB, such as `a.pdb/497B72F6390A44FC878E5A2D63B6CC4B1/a.pdb` or before PDB 7.0
/// `a.pdb/32C9A9001/a.pdb`, and of the image, whose file has this name. One that has no such path is left out.
pub fn symbol_paths(bytes: &[u8], file_name: &str) -> Result<Vec<String>, Error> {
    let image = Image::parse(bytes, Mode::Permissive)?;
    let pdb = image.symbol_key()?.and_then(|key| key.path());
    let older = image.pdb20()?.and_then(|record| record.path());
    let own = image.info().symbol_path(file_name);
    Ok([pdb, older, own].into_iter().flatten().map(|path| path.to_string()).collect())
}

fn main() -> Result<(), Box<dyn std::error::Error>> {
    let words: Vec<String> = std::env::args().skip(1).collect();
    let [name] = &words[..] else {
        eprintln!("usage: symbols FILE");
        std::process::exit(2);
    };
    for path in symbol_paths(&std::fs::read(name)?, name)? {
        println!("{path}");
    }
    Ok(())
}
