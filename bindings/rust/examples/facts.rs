//! Shows what an image says, one fact a line, all of which are the same for a file and for the image as loaded:
//! `facts FILE [--mapped]`. With `--mapped` FILE holds an image as loaded.

#[path = "../tests/facts/mod.rs"]
mod facts;

use pe_c::{Image, Layout, Mode};

fn main() {
    let words: Vec<String> = std::env::args().skip(1).collect();
    let (file, layout) = match words.as_slice() {
        [file] => (file, Layout::File),
        [file, word] if word == "--mapped" => (file, Layout::Mapped),
        _ => {
            eprintln!("usage: facts FILE [--mapped]");
            std::process::exit(2);
        }
    };
    let bytes = match std::fs::read(file) {
        Ok(bytes) => bytes,
        Err(error) => {
            eprintln!("facts: {file}: {error}");
            std::process::exit(3);
        }
    };
    match Image::parse_as(&bytes, Mode::Permissive, layout) {
        Ok(image) => println!("{}", facts::facts(&image).join("\n")),
        Err(error) => println!("refused {error:?}"),
    }
}
