//! Writes an image with the name of a company in its version information.
//!
//!     cargo run --example set_company FILE NAME OUT

use pe_c::{Error, Image, Mode, ResourceEditor, VersionInfo};

/// The image with one string of its version information set in each language that it has, or in English where it has none: the name
/// of the company. All other strings and resources stay as they are.
pub fn with_company(bytes: &[u8], name: &str) -> Result<Vec<u8>, Error> {
    let image = Image::parse(bytes, Mode::Permissive)?;
    let mut editor = ResourceEditor::of(&image)?;
    // RT_VERSION, and the id that Windows looks for.
    let mut languages = editor.languages(&16.into(), &1.into());
    if languages.is_empty() {
        languages.push(0x409);
    }
    for language in languages {
        let place = (16.into(), 1.into(), language);
        let content = editor.get(&place).map_or(&[][..], |it| &it.bytes);
        let mut version = VersionInfo::of(content)?.unwrap_or_else(|| VersionInfo::new(language));
        version.set_string("CompanyName", name)?;
        let content = version.to_bytes()?;
        editor.set(16.into(), 1.into(), language, content);
    }
    editor.write()
}

fn main() -> Result<(), Box<dyn std::error::Error>> {
    let words: Vec<String> = std::env::args().skip(1).collect();
    let [file, name, out] = &words[..] else {
        eprintln!("usage: set_company FILE NAME OUT");
        std::process::exit(2);
    };
    let changed = with_company(&std::fs::read(file)?, name)?;
    // A file that is there stays: FILE, too.
    std::io::Write::write_all(&mut std::fs::File::create_new(out)?, &changed)?;
    Ok(())
}
