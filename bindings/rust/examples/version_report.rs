//! Prints the versions of images, a line each: file version, product version, product, company.
//!
//!     cargo run --example version_report FILE ..

use pe_c::{Error, Image, Mode, VersionName};

/// Four numbers as Windows shows a version.
fn dotted(numbers: [u16; 4]) -> String {
    numbers.map(|number| number.to_string()).join(".")
}

/// A text of an image as it may be printed: control characters are escaped.
fn shown(characters: impl Iterator<Item = char>) -> String {
    let shown = |it: char| if it.is_control() { it.escape_default().to_string() } else { it.to_string() };
    characters.map(shown).collect()
}

/// The version of an image, or `None` without version information. A string that is missing is empty.
pub fn version_line(bytes: &[u8]) -> Result<Option<String>, Error> {
    let image = Image::parse(bytes, Mode::Permissive)?;
    let Some(fixed) = image.version()? else { return Ok(None) };
    let mut fields = vec![dotted(fixed.file_version()), dotted(fixed.product_version())];
    for name in [VersionName::ProductName, VersionName::CompanyName] {
        let text = image.version_text(name)?;
        fields.push(text.map_or(String::new(), |text| shown(text.characters())));
    }
    Ok(Some(fields.join("\t")))
}

/// The status is 1 where a file is not read, or no image.
fn main() -> std::process::ExitCode {
    let (names, mut status) = (std::env::args().skip(1), 0);
    if names.len() == 0 {
        eprintln!("usage: version_report FILE ..");
        status = 2;
    }
    for name in names {
        let line = std::fs::read(&name).map_err(|it| it.to_string());
        match line.and_then(|bytes| version_line(&bytes).map_err(|it| it.to_string())) {
            Ok(line) => println!("{name}\t{}", line.as_deref().unwrap_or("no version information")),
            Err(error) => {
                println!("{name}\t{error}");
                status = 1;
            }
        }
    }
    status.into()
}
