//! Prints what an image imports, a line each with DLL and name, and what it exports, with ordinal and name.
//!
//!     cargo run --example names FILE

use pe_c::{Error, Image, Mode};

/// A name of an image as it may be printed: control characters are escaped.
fn shown(name: &str) -> String {
    let shown = |it: char| if it.is_control() { it.escape_default().to_string() } else { it.to_string() };
    name.chars().map(shown).collect()
}

/// The lines of an image. A list that is damaged is an error, and the lines before it are lost with it.
pub fn names(bytes: &[u8]) -> Result<Vec<String>, Error> {
    let image = Image::parse(bytes, Mode::Permissive)?;
    let mut lines = Vec::new();
    for library in image.libraries()? {
        let library = library?;
        for import in library.imports() {
            let import = import?;
            let name = import.name.map_or(format!("#{}", import.ordinal), shown);
            lines.push(format!("import {} {name}", shown(library.name)));
        }
    }
    let Some(table) = image.export_addresses()? else { return Ok(lines) };
    // Each export has an ordinal, and any number of names.
    let mut names = vec![Vec::new(); table.len() as usize];
    for export in image.exports()? {
        let export = export?;
        names[export.index as usize].push(shown(export.name));
    }
    for (export, names) in table.iter().zip(names).filter(|(export, _)| export.rva != 0) {
        let forwarder = export.forwarder.map(|to| format!("-> {}", shown(to)));
        let words = [format!("export #{}", export.ordinal)].into_iter().chain(names).chain(forwarder);
        lines.push(words.collect::<Vec<_>>().join(" "));
    }
    Ok(lines)
}

fn main() -> Result<(), Box<dyn std::error::Error>> {
    let words: Vec<String> = std::env::args().skip(1).collect();
    let [name] = &words[..] else {
        eprintln!("usage: names FILE");
        std::process::exit(2);
    };
    for line in names(&std::fs::read(name)?)? {
        println!("{line}");
    }
    Ok(())
}
