//! Reads an image by the crate with goblin's names, by goblin 0.2.1, whose names are the same, or by the iterators of pe-c, for
//! bench/dropin:
//!
//!     dropin_bench ours|theirs|iterators WHAT FILE
//!
//! It prints how many items it has read, by which bench/dropin sees that both read the same. WHAT is what is read:
//!
//! - `nothing`: the file alone;
//! - `parse`: the image; of pe-c its headers and sections;
//! - `names`: the image, and then its exports and imports once more, of the tables that it has found; pe-c finds these too;
//! - `functions`, `records`, `codes`, `lookups`: the image, and then its x64 functions; the unwind record of each; each record
//!   with its codes; by an address in each function the function.

use std::hint::black_box;

macro_rules! reader {
    ($name:ident, $goblin:ident) => {
        mod $name {
            use super::*;
            use $goblin::pe::{
                exception::ExceptionData, export::Export, import::Import, section_table::SectionTable, PE,
            };

            pub fn read(bytes: &[u8], what: &str) -> usize {
                let Ok(pe) = black_box(PE::parse(bytes)) else { return 0 };
                match (what, &pe.exception_data) {
                    ("parse", _) => pe.exports.len() + pe.imports.len(),
                    ("names", _) => names(&pe, bytes),
                    (what, Some(data)) => functions(data, &pe.sections, what),
                    (_, None) => 0,
                }
            }

            fn names(pe: &PE<'_>, bytes: &[u8]) -> usize {
                let alignment = pe.header.optional_header.map_or(0, |it| it.windows_fields.file_alignment);
                let exports = pe.export_data.as_ref().map_or(0, |data| {
                    black_box(Export::parse(bytes, data, &pe.sections, alignment)).map_or(0, |all| all.len())
                });
                exports
                    + pe.import_data.as_ref().map_or(0, |data| {
                        let imports = if pe.is_64 {
                            Import::parse::<u64>(bytes, data, &pe.sections)
                        } else {
                            Import::parse::<u32>(bytes, data, &pe.sections)
                        };
                        black_box(imports).map_or(0, |all| all.len())
                    })
            }

            fn functions(data: &ExceptionData<'_>, sections: &[SectionTable], what: &str) -> usize {
                let all = data.functions().flatten();
                match what {
                    "functions" => all.filter(|it| black_box(it).begin_address != 0).count(),
                    "records" => all.filter(|it| black_box(data.get_unwind_info(*it, sections)).is_ok()).count(),
                    "codes" => all
                        .flat_map(|it| data.get_unwind_info(it, sections))
                        .map(|it| it.unwind_codes().filter(|code| black_box(code).is_ok()).count())
                        .sum(),
                    "lookups" => all.filter(|it| is_found(data, (it.begin_address + it.end_address) / 2)).count(),
                    _ => 0,
                }
            }

            fn is_found(data: &ExceptionData<'_>, rva: u32) -> bool {
                matches!(black_box(data.find_function(black_box(rva))), Ok(Some(_)))
            }
        }
    };
}

reader!(ours, dropin);
reader!(theirs, goblin);

mod iterators {
    use super::black_box;
    use pe_c::{Image, Mode};

    pub fn read(bytes: &[u8], what: &str) -> usize {
        let Ok(image) = black_box(Image::parse(bytes, Mode::Permissive)) else { return 0 };
        if what != "names" {
            return 0;
        }
        // goblin leaves out an export whose RVA is 0, and so does the crate.
        let exports = image.exports().map_or(0, |all| all.flatten().filter(|it| black_box(it).rva != 0).count());
        let libraries = image.libraries().into_iter().flatten().flatten();
        exports
            + libraries
                .map(|it| it.imports().flatten().filter(|it| black_box(it).rva != u64::MAX).count())
                .sum::<usize>()
    }
}

fn main() {
    let words: Vec<String> = std::env::args().collect();
    let [_, who, what, path] = &words[..] else { panic!("dropin_bench ours|theirs|iterators WHAT FILE") };
    let bytes = std::fs::read(path).expect("a file that can be read");
    let count = match (who.as_str(), what.as_str()) {
        (_, "nothing") => 0,
        ("ours", what) => ours::read(&bytes, what),
        ("iterators", what) => iterators::read(&bytes, what),
        (_, what) => theirs::read(&bytes, what),
    };
    println!("{count}");
}
