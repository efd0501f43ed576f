//! Images of many sections, of which an index is made: what is read of them is what is read of an image with one section.

use crate::made;

use pe_c::{sys, Image, Mode};
use std::time::{Duration, Instant};

/// The image with its one section after 39 that are empty: all section headers stand at the end of the file, where the size of the
/// optional header leads to.
fn after_empty_sections(mut image: Vec<u8>) -> Vec<u8> {
    let start = u32::from_le_bytes(image[0x3C..0x40].try_into().unwrap()) as usize;
    let size = u16::from_le_bytes(image[start + 20..start + 22].try_into().unwrap()) as usize;
    let section = image[start + 24 + size..][..40].to_vec();
    let size = (image.len() - start - 24) as u16;
    image[start + 6..start + 8].copy_from_slice(&40u16.to_le_bytes());
    image[start + 20..start + 22].copy_from_slice(&size.to_le_bytes());
    image.extend([0; 39 * 40]);
    image.extend(section);
    image
}

#[test]
fn exports_of_many_sections() {
    let bytes = after_empty_sections(made::with_exports());
    let image = Image::parse(&bytes, Mode::Permissive).unwrap();
    assert_eq!(image.sections().len(), 40);
    let exports = image.exports().unwrap().map(Result::unwrap);
    let found: Vec<_> = exports.map(|export| (export.name, export.rva, export.offset)).collect();
    assert_eq!(found, [("first", 0x9_0000, None), ("second", 0x1004, Some(0x404))]);
}

#[test]
fn sections_of_rvas_among_many() {
    let bytes = after_empty_sections(made::with_exports());
    let image = Image::parse(&bytes, Mode::Strict).unwrap();
    let last = image.section_at(0x1004).unwrap();
    assert!(std::ptr::eq(last, &image.sections()[39]));
    assert!(image.section_at(0xFFF).is_none());
    assert!(image.section_at(0x9_0000).is_none());
}

#[test]
fn imports_of_many_sections() {
    let bytes = after_empty_sections(made::with_imports());
    let image = Image::parse(&bytes, Mode::Permissive).unwrap();
    let mut found = Vec::new();
    for library in image.libraries().unwrap() {
        let library = library.unwrap();
        found.extend(library.imports().map(|import| (library.name, import.unwrap().name)));
    }
    let kernel = "KERNEL32.dll";
    assert_eq!(found, [(kernel, Some("Sleep")), (kernel, None), ("a.dll", Some("f"))]);
}

/// What calls for directories return of an image, and how many items each walk has.
fn directories_of(bytes: &[u8]) -> [String; 14] {
    let image = Image::parse(bytes, Mode::Permissive).unwrap();
    [
        format!("{:?}", image.export_directory()),
        format!("{:?}", image.libraries().map(Iterator::count)),
        format!("{:?}", image.resource_leaves().map(|found| found.map(Iterator::count))),
        format!("{:?}", image.resource_root().map(|found| found.map(|root| root.items().count()))),
        format!("{:?}", image.manifest()),
        format!("{:?}", image.version()),
        format!("{:?}", image.functions().map(|found| found.map(|table| table.iter().count()))),
        format!("{:?}", image.relocation_blocks().map(Iterator::count)),
        format!("{:?}", image.debug_entry(2)),
        format!("{:?}", image.symbol_key()),
        format!("{:?}", image.tls().map(|found| found.map(|_| ()))),
        format!("{:?}", image.load_config()),
        format!("{:?}", image.delay_imports().map(Iterator::count)),
        format!("{:?}", image.clr().map(|found| found.map(|clr| clr.metadata().is_ok()))),
    ]
}

#[test]
fn directories_of_many_sections() {
    let mut there = [false; 14];
    for (name, bytes) in made::all() {
        if Image::parse(&bytes, Mode::Permissive).unwrap().sections().len() != 1 {
            continue;
        }
        let found = directories_of(&bytes);
        assert_eq!(directories_of(&after_empty_sections(bytes)), found, "{name}");
        for (is_there, part) in there.iter_mut().zip(&found) {
            *is_there |= part.starts_with("Ok(") && !["Ok(None)", "Ok(0)"].contains(&part.as_str());
        }
    }
    assert_eq!(there, [true; 14]);
}

/// What the steps of a walk return.
fn items<W, T: Default>(mut walk: W, step: impl Fn(&mut W, &mut T) -> u32) -> Vec<T> {
    let mut found = Vec::new();
    loop {
        let mut out = T::default();
        if step(&mut walk, &mut out) != sys::DONE {
            return found;
        }
        found.push(out);
    }
}

/// What the lists of a walk write, so many entries a call.
fn listed<W, T: Default + Clone>(mut walk: W, room: usize, list: impl Fn(&mut W, &mut [T], &mut u64) -> u32) -> Vec<T> {
    let (mut found, mut part) = (Vec::new(), vec![T::default(); room]);
    loop {
        let mut written = 0;
        if list(&mut walk, &mut part, &mut written) != sys::DONE || written == 0 {
            return found;
        }
        found.extend_from_slice(&part[..written as usize]);
    }
}

/// Where a walk starts.
fn started<T: Default>(start: unsafe extern "C" fn(*const sys::View, *mut T) -> u32, view: &sys::View) -> Option<T> {
    let mut out = T::default();
    // SAFETY: the view is of slices, and the record is lent for the call.
    (unsafe { start(view, &mut out) } == sys::DONE).then_some(out)
}

/// What the seven walks return that map RVAs, by lists and a plan: exports, libraries and imports, DLLs and functions, leaves, records.
type Items = (
    Vec<sys::Export>,
    Vec<sys::Library>,
    Vec<sys::Import>,
    Vec<sys::DelayImport>,
    Vec<sys::DelayedFunction>,
    Vec<sys::ResourceLeaf>,
    Vec<sys::Record>,
);

/// The items of an image by these sections, without an index of them, so many a call: a list of one is a step.
fn items_of(image: &Image, sections: &[sys::Section], room: usize) -> Items {
    let view = sys::View::of(image.bytes(), image.info(), sections, &[]);
    let (mut all, none) = (Items::default(), core::ptr::null_mut());
    if let Some(exports) = started(sys::pe_c_export_tables, &view) {
        // SAFETY: the view is of slices, and both records are lent for the call; so are those below.
        all.0 = listed(sys::ExportWalk::from(exports), room, |walk, out, written| unsafe {
            sys::pe_c_list_exports(&view, walk, none, 0, out.as_mut_ptr(), out.len(), written)
        });
    }
    if let Some(libraries) = started(sys::pe_c_import_libraries, &view) {
        // SAFETY: as above.
        all.1 = listed(sys::LibraryWalk::from(libraries), room, |walk, out, written| unsafe {
            sys::pe_c_list_libraries(&view, walk, none, 0, out.as_mut_ptr(), out.len(), written)
        });
    }
    for library in &all.1 {
        // SAFETY: as above.
        all.2.extend(listed(sys::ImportWalk::from(library.imports), room, |walk, out, written| unsafe {
            sys::pe_c_list_imports(&view, walk, none, 0, out.as_mut_ptr(), out.len(), written)
        }));
    }
    if let Some(entries) = started(sys::pe_c_delay_imports, &view) {
        // SAFETY: as above.
        all.3 = listed(sys::DelayImportWalk::from(entries), room, |walk, out, written| unsafe {
            sys::pe_c_list_delay_imports(&view, walk, none, 0, out.as_mut_ptr(), out.len(), written)
        });
    }
    for dll in &all.3 {
        // SAFETY: as above.
        all.4.extend(listed(sys::DelayedFunctionWalk::from(dll.functions), room, |walk, out, written| unsafe {
            sys::pe_c_list_delayed_functions(&view, walk, none, 0, out.as_mut_ptr(), out.len(), written)
        }));
    }
    if let Some(leaves) = started(sys::pe_c_resource_leaves, &view) {
        // SAFETY: as above.
        all.5 = listed(sys::LeafWalk::from(leaves), room, |walk, out, written| unsafe {
            sys::pe_c_list_resource_leaves(&view, walk, out.as_mut_ptr(), out.len(), written)
        });
    }
    let mut walk = sys::PlanWalk::default();
    if let Some(table) = started(sys::pe_c_function_table, &view) {
        for entry in table.of(image.bytes()).unwrap().chunks_exact(12) {
            let unwind = u32::from_le_bytes(entry[8..].try_into().unwrap());
            walk.plan = sys::Plan { unwind, saved: unwind, limit: 1, ..sys::Plan::default() };
            // SAFETY: as above. Each plan starts with the sections that the one before kept.
            all.6.extend(items(&mut walk, |walk, out| unsafe {
                sys::pe_c_next_record(&view, &table, &mut **walk, out)
            }));
        }
    }
    all
}

/// An image of 200,000 x64 functions, of which each but the first is chained to the first.
fn with_chained_functions() -> Vec<u8> {
    let mut made = made::Made::new(made::X64);
    let (table, count) = (made.next(), 200_000);
    // the records follow the table
    let root = table + 12 * count;
    let record_of = |i: u32| if i == 0 { root } else { root + 4 + 16 * (i - 1) };
    for i in 0..count {
        made.put_words(&[i, i + 1, record_of(i)]);
    }
    made.put(&[0x01, 0, 0, 0]);
    for _ in 1..count {
        made.put_words(&[0x21, 0, 1, root]);
    }
    made.directory(made::EXCEPTIONS, table, 12 * count);
    made.image()
}

/// Lists, steps and a plan that keep the section of the RVA take no search: with one for each RVA these would take a minute.
#[test]
fn walks_under_many_sections_take_no_longer_than_under_one() {
    let start = Instant::now();
    let mut counts = [0; 7];
    for bytes in [
        made::with_exports(),
        made::with_imports(),
        made::with_delay_imports(),
        made::with_named_resources(),
        made::with_names_in_one_text(),
        made::with_late_names_in_one_text(),
        with_chained_functions(),
    ] {
        let image = Image::parse(&bytes, Mode::Strict).unwrap();
        assert_eq!(image.sections().len(), 1);
        let sections = [&vec![sys::Section::default(); 65_534], image.sections()].concat();
        let found = items_of(&image, &sections, 4096);
        assert!(found == items_of(&image, &sections, 1));
        assert!(found == items_of(&image, image.sections(), 4096));
        let own =
            [found.0.len(), found.1.len(), found.2.len(), found.3.len(), found.4.len(), found.5.len(), found.6.len()];
        for (count, more) in counts.iter_mut().zip(own) {
            *count += more;
        }
    }
    assert!(
        counts.iter().all(|it| *it > 1) && counts[2] > 90_000 && counts[4] > 90_000 && counts[6] > 390_000,
        "{counts:?}"
    );
    assert!(start.elapsed() < Duration::from_secs(20), "{:?}", start.elapsed());
}
