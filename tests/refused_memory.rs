//! Whole images, TE images, objects, the ranges of minidumps and texts of versions where one request for memory is refused.

use crate::images::{
    headers_alone, object, te, with_debug, with_exports, with_imports, with_resources,
};
use crate::minidumps::{range, with_stream};
use crate::refusing::Refusing;
use crate::resources::{push_string, resources, version_alone};
use crate::whole_images::in_mode;
use pe_image::{Coff, Error, Limits, PE, ParseMode, Reason, Result, TE};
use pe_minidump::{
    AddressIndex, AddressRange, Dump, MemoryDescriptor, Module, Table, module_ranges,
};
use pe_resource::{ResourceString, StringFileInfo, VersionField};
use std::alloc::{Allocator, Global};
use std::process::Abort;
use std::test::Fail;

/// How many things an image has: all that stand in lists, and the resources.
fn things_of<A: Allocator + Copy + Drop>(pe: PE<'_, A>) -> usize {
    let records = pe.import_data.map_or(0, |data| data.import_data.len());
    pe.sections.len()
        + pe.exports.len()
        + records
        + pe.imports.len()
        + pe.libraries.len()
        + pe.certificates.len()
        + usize::from(pe.resource_data.is_some())
}

/// A call that takes memory.
#[derive(Clone, Copy, Debug)]
enum Call<'a> {
    Image(ParseMode),
    /// An image, within a limit of so many imports.
    Limited(ParseMode, u32),
    Te,
    Object,
    /// The strings of an object, whose reading is granted all memory.
    Strings(Global),
    /// An index of ranges, of which it finds the starts.
    Index(&'a [AddressRange]),
    /// The addresses of modules.
    Modules(Table<'a, Module>),
    /// The addresses of pieces of memory, of the dump in the bytes.
    Memory(Dump<'a>, Table<'a, MemoryDescriptor>),
    /// The texts of a key and of its value.
    Texts(ResourceString<'a>),
    /// A text of version information.
    Comments(StringFileInfo<'a>),
    /// The text of a version number.
    Number(u32, u32),
}

impl Call<'_> {
    /// How many things the call returns: all that it puts into lists, the resources, and the bytes of a text.
    fn count<A: Allocator + Copy + Drop>(self, alloc: A, bytes: &[u8]) -> Result<usize> {
        Ok(match self {
            Call::Image(mode) => things_of(PE::parse_with_opts(alloc, bytes, &in_mode(mode))?),
            Call::Limited(mode, imports) => {
                let opts = in_mode(mode);
                things_of(PE::parse_with_limits(alloc, bytes, &opts, &Limits { imports })?)
            }
            Call::Te => TE::parse(alloc, bytes)?.sections.len(),
            Call::Object => Coff::parse(alloc, bytes)?.sections.len(),
            Call::Strings(global) => match Coff::parse(global, bytes)?.strings {
                Some(strings) => strings.to_vec(alloc)?.len(),
                None => 0,
            },
            Call::Index(ranges) => {
                let index = AddressIndex::new(alloc, ranges)?;
                let mut found = 0;
                for range in ranges {
                    found += usize::from(index.find(range.start).is_some());
                }
                found
            }
            Call::Modules(list) => module_ranges(alloc, &list)?.len(),
            Call::Memory(dump, list) => dump.memory_ranges(alloc, &list)?.len(),
            Call::Texts(string) => {
                let key = string.key_string(alloc)?.map_or(0, |text| text.len());
                key + string.value_string(alloc)?.map_or(0, |text| text.len())
            }
            Call::Comments(info) => info.comments(alloc)?.map_or(0, |text| text.len()),
            Call::Number(ms, ls) => VersionField::from_ms_ls(ms, ls).to_string(alloc)?.len(),
        })
    }
}

/// Refuses the first request, then the second instead and so on, until a run asks for no more. Every other run has
/// to answer `Memory`. How many requests were refused.
fn refuse_in_turn(
    rt: &impl Abort,
    alloc: Global,
    call: Call<'_>,
    bytes: &[u8],
    want: usize,
) -> std::result::Result<u32, Fail> {
    for k in 0..1000 {
        let refusing = Refusing::new(alloc, k);
        let answer = call.count(&refusing, bytes);
        if refusing.has_refused() {
            assert!(rt;
                matches!(answer, Err(Error::Memory(_))),
                "request {k} of {call:?}"
            );
        } else {
            assert_eq!(rt; answer?, want, "by {call:?}");
            return Ok(k);
        }
    }
    Err(Fail::new("there is no end of requests"))
}

/// Sections, exports and certificates ask for memory each, and imports for their records, their list and the libraries; the
/// index of the sections is made once, for exports and imports. Resources ask for none.
#[test]
fn images(rt: HostRuntime) -> std::result::Result<(), Fail> {
    let alloc = rt.alloc();
    for mode in [ParseMode::Strict, ParseMode::Permissive] {
        let call = Call::Image(mode);
        let refused = refuse_in_turn(&rt, alloc, call, &with_exports(alloc)?, 3)?;
        assert!(rt; refused >= 3, "{refused} of exports");
        let refused = refuse_in_turn(&rt, alloc, call, &with_imports(alloc)?, 6)?;
        assert!(rt; refused >= 5, "{refused} of imports");
        let refused = refuse_in_turn(&rt, alloc, call, &with_resources(alloc)?, 3)?;
        assert_eq!(rt; refused, 2, "of resources");
    }
    Ok(())
}

/// A limit on imports asks for no memory. An image that has more is refused before its imports ask: for its sections, twice
/// for their index, and six times for the import directory (offsets of names, texts, offsets of lists, these sorted, lists, records).
#[test]
fn limited_images(rt: HostRuntime) -> std::result::Result<(), Fail> {
    let alloc = rt.alloc();
    let bytes = with_imports(alloc)?;
    for mode in [ParseMode::Strict, ParseMode::Permissive] {
        let whole = refuse_in_turn(&rt, alloc, Call::Image(mode), &bytes, 6)?;
        let limited = refuse_in_turn(&rt, alloc, Call::Limited(mode, 2), &bytes, 6)?;
        assert_eq!(rt; limited, whole);
        for k in 0..10 {
            let refusing = Refusing::new(alloc, k);
            let answer = Call::Limited(mode, 1).count(&refusing, &bytes);
            assert_eq!(rt; refusing.has_refused(), k < 9, "request {k}");
            assert!(rt;
                match answer {
                    Err(Error::Memory(_)) => k < 9,
                    Err(Error::Malformed(Reason::ImportsLimit { .. })) => k == 9,
                    _ => false,
                },
                "request {k}"
            );
        }
    }
    Ok(())
}

/// Headers alone ask for no memory, and a section for one request, whatever debug data and exception data are there.
#[test]
fn images_without_lists(rt: HostRuntime) -> std::result::Result<(), Fail> {
    let alloc = rt.alloc();
    for mode in [ParseMode::Strict, ParseMode::Permissive] {
        let call = Call::Image(mode);
        let bytes = headers_alone(alloc)?;
        assert_eq!(rt; refuse_in_turn(&rt, alloc, call, &bytes, 0)?, 0);
        let bytes = with_debug(alloc)?;
        assert_eq!(rt; refuse_in_turn(&rt, alloc, call, &bytes, 1)?, 1);
    }
    Ok(())
}

#[test]
fn te_images_and_objects(rt: HostRuntime) -> std::result::Result<(), Fail> {
    let alloc = rt.alloc();
    assert_eq!(rt; refuse_in_turn(&rt, alloc, Call::Te, &te(alloc)?, 1)?, 1);
    let bytes = object(alloc)?;
    assert_eq!(rt; refuse_in_turn(&rt, alloc, Call::Object, &bytes, 1)?, 1);
    let refused = refuse_in_turn(&rt, alloc, Call::Strings(alloc), &bytes, 1)?;
    assert!(rt; refused >= 1);
    Ok(())
}

/// An index asks for its entries, two for each range, and for as many with which they are merged.
#[test]
fn indexes_of_addresses(rt: HostRuntime) -> std::result::Result<(), Fail> {
    let alloc = rt.alloc();
    let ranges = [range(0x500, 0x10), range(0x100, 0x500), range(0x300, 0x300)];
    for (count, want) in [(0, 0), (1, 2), (3, 2)] {
        let call = Call::Index(ranges.get(..count).unwrap_or_default());
        assert_eq!(rt; refuse_in_turn(&rt, alloc, call, &[], count)?, want);
    }
    Ok(())
}

/// The list of ranges grows. That of no records asks for nothing.
#[test]
fn ranges_of_minidumps(rt: HostRuntime) -> std::result::Result<(), Fail> {
    let alloc = rt.alloc();
    for count in [0u8, 1, 100] {
        let things = usize::from(count);
        let mut stream = vec![in alloc; 0u8; 4 + 108 * things]?;
        stream[0] = count;
        let bytes = with_stream(alloc, 4, &stream)?;
        let list = Dump::parse(&bytes)?.modules()?.ok_or("no modules")?;
        let refused = refuse_in_turn(&rt, alloc, Call::Modules(list), &bytes, things)?;
        assert_eq!(rt; refused > 0, count > 0, "{count} modules");
        let mut stream = vec![in alloc; 0u8; 4 + 16 * things]?;
        stream[0] = count;
        let bytes = with_stream(alloc, 5, &stream)?;
        let dump = Dump::parse(&bytes)?;
        let list = dump.memory_list()?.ok_or("no memory")?;
        let refused = refuse_in_turn(&rt, alloc, Call::Memory(dump, list), &bytes, things)?;
        assert_eq!(rt; refused > 0, count > 0, "{count} pieces of memory");
    }
    Ok(())
}

/// A key and a value ask for memory each.
#[test]
fn texts_of_versions(rt: HostRuntime) -> std::result::Result<(), Fail> {
    let alloc = rt.alloc();
    let mut bytes = Vec::new(alloc);
    let key = "a key of some thirty letters..";
    push_string(&mut bytes, key, "a value of some thirty letters")?;
    let mut offset = 0;
    let string = ResourceString::parse(&bytes, &mut offset)?.ok_or("no string")?;
    assert!(rt; refuse_in_turn(&rt, alloc, Call::Texts(string), &[], 60)? >= 2);
    let mut strings = Vec::new(alloc);
    let comments = "some text of a few words, long enough to grow";
    push_string(&mut strings, "Comments", comments)?;
    let bytes = version_alone(alloc, strings.as_slice())?;
    let size = u32::try_from(bytes.len())?;
    let version = resources(rt, &bytes, size, ParseMode::Strict)?.version_info;
    let info = version.ok_or("no version information")?.string_info;
    assert!(rt; refuse_in_turn(&rt, alloc, Call::Comments(info), &[], 45)? >= 1);
    let call = Call::Number(0xFFFF_FFFF, 0xFFFF_FFFF);
    assert!(rt; refuse_in_turn(&rt, alloc, call, &[], 23)? >= 1);
    Ok(())
}
