//! What an image says, as lines that are the same for a file and for the image as loaded: no offsets, and not what runs up
//! to the end of the bytes.
#![allow(dead_code)]

use pe_c::{
    sys, Arm64Function, Arm64Functions, Arm64Unwinding, Error, Function, Functions, Handler, Image, Repro,
    UnwindRecord, VersionName,
};
use std::fmt::Debug;

/// An image as loaded, by its file: headers and sections at their RVAs, and zeros between them.
pub fn as_loaded(file: &Image) -> Vec<u8> {
    let bytes = file.bytes();
    let sections = file.sections().iter();
    let headers = sections.clone().map(|it| it.pointer_to_raw_data as usize).min().unwrap_or(bytes.len());
    let mut memory = bytes[..headers].to_vec();
    for section in sections {
        let (rva, offset) = (section.virtual_address as usize, section.pointer_to_raw_data as usize);
        let data = &bytes[offset..][..section.size_of_raw_data as usize];
        memory.resize(rva, 0);
        memory.extend_from_slice(data);
    }
    memory
}

/// Appends a line for each item.
fn push_all<T: Debug>(lines: &mut Vec<String>, word: &str, items: impl Iterator<Item = T>) {
    lines.extend(items.map(|item| format!("{word} {item:?}")));
}

fn push_debug(lines: &mut Vec<String>, image: &Image) {
    match image.debug_entries() {
        Ok(entries) => push_all(lines, "debug", entries),
        Err(error) => lines.push(format!("debug {error:?}")),
    }
    lines.push(format!("key {:?}", image.symbol_key()));
    lines.push(format!("pdb20 {:?}", image.pdb20()));
    lines.push(format!("features {:?} {:?}", image.vc_features(), image.debug_characteristics()));
    let hash = image.repro().map(|it| it.map(|it| if let Repro::Hash(hash) = it { hash } else { &[] }));
    lines.push(format!("repro {:?} {hash:?}", image.repro()));
    let parts = image.pogo().map(|pogo| pogo.map(|pogo| (pogo.signature, pogo.entries().collect::<Vec<_>>())));
    lines.push(format!("pogo {parts:?}"));
    for data_type in [17, 19] {
        let Ok(Some(entry)) = image.debug_entry(data_type) else {
            continue;
        };
        let embedded = image.embedded_pdb_of(&entry).map(|it| it.map(|it| (it.uncompressed_size, it.compressed)));
        let checksum = image.pdb_checksum_of(&entry).map(|it| it.map(|it| (it.algorithm, it.checksum)));
        lines.push(format!("managed {embedded:?} {checksum:?}"));
    }
}

fn of_record(record: Result<UnwindRecord, Error>) -> String {
    let record = match record {
        Ok(record) => record,
        Err(error) => return format!("{error:?}"),
    };
    let handler = match record.handler() {
        Some(Handler::Exception(rva, _)) => (1, rva),
        Some(Handler::Termination(rva, _)) => (2, rva),
        None => (0, 0),
    };
    let codes: Vec<_> = record.codes().collect();
    let numbers = (record.version(), record.size_of_prolog(), record.frame(), record.chained());
    format!("{numbers:?} {handler:?} {codes:?}")
}

fn push_functions(lines: &mut Vec<String>, functions: Functions) {
    let push = |lines: &mut Vec<String>, function: Function| {
        lines.push(format!("function {function:?} {:?}", functions.find(function.begin)));
        lines.push(format!("record {}", of_record(functions.record(function))));
        lines.extend(functions.plan(function).map(|record| format!("plan {}", of_record(record))));
    };
    for function in functions.iter() {
        push(lines, function);
    }
}

fn of_unwinding(functions: Arm64Functions, function: Arm64Function) -> String {
    match functions.unwinding(function) {
        Ok(Arm64Unwinding::Record(record)) => {
            let codes = record.codes(0).map(|codes| codes.collect::<Vec<_>>());
            let scopes: Vec<_> = record.scopes().collect();
            let handler = record.handler().map(|(rva, _)| rva);
            format!("{} {:?} {handler:?} {scopes:?} {codes:?}", record.function_length(), record.epilog_start())
        }
        Ok(Arm64Unwinding::Packed(fields)) => format!("{fields:?}"),
        Err(error) => format!("{error:?}"),
    }
}

fn push_unwinding(lines: &mut Vec<String>, image: &Image) {
    match image.functions() {
        Ok(Some(functions)) => push_functions(lines, functions),
        other => lines.push(format!("functions {:?}", other.map(|_| ()))),
    }
    match image.arm64_functions() {
        Ok(Some(functions)) => {
            let found = functions.iter().map(|it| format!("function64 {it:?} {}", of_unwinding(functions, it)));
            lines.extend(found);
        }
        other => lines.push(format!("functions64 {:?}", other.map(|_| ()))),
    }
}

fn push_tables(lines: &mut Vec<String>, image: &Image) {
    match image.export_addresses() {
        Ok(table) => {
            lines.push(format!("dll {:?}", table.map(|it| (it.name(), it.ordinal_base()))));
            push_all(lines, "exported", table.iter().flat_map(|it| it.iter()));
        }
        Err(error) => lines.push(format!("exported {error:?}")),
    }
    match image.exports() {
        Ok(exports) => push_all(lines, "export", exports.map(|it| it.map(|it| (it.name, it.rva, it.forwarder)))),
        Err(error) => lines.push(format!("exports {error:?}")),
    }
    let libraries = match image.libraries() {
        Ok(libraries) => libraries,
        Err(error) => return lines.push(format!("imports {error:?}")),
    };
    for library in libraries {
        lines.push(format!("library {:?}", library.map(|it| it.name)));
        push_all(lines, "import", library.into_iter().flat_map(|it| it.imports()));
    }
}

fn push_versions(lines: &mut Vec<String>, image: &Image) {
    lines.push(format!("version {:?}", image.version()));
    for name in VersionName::ALL {
        lines.push(format!("text {:?}", image.version_text(name).map(|it| it.map(|it| it.0))));
    }
    lines.push(format!("manifest {:?}", image.manifest()));
}

/// The facts of an image.
pub fn facts(image: &Image) -> Vec<String> {
    let headers = sys::ImageInfo { mode: 0, ..*image.info() };
    let mut lines = vec![format!("headers {headers:?}")];
    push_all(&mut lines, "section", image.sections().iter());
    push_debug(&mut lines, image);
    push_unwinding(&mut lines, image);
    push_tables(&mut lines, image);
    push_versions(&mut lines, image);
    lines
}
