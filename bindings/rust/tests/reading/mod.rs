//! Makes every call on an image and adds up what they return, for tests, the fuzz loop and the bench.
#![allow(dead_code)]

use pe_c::{
    Arm64Function, Arm64Functions, Arm64Record, Arm64Registers, Arm64Unwinding, Coff, Dump, DumpImages, Error, Frames,
    Function, Functions, GuardTable, Handler, Image, Layout, MemoryList, MemoryPiece, Mode, Module, Pdb, Placement,
    Registers, ResourceName, Signature, SignatureError, Stack, Stacks, StepError, Symbols, Te, UnwindRecord,
    VersionBlocks, VersionName, X509,
};
use std::fmt::Debug;

/// How many bytes `{:?}` of anything that is read prints at most.
pub const MOST_PRINTED: usize = 4096;

/// What was read.
#[derive(Clone, Copy, Debug, Default, PartialEq, Eq)]
pub struct Seen {
    /// The most items of a table or a walk that are read.
    most: usize,
    /// Whether what is read is printed by `{:?}`, and how often it was.
    prints: bool,
    pub printed: u64,
    pub images: u64,
    pub records: u64,
    pub codes: u64,
    pub slices: u64,
    pub refusals: u64,
}

impl Seen {
    /// Nothing so far, with the most items of a table or a walk to read.
    pub fn up_to(most: usize) -> Seen {
        Seen { most, ..Seen::default() }
    }

    /// The same, where all that is read is printed too.
    pub fn printing(most: usize) -> Seen {
        Seen { prints: true, ..Seen::up_to(most) }
    }

    /// Prints what was read, which has to be short.
    fn print(&mut self, value: &impl Debug) {
        if self.prints {
            let text = format!("{value:?}");
            assert!(text.len() <= MOST_PRINTED, "{} bytes: {}", text.len(), text.chars().take(200).collect::<String>());
            self.printed += 1;
        }
    }

    pub fn add(&mut self, other: Seen) {
        self.images += other.images;
        self.records += other.records;
        self.codes += other.codes;
        self.slices += other.slices;
        self.refusals += other.refusals;
        self.printed += other.printed;
    }

    /// Reads the first and last byte of a slice of the input.
    fn touch(&mut self, slice: &[u8]) {
        self.slices += 1;
        std::hint::black_box((slice.first(), slice.last()));
    }

    /// The value of a call, or `None` after an error.
    fn keep<T: Debug>(&mut self, answer: Result<Option<T>, Error>) -> Option<T> {
        let found = self.counted(answer).flatten();
        found.iter().for_each(|it| self.print(it));
        found
    }

    /// Counts an item of a walk.
    fn item<T: Debug>(&mut self, item: Result<T, Error>) -> Option<T> {
        self.keep(item.map(Some))
    }

    /// The same of what is not printed: plain bytes.
    fn counted<T>(&mut self, item: Result<T, Error>) -> Option<T> {
        self.refusals += u64::from(item.is_err());
        item.ok()
    }
}

/// Reads the record of an entry as one of each type.
fn read_debug_entry(image: &Image, entry: &pe_c::DebugEntry, seen: &mut Seen) {
    if let Some(key) = seen.keep(image.symbol_key_of(entry)) {
        seen.touch(key.name_bytes);
    }
    if let Some(record) = seen.keep(image.pdb20_of(entry)) {
        seen.touch(record.name_bytes);
    }
    seen.keep(image.vc_features_of(entry));
    seen.keep(image.debug_characteristics_of(entry));
    if let Some(pe_c::Repro::Hash(hash)) = seen.keep(image.repro_of(entry)) {
        seen.touch(hash);
    }
    if let Some(pogo) = seen.keep(image.pogo_of(entry)) {
        seen.touch(pogo.entry_bytes);
    }
    if let Some(pdb) = seen.keep(image.embedded_pdb_of(entry)) {
        seen.touch(pdb.compressed);
    }
    if let Some(sum) = seen.keep(image.pdb_checksum_of(entry)) {
        seen.touch(sum.algorithm);
        seen.touch(sum.checksum);
    }
}

fn read_debug(image: &Image, seen: &mut Seen) {
    if let Some(entries) = seen.item(image.debug_entries()) {
        for entry in entries {
            if let Some(entry) = seen.item(entry) {
                read_debug_entry(image, &entry, seen);
            }
        }
    }
    for data_type in [2, 12, 13, 16, 17, 19, 20] {
        if let Some(entry) = seen.keep(image.debug_entry(data_type)) {
            assert_eq!(entry.data_type, data_type);
        }
    }
    if let Some(key) = seen.keep(image.symbol_key()) {
        assert!(key.name().len() <= key.name_bytes.len());
        seen.touch(key.name_bytes);
    }
    if let Some(record) = seen.keep(image.pdb20()) {
        seen.touch(record.name_bytes);
    }
    seen.keep(image.vc_features());
    seen.keep(image.debug_characteristics());
    if let Some(pe_c::Repro::Hash(hash)) = seen.keep(image.repro()) {
        seen.touch(hash);
    }
    if let Some(pogo) = seen.keep(image.pogo()) {
        seen.print(&pogo.entries());
        for entry in pogo.entries().take(seen.most) {
            if let Some(entry) = seen.item(entry) {
                assert_eq!(entry.name_bytes.last(), Some(&0));
                seen.touch(entry.name_bytes);
            }
        }
    }
}

/// Reads symbols, their names and their auxiliary records.
fn read_symbols(symbols: Option<Symbols>, seen: &mut Seen) {
    let Some(symbols) = symbols else { return };
    for symbol in symbols.clone().named().into_iter().flatten().take(if seen.prints { seen.most } else { 0 }) {
        seen.print(&symbol);
    }
    for symbol in symbols.clone().take(seen.most) {
        let Some(symbol) = seen.item(symbol) else { continue };
        assert_eq!(symbols.get(symbol.index).map(|it| it.name()), Some(symbol.name()));
        if let Some(name) = seen.counted(symbol.name()) {
            seen.touch(name.as_bytes());
        }
        seen.touch(symbol.auxiliary());
        seen.print(&*symbol);
        assert_eq!(symbols.get(symbol.index).map(|it| *it), Some(*symbol));
    }
}

/// Reads the bytes as a COFF object and as a TE image, whatever they are.
pub fn read_others(bytes: &[u8], seen: &mut Seen) {
    if let Some(object) = seen.item(Coff::parse(bytes)) {
        let names = object.long_section_names();
        for (i, section) in object.sections().iter().enumerate().take(seen.most) {
            let alone = object.long_section_name(section);
            assert_eq!(names.as_ref().map(|it| it[i]), alone.as_ref().copied());
            if let Some(name) = seen.counted(alone).flatten() {
                seen.touch(name.as_bytes());
            }
        }
        if let Some(table) = seen.counted(object.string_table()).flatten() {
            seen.touch(table);
        }
        read_symbols(seen.keep(object.symbols()), seen);
    }
    let te = Te::parse(bytes);
    if let Err(error) = te {
        assert!(Te::failure(bytes).map_or(true, |it| it.error == error));
    }
    if let Some(te) = seen.item(te) {
        assert_eq!((Te::failure(bytes), te.sections().len()), (None, te.header().number_of_sections.into()));
        for entry in seen.item(te.debug_entries()).into_iter().flatten().take(seen.most) {
            seen.item(entry);
        }
        if let Some(key) = seen.keep(te.symbol_key()) {
            seen.touch(key.name_bytes);
        }
    }
}

/// Reads the bytes as a minidump, whatever they are: all of its streams, and the stacks of its threads.
pub fn read_dump(bytes: &[u8], seen: &mut Seen) {
    let Some(dump) = seen.item(Dump::parse(bytes)) else {
        return;
    };
    for entry in dump.streams().take(seen.most) {
        if let Some(bytes) = seen.counted(dump.stream(entry.stream_type)).flatten() {
            seen.touch(bytes);
        }
    }
    for module in seen.keep(dump.modules()).into_iter().flatten().take(seen.most) {
        if let Some(text) = seen.counted(dump.text(module.module_name_rva.into())) {
            seen.touch(text);
        }
        if let Some(record) = seen.counted(dump.located(&module.cv_record)) {
            seen.touch(record);
        }
    }
    let most = seen.most;
    let count = seen.keep(dump.thread_names()).into_iter().flatten().take(most).count()
        + seen.keep(dump.thread_infos()).into_iter().flatten().take(most).count()
        + seen.keep(dump.unloaded_modules()).into_iter().flatten().take(most).count()
        + seen.keep(dump.handles()).into_iter().flatten().take(most).count()
        + seen.keep(dump.memory_regions()).into_iter().flatten().take(most).count();
    assert!(count <= 5 * most);
    seen.keep(dump.exception());
    seen.keep(dump.system());
    seen.keep(dump.process());
    let Some(images) = seen.item(DumpImages::new(&dump, |_| None)) else {
        return;
    };
    seen.print(images.memory());
    seen.print(&images.memory().list());
    let pieces = images.memory().pieces();
    assert!(pieces.windows(2).all(|it| it[0].start + it[0].length <= it[1].start));
    let mut stacks = Stacks::with_bound(&images, 64);
    seen.print(&stacks);
    for thread in seen.keep(dump.threads()).into_iter().flatten().take(most) {
        if let Some(stack) = seen.item(stacks.walk(&dump, &thread, most)) {
            assert!(stack.frames.len() <= most);
        }
    }
}

/// Reads the bytes as a PDB, whatever they are: symbols, modules, lines, and what covers functions.
pub fn read_pdb(bytes: &[u8], seen: &mut Seen) {
    let Some(pdb) = seen.counted(Pdb::parse(bytes)) else {
        return;
    };
    seen.counted(pdb.publics());
    let (names, symbolizer) = (seen.counted(pdb.source_names()), seen.counted(pdb.symbolizer()));
    for module in seen.counted(pdb.modules()).into_iter().flatten().take(seen.most) {
        if let Some(names) = &names {
            seen.counted(pdb.lines(&module, names));
        }
        for symbol in seen.counted(pdb.procedures(&module)).into_iter().flatten().take(seen.most) {
            let Some(rva) = symbol.rva else { continue };
            for rva in [rva, rva.wrapping_add(symbol.size / 2)] {
                std::hint::black_box(symbolizer.as_ref().map(|it| it.frames(rva)));
            }
        }
    }
}

fn read_certificates(image: &Image, seen: &mut Seen) {
    for certificate in image.certificates().take(seen.most) {
        if let Some(certificate) = seen.item(certificate) {
            assert_eq!(certificate.body.len() as u64, u64::from(certificate.length).saturating_sub(8));
            seen.touch(certificate.body);
            seen.print(&image.certificates());
            if let Ok(Some(signature)) = certificate.signature() {
                read_signature(&signature, 2, seen);
            }
        }
    }
}

/// An item of a list in a signature.
fn part<T: Debug>(item: Result<T, SignatureError>, seen: &mut Seen) -> Option<T> {
    seen.refusals += u64::from(item.is_err());
    item.iter().for_each(|it| seen.print(it));
    item.ok()
}

fn read_x509(certificate: &X509, seen: &mut Seen) {
    seen.print(&(certificate.subject(), certificate.issuer(), certificate.extensions()));
    seen.print(&(certificate.subject().attributes(), certificate.issuer().attributes().next()));
    seen.touch(certificate.der());
    seen.touch(certificate.to_be_signed());
    seen.touch(certificate.signature());
    seen.touch(certificate.subject().to_string().as_bytes());
    seen.touch(certificate.issuer().to_string().as_bytes());
    for time in [certificate.not_before(), certificate.not_after()] {
        if let Some(time) = part(time, seen) {
            seen.touch(time.to_string().as_bytes());
        }
    }
    part(certificate.key_usage(), seen);
    for extension in certificate.extensions().take(seen.most) {
        if let Some(extension) = part(extension, seen) {
            seen.touch(extension.value());
        }
    }
}

/// Reads a signature, and those in it so deep.
fn read_signature(signature: &Signature, depth: usize, seen: &mut Seen) {
    seen.print(&(signature, signature.content_type(), signature.certificates(), signature.signers()));
    seen.touch(signature.digested().unwrap_or_default());
    if let Some(Some(data)) = part(signature.indirect_data(), seen) {
        seen.touch(data.digest());
    }
    if let Some(Some(stamp)) = part(signature.time_stamp(), seen) {
        part(stamp.time(), seen);
        seen.touch(stamp.digest());
    }
    for certificate in signature.certificates().take(seen.most) {
        if let Some(certificate) = part(certificate, seen) {
            read_x509(&certificate, seen);
        }
    }
    for signer in signature.signers().take(seen.most) {
        let Some(signer) = part(signer, seen) else { continue };
        seen.touch(signer.signature());
        seen.touch(signer.signed_bytes().unwrap_or_default().1);
        part(signer.message_digest(), seen);
        seen.print(&(signer.issuer(), signer.digest_algorithm(), signer.signature_algorithm()));
        part(signer.signing_time(), seen);
        if let Some(Some(opus)) = part(signer.opus_info(), seen) {
            seen.touch(opus.program_name().unwrap_or_default().as_bytes());
        }
        for other in signer.counter_signatures().take(seen.most) {
            part(other, seen);
        }
        for inner in signer.time_stamps().chain(signer.nested_signatures()).take(seen.most) {
            match part(inner, seen) {
                Some(inner) if depth > 0 => read_signature(&inner, depth - 1, seen),
                _ => {}
            }
        }
    }
}

/// A certificate of two bytes.
const CERTIFICATE: [u8; 10] = [10, 0, 0, 0, 0, 2, 2, 0, 0xAB, 0xCD];

fn read_signing(image: &Image, seen: &mut Seen) {
    if let Some(digest) = seen.item(image.digest_ranges()) {
        let mut end = 0;
        for (i, range) in digest.ranges().enumerate() {
            assert!(range.start < range.end && range.end <= image.bytes().len());
            assert!(if i == 0 { range.start >= end } else { range.start > end }, "ranges that touch are one");
            end = range.end;
        }
        for slice in digest.slices() {
            seen.touch(slice);
        }
        assert!(digest.zeros() < 8);
    }
    if let Some(sum) = seen.item(image.checksum()) {
        assert!(sum.offset + 4 <= image.bytes().len() as u64);
    }
    for placement in [Placement::After, Placement::InPlace] {
        if let Some(file) = seen.counted(image.attach(&CERTIFICATE, placement)) {
            assert_eq!(file.len() % 8, 0);
            assert_eq!(file[file.len() - 16..file.len() - 6], CERTIFICATE);
        }
    }
    if let Some(file) = seen.counted(image.detach()) {
        assert!(file.len() <= image.bytes().len());
    }
}

fn read_record(record: &UnwindRecord, seen: &mut Seen) {
    seen.records += 1;
    assert!(record.version() == 1 || record.version() == 2);
    let mut count = 0;
    for code in record.codes() {
        seen.item(code);
        count += 1;
    }
    assert!(count <= 255);
    seen.codes += count;
    seen.print(&(record.codes(), record.handler(), record.scopes()));
    match record.handler() {
        Some(Handler::Exception(_, data) | Handler::Termination(_, data)) => seen.touch(data),
        None => {}
    }
    if let Some(scopes) = record.scopes() {
        for scope in scopes.take(seen.most) {
            seen.item(scope);
        }
    }
}

/// A stack, which any registers of a function may point into: by turns an address above, as of a frame, and this code, as of a
/// return address.
fn stack_of(code: u32) -> [u8; 256] {
    let mut bytes = [0; 256];
    for (i, word) in bytes.chunks_exact_mut(8).enumerate() {
        let address = if i % 2 == 0 { 0x2_0010 + 8 * i as u64 } else { code.into() };
        word.copy_from_slice(&address.to_le_bytes());
    }
    bytes
}

/// Steps out of a function, from its start, its middle and around its end, with and without its code; and a walk from there.
fn step_out(image: &Image, functions: &Functions, function: Function, seen: &mut Seen) {
    let words = stack_of(function.begin.wrapping_add(5));
    let stack = Stack { start: 0x2_0000, bytes: &words };
    let mut registers = Registers { general: [0x2_0080; 16], ..Registers::default() };
    registers.set_rsp(0x2_0010);
    let middle = function.begin.wrapping_add(function.end.wrapping_sub(function.begin) / 2);
    // Before the end may stand a return, or a jump out of the function.
    for rva in [function.begin, middle, function.end, function.end.wrapping_sub(1), function.end.wrapping_sub(5)] {
        for code in [[].as_slice(), image.code(rva, function.end)] {
            let answer = functions.step(function, rva, code, &registers, stack);
            if let Err(StepError::NotRising(rsp)) = answer {
                assert!(rsp <= registers.rsp());
            }
            seen.item(answer.map_err(StepError::error));
        }
        registers.rip = rva.into();
        if let Ok(module) = Module::new(image, 0) {
            let pieces = [MemoryPiece { start: 0x2_0000, offset: 0, length: words.len() as u64 }];
            let memory = MemoryList::new(&words, &pieces).unwrap();
            let modules = [module];
            let frames = Frames::new(registers, 4, &modules, memory);
            seen.print(&(module, memory, &frames, stack));
            assert!(frames.count() <= 4);
        }
    }
}

fn read_functions(image: &Image, seen: &mut Seen) {
    let Some(functions) = seen.keep(image.functions()) else {
        return;
    };
    assert_eq!(functions.get(functions.len()), None);
    for function in functions.iter().take(seen.most) {
        for address in [function.begin, function.end.wrapping_sub(1)] {
            if let Some(found) = seen.keep(functions.find(address)) {
                assert!(found.begin <= address && address < found.end);
            }
        }
        let answer = functions.record(function);
        if let Some(record) = seen.item(answer) {
            read_record(&record, seen);
        }
        step_out(image, &functions, function, seen);
        seen.print(&functions.plan(function));
        for record in functions.plan(function).take(seen.most) {
            if let Some(record) = seen.item(record) {
                read_record(&record, seen);
            }
        }
    }
}

fn read_arm64_codes(record: &Arm64Record, start: u32, seen: &mut Seen) {
    let answer = record.codes(start);
    let Some(codes) = seen.item(answer) else {
        return;
    };
    let mut offset = start;
    for code in codes {
        let Some(code) = seen.item(code) else {
            continue;
        };
        seen.codes += 1;
        assert_eq!(code.offset, offset);
        assert!((1..=5).contains(&code.length));
        offset += code.length;
    }
}

/// Steps out of a function on ARM64, from its start and from further on; and a walk from there.
fn step_out_arm64(image: &Image, functions: &Arm64Functions, function: Arm64Function, seen: &mut Seen) {
    let words = stack_of(function.begin.wrapping_add(4));
    let stack = Stack { start: 0x2_0000, bytes: &words };
    let mut registers = Arm64Registers { general: [0x2_0080; 31], sp: 0x2_0010, ..Arm64Registers::default() };
    for offset in [0, 8, 64] {
        let rva = function.begin.wrapping_add(offset);
        let answer = functions.step(function, rva, &registers, stack);
        if let Err(StepError::NotRising(sp)) = answer {
            assert!(sp < registers.sp);
        }
        seen.item(answer.map_err(StepError::error));
        registers.pc = rva.into();
        if let Ok(module) = Module::new(image, 0) {
            let pieces = [MemoryPiece { start: 0x2_0000, offset: 0, length: words.len() as u64 }];
            let memory = MemoryList::new(&words, &pieces).unwrap();
            let modules = [module];
            let frames = Frames::new(registers, 4, &modules, memory);
            seen.print(&(module, memory, &frames, stack));
            assert!(frames.count() <= 4);
        }
    }
}

fn read_arm64_functions(image: &Image, seen: &mut Seen) {
    let Some(functions) = seen.keep(image.arm64_functions()) else {
        return;
    };
    assert_eq!(functions.get(functions.len()), None);
    for function in functions.iter().take(seen.most) {
        if let Some(found) = seen.keep(functions.find(function.begin)) {
            assert!(found.begin <= function.begin);
        }
        step_out_arm64(image, &functions, function, seen);
        let answer = functions.unwinding(function);
        let Some(Arm64Unwinding::Record(record)) = seen.item(answer) else {
            continue;
        };
        seen.records += 1;
        read_arm64_codes(&record, 0, seen);
        if let Some(start) = record.epilog_start() {
            read_arm64_codes(&record, start, seen);
        }
        for scope in record.scopes().take(seen.most) {
            if let Some(scope) = seen.item(scope) {
                read_arm64_codes(&record, scope.start_index, seen);
            }
        }
        if let Some((_, data)) = record.handler() {
            seen.touch(data);
        }
    }
}

fn read_exports(image: &Image, seen: &mut Seen) {
    if let Some(exports) = seen.item(image.exports()) {
        for export in exports.take(seen.most) {
            if let Some(export) = seen.item(export) {
                seen.touch(export.name.as_bytes());
                seen.touch(export.forwarder.unwrap_or_default().as_bytes());
            }
        }
    }
}

fn read_addresses(image: &Image, seen: &mut Seen) {
    if let Some(table) = seen.keep(image.export_addresses()) {
        seen.touch(table.name().unwrap_or_default().as_bytes());
        for entry in table.iter().take(seen.most) {
            seen.print(&entry);
            seen.touch(entry.forwarder.unwrap_or_default().as_bytes());
        }
    }
}

fn read_imports(image: &Image, seen: &mut Seen) {
    let Some(libraries) = seen.item(image.libraries()) else {
        return;
    };
    for library in libraries.take(seen.most) {
        let Some(library) = seen.item(library) else {
            continue;
        };
        seen.touch(library.name.as_bytes());
        seen.print(&library.imports());
        for import in library.imports().take(seen.most) {
            if let Some(import) = seen.item(import) {
                seen.touch(import.name.unwrap_or_default().as_bytes());
            }
        }
    }
}

fn read_delay_imports(image: &Image, seen: &mut Seen) {
    for import in seen.item(image.delay_imports()).into_iter().flatten().take(seen.most) {
        let Some(import) = seen.item(import) else {
            continue;
        };
        seen.touch(import.name.as_bytes());
        seen.print(&import.functions());
        for function in import.functions().take(seen.most) {
            if let Some(function) = seen.item(function) {
                seen.touch(function.name.unwrap_or_default().as_bytes());
            }
        }
    }
}

fn read_clr(image: &Image, seen: &mut Seen) {
    let Some(clr) = seen.keep(image.clr()) else {
        return;
    };
    let Some(metadata) = seen.item(clr.metadata()) else {
        return;
    };
    assert_eq!(metadata.bytes.len() as u64, u64::from(clr.header().metadata.size));
    assert!(metadata.version().len() <= metadata.version_bytes.len());
    seen.touch(metadata.version_bytes);
    seen.print(&metadata.streams());
    for stream in metadata.streams().take(seen.most) {
        if let Some(stream) = seen.item(stream) {
            assert!(stream.name.len() < 32 && !stream.name.contains(&0));
            seen.touch(stream.name);
            if let Some(content) = stream.content {
                assert_eq!(content.len() as u64, u64::from(stream.size));
                seen.touch(content);
            }
        }
    }
}

fn read_version(image: &Image, seen: &mut Seen) {
    seen.keep(image.version());
    for name in VersionName::ALL.into_iter().take(seen.most) {
        if let Some(text) = seen.keep(image.version_text(name)) {
            seen.touch(text.0);
            std::hint::black_box(text.characters().count());
        }
    }
    if let Some(manifest) = seen.counted(image.manifest()).flatten() {
        seen.touch(manifest);
    }
    if let Some(blocks) = seen.item(image.version_blocks()) {
        read_blocks(blocks, 4, seen);
    }
}

/// Reads so many levels of blocks.
fn read_blocks(blocks: VersionBlocks, levels: usize, seen: &mut Seen) {
    for block in blocks.take(seen.most) {
        let Some(block) = seen.item(block) else {
            continue;
        };
        seen.touch(block.key.0);
        seen.touch(block.value);
        seen.print(&block.children());
        std::hint::black_box(block.languages().count());
        if levels > 1 {
            read_blocks(block.children(), levels - 1, seen);
        }
    }
}

fn read_leaves(image: &Image, seen: &mut Seen) {
    for leaf in seen.keep(image.resource_leaves()).into_iter().flatten().take(seen.most) {
        let Some(leaf) = seen.item(leaf) else {
            continue;
        };
        for name in [leaf.resource_type, leaf.name, leaf.language] {
            if let ResourceName::Name(text) = name {
                seen.touch(text.0);
            }
        }
        if let Some(content) = seen.counted(leaf.content()) {
            assert_eq!(content.len(), leaf.size as usize);
            seen.touch(content);
        }
        seen.keep(leaf.version());
        if let Some(text) = seen.keep(leaf.version_text(VersionName::ProductName)) {
            seen.touch(text.0);
        }
    }
}

fn read_bound_imports(image: &Image, seen: &mut Seen) {
    for import in seen.item(image.bound_imports()).into_iter().flatten().take(seen.most) {
        let Some(import) = seen.item(import) else {
            continue;
        };
        seen.touch(import.name.as_bytes());
        seen.print(&import.forwarders());
        for forwarder in import.forwarders().take(seen.most) {
            if let Some(forwarder) = seen.item(forwarder) {
                seen.touch(forwarder.name.as_bytes());
            }
        }
    }
}

/// The Rich header, and the names of sections in the string table.
fn read_names(image: &Image, seen: &mut Seen) {
    if let Some(header) = seen.keep(image.rich_header()) {
        seen.print(&header.entries());
        assert_eq!(header.entries().filter(Result::is_ok).count() as u64, header.count);
    }
    if let Some(strings) = seen.counted(image.string_table()).flatten() {
        seen.touch(strings);
    }
    for section in image.sections().iter().take(seen.most) {
        if let Some(name) = seen.counted(image.long_section_name(section)).flatten() {
            seen.touch(name.as_bytes());
        }
    }
}

/// Lists of all DLLs, base relocations, TLS callbacks and tables of the load configuration.
fn read_others_of(image: &Image, seen: &mut Seen) {
    seen.keep(image.load_config());
    seen.keep(image.tls());
    seen.keep(image.export_directory());
    let most = seen.most;
    for import in seen.item(image.imports()).into_iter().flatten().take(most) {
        seen.item(import);
    }
    for function in seen.item(image.delayed_functions()).into_iter().flatten().take(most) {
        seen.item(function);
    }
    for forwarder in seen.item(image.bound_forwarders()).into_iter().flatten().take(most) {
        seen.item(forwarder);
    }
    for callback in seen.item(image.tls_callbacks()).into_iter().flatten().take(most) {
        seen.item(callback);
    }
    for block in seen.item(image.relocation_blocks()).into_iter().flatten().take(most) {
        let Some(block) = seen.item(block) else { continue };
        seen.print(&block.relocations());
        for relocation in block.relocations().take(most) {
            seen.item(relocation);
        }
    }
    for entry in seen.keep(image.guard_table(GuardTable::CfFunctions)).into_iter().flatten().take(most) {
        seen.item(entry);
    }
    seen.keep(image.resource_root());
    if let Some(leaves) = seen.keep(image.resource_leaves()) {
        let Some(directory) = seen.item(leaves.directory(0)) else { return };
        seen.print(&directory.items());
        for item in directory.items().take(most) {
            seen.item(item);
        }
    }
}

/// Makes every call on these bytes, and reads at most so many items of each table and walk.
pub fn read_all(bytes: &[u8], mode: Mode, layout: Layout, most: usize) -> Seen {
    read(bytes, mode, layout, Seen::up_to(most))
}

/// The same, and prints all that is read.
pub fn print_all(bytes: &[u8], mode: Mode, layout: Layout, most: usize) -> Seen {
    read(bytes, mode, layout, Seen::printing(most))
}

fn read(bytes: &[u8], mode: Mode, layout: Layout, mut seen: Seen) -> Seen {
    let answer = Image::parse_as(bytes, mode, layout);
    let Some(image) = seen.item(answer) else {
        return seen;
    };
    seen.images += 1;
    for section in image.sections() {
        std::hint::black_box(section.name().len());
        seen.touch(image.section_bytes(section));
        std::hint::black_box(image.section_at(section.virtual_address));
        seen.print(section);
    }
    std::hint::black_box(image.offset(image.info().entry));
    let headers = image.headers().expect("the headers were read");
    seen.print(&headers);
    assert_eq!(headers.directories, image.info().directories);
    let stub = headers.dos_stub;
    seen.touch(&bytes[stub.offset as usize..][..stub.length as usize]);
    read_debug(&image, &mut seen);
    read_certificates(&image, &mut seen);
    if seen.most > 8 {
        read_signing(&image, &mut seen);
    }
    read_functions(&image, &mut seen);
    read_arm64_functions(&image, &mut seen);
    read_addresses(&image, &mut seen);
    read_exports(&image, &mut seen);
    read_imports(&image, &mut seen);
    read_delay_imports(&image, &mut seen);
    read_others_of(&image, &mut seen);
    read_clr(&image, &mut seen);
    read_version(&image, &mut seen);
    read_leaves(&image, &mut seen);
    read_bound_imports(&image, &mut seen);
    read_names(&image, &mut seen);
    read_symbols(seen.keep(image.symbols()), &mut seen);
    seen
}
