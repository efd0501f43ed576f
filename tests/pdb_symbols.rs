//! What the streams of a PDB say, of the file of lld-link in `pdb_bytes`: by what llvm-pdbutil 14.0.6 prints of it
//! (`dump -summary -section-headers -modules -publics -symbols -l`, `pdb2yaml -pdb-stream -dbi-stream`), and the same of the file with
//! scattered streams. Records that are damaged are made by hand from LLVM's pages.

use crate::errors::refused;
use crate::images::{put, with_byte};
use crate::pdbs::{all_of, pdb, record_truncated, short};
use pe_pdb::{
    DBI_STREAM, Dbi, FIRST_SYMBOL, INFO_STREAM, LineBlock, LineHeader, Module, Modules, Msf,
    PdbError, PdbInfo, ProcedureSymbol, PublicSymbol, SectionHeaders, Subsection, SymbolClass,
    SymbolIndex, SymbolRecord, SymbolRecords,
};
use std::alloc::Global;
use std::test::Fail;

/// The symbols of all modules, one after the other.
fn symbols_of_modules(alloc: Global, msf: &Msf<'_>) -> Result<Vec<u8>, Fail> {
    let bytes = all_of(alloc, msf, DBI_STREAM)?;
    let dbi = Dbi::parse(&bytes)?;
    let mut all = Vec::new(alloc);
    for module in Modules::new(dbi.modules) {
        let header = module?.header;
        let stream = all_of(alloc, msf, u32::from(header.stream))?;
        for byte in header.symbol_bytes(&stream)?.iter().skip(FIRST_SYMBOL) {
            all.push(*byte)?;
        }
    }
    Ok(all)
}

#[test]
fn sections_say_where_symbols_are(rt: HostRuntime) -> Result<(), Fail> {
    let bytes = pdb(rt.alloc())?;
    let msf = Msf::parse(&bytes)?;
    let stream = all_of(rt.alloc(), &msf, 10)?;
    let sections = SectionHeaders::parse(&stream)?;
    assert_eq!(rt; sections.len(), 3);
    assert_eq!(rt; sections.rva_of(1, 80), Some(0x1050));
    assert_eq!(rt; sections.rva_of(3, 0), Some(0x3000));
    assert_eq!(rt; sections.rva_of(0, 0), None);
    assert_eq!(rt; sections.rva_of(4, 0), None);
    assert_eq!(rt; sections.rva_of(3, 0xFFFF_CFFF), Some(0xFFFF_FFFF));
    assert_eq!(rt; sections.rva_of(3, 0xFFFF_D000), None);
    // shows: pe_pdb/src/sections.rt parse SectionHeaders
    let wanted = PdbError::SectionHeaders(119);
    assert!(rt; refused(SectionHeaders::parse(&stream[..119]), wanted));
    Ok(())
}

#[test]
fn an_index_needs_its_room(rt: HostRuntime) -> Result<(), Fail> {
    let bytes = pdb(rt.alloc())?;
    let msf = Msf::parse(&bytes)?;
    let headers = all_of(rt.alloc(), &msf, 10)?;
    let sections = SectionHeaders::parse(&headers)?;
    let symbols = symbols_of_modules(rt.alloc(), &msf)?;
    let class = SymbolClass::Procedures;
    assert_eq!(rt; SymbolIndex::count(class, &symbols, 0, &sections)?, 3);
    // shows: pe_pdb/src/symbol_lookup.rt new Room
    let mut few = [0u64; 2];
    let small = PdbError::Room {
        needed: 3,
        length: 2,
    };
    let found = SymbolIndex::new(class, &symbols, 0, &sections, &mut few);
    assert!(rt; refused(found, small));
    Ok(())
}

#[test]
fn damaged_heads_are_refused(rt: HostRuntime) -> Result<(), Fail> {
    let bytes = pdb(rt.alloc())?;
    let msf = Msf::parse(&bytes)?;
    let info = all_of(rt.alloc(), &msf, INFO_STREAM)?;
    assert!(rt; refused(PdbInfo::parse(&info[..27]), short(28, 27)));
    // shows: pe_pdb/src/info.rt parse InfoVersion
    let older = with_byte(info.clone()?, 0, 0x95);
    assert!(rt; refused(PdbInfo::parse(&older), PdbError::InfoVersion(20000405)));
    let stream = all_of(rt.alloc(), &msf, DBI_STREAM)?;
    assert!(rt; refused(Dbi::parse(&stream[..63]), short(64, 63)));
    // shows: pe_pdb/src/dbi.rt parse DbiSignature
    let other = with_byte(stream.clone()?, 0, 0xFE);
    assert!(rt; refused(Dbi::parse(&other), PdbError::DbiSignature(0xFFFF_FFFE)));
    // shows: pe_pdb/src/dbi.rt parse DbiVersion
    let mut older = stream.clone()?;
    put(&mut older, &[(4, &u32::to_le_bytes(19970606))]);
    assert!(rt; refused(Dbi::parse(&older), PdbError::DbiVersion(19970606)));
    // shows: pe_pdb/src/dbi.rt parse DbiParts
    let parts = PdbError::DbiParts {
        needed: 717,
        length: 716,
    };
    assert!(rt; refused(Dbi::parse(&stream[..716]), parts));
    let mut negative = stream.clone()?;
    put(&mut negative, &[(40, &u32::to_le_bytes(0xFFFF_FFFF))]);
    let parts = PdbError::DbiParts {
        needed: 717 + 0xFFFF_FFFF,
        length: 717,
    };
    assert!(rt; refused(Dbi::parse(&negative), parts));
    Ok(())
}

#[test]
fn damaged_records_are_refused(rt: HostRuntime) -> Result<(), Fail> {
    let bytes = pdb(rt.alloc())?;
    let msf = Msf::parse(&bytes)?;
    let symbols = all_of(rt.alloc(), &msf, 8)?;
    assert!(rt; refused(SymbolRecord::parse(&symbols, 105), short(4, 3)));
    assert!(rt; refused(SymbolRecord::parse(&symbols, 109), short(4, 0)));
    // shows: pe_pdb/src/symbol.rt parse RecordSize
    let mut small = symbols.clone()?;
    put(&mut small, &[(20, b"\x01\0")]);
    let size = PdbError::RecordSize {
        offset: 20,
        size: 1,
    };
    assert!(rt; refused(SymbolRecord::parse(&small, 20), size));
    // shows: pe_pdb/src/error.rt require_record RecordTruncated
    let found = SymbolRecord::parse(&symbols[..43], 20);
    assert!(rt; refused(found, record_truncated(20, 24, 43)));
    let mut walk = SymbolRecords::new(&symbols[..43], 0);
    assert!(rt; matches!(walk.next(), Some(Ok(_))));
    assert!(rt; matches!(walk.next(), Some(Err(_))));
    assert!(rt; walk.next().is_none());
    let content = &symbols[4..20];
    assert!(rt; refused(PublicSymbol::parse(&content[..9]), short(10, 9)));
    // shows: pe_pdb/src/public.rt parse Name
    assert!(rt; refused(PublicSymbol::parse(&content[..15]), PdbError::Name(10)));
    let module = all_of(rt.alloc(), &msf, 12)?;
    let content = SymbolRecord::parse(&module, 212)?.content;
    assert!(rt; refused(ProcedureSymbol::parse(&content[..34]), short(35, 34)));
    // shows: pe_pdb/src/procedure.rt parse Name
    assert!(rt; refused(ProcedureSymbol::parse(&content[..40]), PdbError::Name(35)));
    Ok(())
}

#[test]
fn damaged_modules_are_refused(rt: HostRuntime) -> Result<(), Fail> {
    let bytes = pdb(rt.alloc())?;
    let msf = Msf::parse(&bytes)?;
    let stream = all_of(rt.alloc(), &msf, DBI_STREAM)?;
    let modules = Dbi::parse(&stream)?.modules;
    assert!(rt; refused(Module::parse(&modules[..63], 0), short(64, 63)));
    // shows: pe_pdb/src/module.rt name_at Name
    assert!(rt; refused(Module::parse(&modules[..69], 0), PdbError::Name(64)));
    assert!(rt; refused(Module::parse(&modules[..75], 0), PdbError::Name(70)));
    let header = Module::parse(modules, 0)?.header;
    let own = all_of(rt.alloc(), &msf, 11)?;
    let size = header.symbols_size as usize;
    assert_eq!(rt; header.symbol_bytes(&own)?.len(), size);
    // shows: pe_pdb/src/module.rt symbol_bytes ModuleSymbols
    let symbols = PdbError::ModuleSymbols {
        size: header.symbols_size,
        length: 100,
    };
    assert!(rt; refused(header.symbol_bytes(&own[..100]), symbols));
    // shows: pe_pdb/src/module.rt symbol_bytes Short
    let mut few = header;
    few.symbols_size = 3;
    assert!(rt; refused(few.symbol_bytes(&own), short(4, 3)));
    few.symbols_size = 0;
    assert_eq!(rt; few.symbol_bytes(&[])?.len(), 0);
    // shows: pe_pdb/src/module.rt symbol_bytes ModuleSignature
    let older = with_byte(own, 0, 2);
    assert!(rt; refused(header.symbol_bytes(&older), PdbError::ModuleSignature(2)));
    Ok(())
}

/// The lines of a module by its index in the DBI stream.
pub(crate) fn lines_of(alloc: Global, msf: &Msf<'_>, index: usize) -> Result<Vec<u8>, Fail> {
    let bytes = all_of(alloc, msf, DBI_STREAM)?;
    let dbi = Dbi::parse(&bytes)?;
    let Some(module) = Modules::new(dbi.modules).nth(index) else {
        return Err(Fail::new("no module"));
    };
    let header = module?.header;
    let stream = all_of(alloc, msf, u32::from(header.stream))?;
    let mut lines = Vec::new(alloc);
    for byte in header.line_bytes(&stream)? {
        lines.push(*byte)?;
    }
    Ok(lines)
}

#[test]
fn damaged_lines_are_refused(rt: HostRuntime) -> Result<(), Fail> {
    let bytes = pdb(rt.alloc())?;
    let msf = Msf::parse(&bytes)?;
    let lines = lines_of(rt.alloc(), &msf, 1)?;
    let dbi = all_of(rt.alloc(), &msf, DBI_STREAM)?;
    let header = Module::parse(Dbi::parse(&dbi)?.modules, 0)?.header;
    let stream = all_of(rt.alloc(), &msf, 11)?;
    let found = header.line_bytes(&stream[..300]);
    assert!(rt; refused(found, record_truncated(248, 112, 300)));
    assert!(rt; refused(Subsection::parse(&lines[..95], 88), short(8, 7)));
    // shows: pe_pdb/src/line.rt parse RecordTruncated
    let found = Subsection::parse(&lines[..135], 88);
    assert!(rt; refused(found, record_truncated(88, 48, 135)));
    let content = Subsection::parse(&lines, 88)?.content;
    assert!(rt; refused(LineHeader::parse(&content[..11]), short(12, 11)));
    assert!(rt; refused(LineBlock::parse(&content[..23], 12), short(12, 11)));
    let found = LineBlock::parse(&content[..39], 12);
    assert!(rt; refused(found, record_truncated(12, 28, 39)));
    let mut many = lines.clone()?;
    put(&mut many, &[(88 + 8 + 16, &u32::to_le_bytes(3))]);
    let content = Subsection::parse(&many, 88)?.content;
    assert!(rt; refused(LineBlock::parse(content, 12), record_truncated(12, 36, 28)));
    Ok(())
}
