//! Symbols of a COFF object. One may have auxiliary records after it, which count as symbols in indices.
//! <https://learn.microsoft.com/windows/win32/debug/pe-format#coff-symbol-table>

use crate::error;
use crate::raw;
use crate::strtab::Strtab;
use core::{fmt, iter::FusedIterator};
use scroll::{IOread, IOwrite, Pread, Pwrite, SizeWith};

/// Bytes of a [`Symbol`] and of an auxiliary record.
pub const COFF_SYMBOL_SIZE: usize = 18;

pub const IMAGE_SYM_UNDEFINED: i16 = 0;
pub const IMAGE_SYM_ABSOLUTE: i16 = -1;
pub const IMAGE_SYM_DEBUG: i16 = -2;
pub const IMAGE_SYM_TYPE_NULL: u16 = 0;
pub const IMAGE_SYM_TYPE_VOID: u16 = 1;
pub const IMAGE_SYM_TYPE_CHAR: u16 = 2;
pub const IMAGE_SYM_TYPE_SHORT: u16 = 3;
pub const IMAGE_SYM_TYPE_INT: u16 = 4;
pub const IMAGE_SYM_TYPE_LONG: u16 = 5;
pub const IMAGE_SYM_TYPE_FLOAT: u16 = 6;
pub const IMAGE_SYM_TYPE_DOUBLE: u16 = 7;
pub const IMAGE_SYM_TYPE_STRUCT: u16 = 8;
pub const IMAGE_SYM_TYPE_UNION: u16 = 9;
pub const IMAGE_SYM_TYPE_ENUM: u16 = 10;
pub const IMAGE_SYM_TYPE_MOE: u16 = 11;
pub const IMAGE_SYM_TYPE_BYTE: u16 = 12;
pub const IMAGE_SYM_TYPE_WORD: u16 = 13;
pub const IMAGE_SYM_TYPE_UINT: u16 = 14;
pub const IMAGE_SYM_TYPE_DWORD: u16 = 15;
pub const IMAGE_SYM_DTYPE_NULL: u16 = 0;
pub const IMAGE_SYM_DTYPE_POINTER: u16 = 1;
pub const IMAGE_SYM_DTYPE_FUNCTION: u16 = 2;
pub const IMAGE_SYM_DTYPE_ARRAY: u16 = 3;
pub const IMAGE_SYM_TYPE_MASK: u16 = 0xf;
pub const IMAGE_SYM_DTYPE_SHIFT: usize = 4;
pub const IMAGE_SYM_CLASS_END_OF_FUNCTION: u8 = 0xff;
pub const IMAGE_SYM_CLASS_NULL: u8 = 0;
pub const IMAGE_SYM_CLASS_AUTOMATIC: u8 = 1;
pub const IMAGE_SYM_CLASS_EXTERNAL: u8 = 2;
pub const IMAGE_SYM_CLASS_STATIC: u8 = 3;
pub const IMAGE_SYM_CLASS_REGISTER: u8 = 4;
pub const IMAGE_SYM_CLASS_EXTERNAL_DEF: u8 = 5;
pub const IMAGE_SYM_CLASS_LABEL: u8 = 6;
pub const IMAGE_SYM_CLASS_UNDEFINED_LABEL: u8 = 7;
pub const IMAGE_SYM_CLASS_MEMBER_OF_STRUCT: u8 = 8;
pub const IMAGE_SYM_CLASS_ARGUMENT: u8 = 9;
pub const IMAGE_SYM_CLASS_STRUCT_TAG: u8 = 10;
pub const IMAGE_SYM_CLASS_MEMBER_OF_UNION: u8 = 11;
pub const IMAGE_SYM_CLASS_UNION_TAG: u8 = 12;
pub const IMAGE_SYM_CLASS_TYPE_DEFINITION: u8 = 13;
pub const IMAGE_SYM_CLASS_UNDEFINED_STATIC: u8 = 14;
pub const IMAGE_SYM_CLASS_ENUM_TAG: u8 = 15;
pub const IMAGE_SYM_CLASS_MEMBER_OF_ENUM: u8 = 16;
pub const IMAGE_SYM_CLASS_REGISTER_PARAM: u8 = 17;
pub const IMAGE_SYM_CLASS_BIT_FIELD: u8 = 18;
pub const IMAGE_SYM_CLASS_BLOCK: u8 = 100;
pub const IMAGE_SYM_CLASS_FUNCTION: u8 = 101;
pub const IMAGE_SYM_CLASS_END_OF_STRUCT: u8 = 102;
pub const IMAGE_SYM_CLASS_FILE: u8 = 103;
pub const IMAGE_SYM_CLASS_SECTION: u8 = 104;
pub const IMAGE_SYM_CLASS_WEAK_EXTERNAL: u8 = 105;
pub const IMAGE_SYM_CLASS_CLR_TOKEN: u8 = 107;
pub const IMAGE_WEAK_EXTERN_SEARCH_NOLIBRARY: u32 = 1;
pub const IMAGE_WEAK_EXTERN_SEARCH_LIBRARY: u32 = 2;
pub const IMAGE_WEAK_EXTERN_SEARCH_ALIAS: u32 = 3;
pub const IMAGE_COMDAT_SELECT_NODUPLICATES: u8 = 1;
pub const IMAGE_COMDAT_SELECT_ANY: u8 = 2;
pub const IMAGE_COMDAT_SELECT_SAME_SIZE: u8 = 3;
pub const IMAGE_COMDAT_SELECT_EXACT_MATCH: u8 = 4;
pub const IMAGE_COMDAT_SELECT_ASSOCIATIVE: u8 = 5;
pub const IMAGE_COMDAT_SELECT_LARGEST: u8 = 6;
/// A symbol.
#[repr(C)]
#[derive(Debug, Copy, Clone, PartialEq, Default, Pread, Pwrite, IOread, IOwrite, SizeWith)]
pub struct Symbol {
    /// Padded with zeros; four zeros and an offset where the name is in the string table.
    pub name: [u8; 8],
    /// As a rule an offset in the section.
    pub value: u32,
    /// From 1; below that `IMAGE_SYM_`.
    pub section_number: i16,
    /// `IMAGE_SYM_TYPE_` and `IMAGE_SYM_DTYPE_`.
    pub typ: u16,
    /// `IMAGE_SYM_CLASS_`.
    pub storage_class: u8,
    /// How many auxiliary records follow.
    pub number_of_aux_symbols: u8,
}

impl Symbol {
    /// The symbol at an offset, and its name where that stands in the symbol and is UTF-8. Error: `Scroll` where it is
    /// truncated.
    pub fn parse(bytes: &[u8], offset: usize) -> error::Result<(Option<&str>, Symbol)> {
        raw::symbol(bytes, offset)
    }

    /// The name, by the string table. Errors: `Malformed` where the table does not have it, `Scroll` where it is not UTF-8.
    pub fn name<'a>(&'a self, strtab: &'a Strtab<'_>) -> error::Result<&'a str> {
        match self.name_offset() {
            Some(offset) => strtab
                .get(offset as usize)
                .unwrap_or_else(|| Err(error::Error::Malformed(format!("Invalid Symbol name offset {offset:#x}")))),
            None => raw::text_up_to(&self.name, 0, 0),
        }
    }

    /// The offset of the name in the string table without its size field, or `None` where the name stands here.
    pub fn name_offset(&self) -> Option<u32> {
        raw::long_name_offset(&self.name)
    }

    /// Makes the name an offset, from the size field of the string table.
    pub fn set_name_offset(&mut self, offset: u32) {
        self.name[..4].fill(0);
        self.name[4..].copy_from_slice(&offset.to_le_bytes());
    }

    /// `IMAGE_SYM_TYPE_`.
    pub fn base_type(&self) -> u16 {
        self.typ & IMAGE_SYM_TYPE_MASK
    }

    /// `IMAGE_SYM_DTYPE_`.
    pub fn derived_type(&self) -> u16 {
        self.typ >> IMAGE_SYM_DTYPE_SHIFT
    }

    /// Whether an [`AuxFunctionDefinition`] may follow.
    pub fn is_function_definition(&self) -> bool {
        self.storage_class == IMAGE_SYM_CLASS_EXTERNAL
            && self.derived_type() == IMAGE_SYM_DTYPE_FUNCTION
            && self.section_number > 0
    }

    /// Whether an [`AuxWeakExternal`] follows.
    pub fn is_weak_external(&self) -> bool {
        self.storage_class == IMAGE_SYM_CLASS_WEAK_EXTERNAL
    }

    /// Whether the name of a file follows.
    pub fn is_file(&self) -> bool {
        self.storage_class == IMAGE_SYM_CLASS_FILE
    }

    /// Whether an [`AuxSectionDefinition`] follows.
    pub fn is_section_definition(&self) -> bool {
        self.storage_class == IMAGE_SYM_CLASS_STATIC && self.number_of_aux_symbols > 0
    }
}

/// After the symbol of a function.
#[repr(C)]
#[derive(Debug, Copy, Clone, PartialEq, Default, Pread, Pwrite, IOread, IOwrite, SizeWith)]
pub struct AuxFunctionDefinition {
    /// Index of the function's `.bf` symbol.
    pub tag_index: u32,
    /// Bytes of the function's code.
    pub total_size: u32,
    /// File offset of its line numbers, or 0.
    pub pointer_to_line_number: u32,
    /// Index of the next function's symbol, or 0.
    pub pointer_to_next_function: u32,
    /// Reserved.
    pub unused: [u8; 2],
}

/// After a `.bf` or `.ef` symbol.
#[repr(C)]
#[derive(Debug, Copy, Clone, PartialEq, Default, Pread, Pwrite, IOread, IOwrite, SizeWith)]
pub struct AuxBeginAndEndFunction {
    /// Reserved.
    pub unused1: [u8; 4],
    /// In the source file.
    pub line_number: u16,
    /// Reserved.
    pub unused2: [u8; 6],
    /// Index of the next `.bf` symbol, or 0.
    pub pointer_to_next_function: u32,
    /// Reserved.
    pub unused3: [u8; 2],
}

/// After a weak external symbol.
#[repr(C)]
#[derive(Debug, Copy, Clone, PartialEq, Default, Pread, Pwrite, IOread, IOwrite, SizeWith)]
pub struct AuxWeakExternal {
    /// Index of the symbol that is taken where no other is found.
    pub tag_index: u32,
    /// `IMAGE_WEAK_EXTERN_SEARCH_`.
    pub characteristics: u32,
    /// Reserved.
    pub unused: [u8; 10],
}

/// After the symbol of a section.
#[repr(C)]
#[derive(Debug, Copy, Clone, PartialEq, Default, Pread, Pwrite, IOread, IOwrite, SizeWith)]
pub struct AuxSectionDefinition {
    /// Bytes of the section.
    pub length: u32,
    /// The number of relocations.
    pub number_of_relocations: u16,
    /// The number of line numbers.
    pub number_of_line_numbers: u16,
    /// Of the section's bytes.
    pub checksum: u32,
    /// The section that goes with it, from 1.
    pub number: u16,
    /// `IMAGE_COMDAT_SELECT_`.
    pub selection: u8,
    /// Reserved.
    pub unused: [u8; 3],
}

/// The symbols of an object.
#[derive(Copy, Clone)]
pub struct SymbolTable<'a> {
    symbols: &'a [u8],
}

impl<'a> SymbolTable<'a> {
    /// The symbols of a table that the library found.
    pub(crate) fn of(symbols: &'a [u8]) -> SymbolTable<'a> {
        SymbolTable { symbols }
    }

    /// So many symbols at an offset. Error: `Scroll` where they are truncated.
    pub fn parse(bytes: &'a [u8], offset: usize, number: usize) -> error::Result<SymbolTable<'a>> {
        Ok(SymbolTable { symbols: raw::bytes_at(bytes, offset, Self::size(number))? })
    }

    /// Bytes of so many symbols.
    pub fn size(number: usize) -> usize {
        number.saturating_mul(COFF_SYMBOL_SIZE)
    }

    /// The symbol with an index, and its name where that stands in the symbol.
    pub fn get(&self, index: usize) -> Option<(Option<&'a str>, Symbol)> {
        raw::symbol(self.symbols, index.checked_mul(COFF_SYMBOL_SIZE)?).ok()
    }

    /// The record with an index as one of a function.
    pub fn aux_function_definition(&self, index: usize) -> Option<AuxFunctionDefinition> {
        raw::auxiliary(self.symbols, index)
    }

    /// The record with an index as one of a `.bf` or `.ef` symbol.
    pub fn aux_begin_and_end_function(&self, index: usize) -> Option<AuxBeginAndEndFunction> {
        raw::auxiliary(self.symbols, index)
    }

    /// The record with an index as one of a weak external symbol.
    pub fn aux_weak_external(&self, index: usize) -> Option<AuxWeakExternal> {
        raw::auxiliary(self.symbols, index)
    }

    /// The name of a file, in so many records from an index on.
    pub fn aux_file(&self, index: usize, number: usize) -> Option<&'a str> {
        let at = index.checked_mul(COFF_SYMBOL_SIZE)?;
        let name = raw::bytes_at(self.symbols, at, Self::size(number)).ok()?;
        raw::text_up_to(name, 0, 0).ok()
    }

    /// The record with an index as one of a section.
    pub fn aux_section_definition(&self, index: usize) -> Option<AuxSectionDefinition> {
        raw::auxiliary(self.symbols, index)
    }

    /// The symbols with their indices and their names, without auxiliary records.
    pub fn iter(&self) -> SymbolIterator<'a> {
        SymbolIterator { index: 0, symbols: self.symbols }
    }
}

/// Shows symbols one after the other, as goblin shows a list of them.
struct Shown<'a, 's>(&'s SymbolTable<'a>);

impl fmt::Debug for Shown<'_, '_> {
    fn fmt(&self, f: &mut fmt::Formatter<'_>) -> fmt::Result {
        f.debug_list().entries(self.0.iter()).finish()
    }
}

impl fmt::Debug for SymbolTable<'_> {
    fn fmt(&self, f: &mut fmt::Formatter<'_>) -> fmt::Result {
        f.debug_struct("SymbolTable").field("symbols", &Shown(self)).finish()
    }
}

/// Symbols, one after the other.
#[derive(Default)]
pub struct SymbolIterator<'a> {
    index: usize,
    symbols: &'a [u8],
}

impl<'a> Iterator for SymbolIterator<'a> {
    type Item = (usize, Option<&'a str>, Symbol);

    fn next(&mut self) -> Option<Self::Item> {
        let index = self.index;
        let (name, symbol) = raw::symbol(self.symbols, index.checked_mul(COFF_SYMBOL_SIZE)?).ok()?;
        self.index += 1 + usize::from(symbol.number_of_aux_symbols);
        Some((index, name, symbol))
    }
}

impl FusedIterator for SymbolIterator<'_> {}
