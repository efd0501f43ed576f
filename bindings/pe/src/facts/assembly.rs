//! The name, version and references of an assembly, from the tables of .NET's metadata. See
//! [ECMA-335](https://www.ecma-international.org/publications-and-standards/standards/ecma-335/), II.24.2.6 and II.22.
//!
//! The library for C has no call for the tables, so this reads them itself, in the bytes of the streams, which the library finds.
//! Of the 64 tables it reads the rows of three, and of those before them how large they are. What is not whole there is
//! [`Error::SHORT`].

use super::name::text;
use super::{entry, field, hex_of, Budget, List, Name, Part, ENTRY};
use pe_c::{Error, Metadata};
use serde::Serialize;

#[derive(Clone, Debug, Serialize)]
pub struct Tables<'a> {
    pub module: Option<Module<'a>>,
    /// Null of a module that belongs to the assembly of another file.
    pub assembly: Option<Assembly<'a>>,
    #[serde(flatten)]
    pub references: Part<List<Reference<'a>>>,
}

field!(Tables<'_>, "tables");

#[derive(Clone, Debug, Serialize)]
pub struct Module<'a> {
    #[serde(flatten, serialize_with = "text::name")]
    pub name: Name<'a>,
    /// The GUID that each build gets.
    pub mvid: Option<String>,
}

#[derive(Clone, Debug, Serialize)]
pub struct Assembly<'a> {
    #[serde(flatten, serialize_with = "text::name")]
    pub name: Name<'a>,
    /// Such as `4.0.0.0`.
    pub version: String,
    /// Null of an assembly that is neutral.
    #[serde(flatten, serialize_with = "text::culture")]
    pub culture: Option<Name<'a>>,
    /// Whether it has a public key, as one with a strong name does.
    pub has_public_key: bool,
}

/// An assembly that is referred to.
#[derive(Clone, Debug, Serialize)]
pub struct Reference<'a> {
    #[serde(flatten)]
    pub assembly: Assembly<'a>,
    /// The last 8 bytes of the SHA-1 of its public key, backwards. Null where it is not given in this form.
    pub public_key_token_hex: Option<String>,
}

entry!(Reference<'_>, "references");

/// A column of a table: a number of so many bytes, an offset in a heap, the number of a row of a table, or of one of some tables,
/// by so many bits.
#[derive(Clone, Copy)]
enum Column {
    Number(usize),
    Text,
    Guid,
    Blob,
    Row(usize),
    Coded(u32, &'static [usize]),
}

use Column::{Blob, Coded, Guid, Number, Row, Text};

const TYPE_DEF_OR_REF: Column = Coded(2, &[0x02, 0x01, 0x1B]);
const HAS_CONSTANT: Column = Coded(2, &[0x04, 0x08, 0x17]);
const HAS_CUSTOM_ATTRIBUTE: Column = Coded(
    5,
    &[
        0x06, 0x04, 0x01, 0x02, 0x08, 0x09, 0x0A, 0x00, 0x0E, 0x17, 0x14, 0x11, 0x1A, 0x1B, 0x20, 0x23, 0x26, 0x27,
        0x28, 0x2A, 0x2C, 0x2B,
    ],
);
const HAS_FIELD_MARSHAL: Column = Coded(1, &[0x04, 0x08]);
const HAS_DECL_SECURITY: Column = Coded(2, &[0x02, 0x06, 0x20]);
const MEMBER_REF_PARENT: Column = Coded(3, &[0x02, 0x01, 0x1A, 0x06, 0x1B]);
const HAS_SEMANTICS: Column = Coded(1, &[0x14, 0x17]);
const METHOD_DEF_OR_REF: Column = Coded(1, &[0x06, 0x0A]);
const MEMBER_FORWARDED: Column = Coded(1, &[0x04, 0x06]);
const CUSTOM_ATTRIBUTE_TYPE: Column = Coded(3, &[0x06, 0x0A]);
const RESOLUTION_SCOPE: Column = Coded(2, &[0x00, 0x1A, 0x23, 0x01]);

const MODULE: usize = 0x00;
const ASSEMBLY: usize = 0x20;
const ASSEMBLY_REF: usize = 0x23;

/// The columns of each table, by its number, up to that of references.
const TABLES: [&[Column]; ASSEMBLY_REF + 1] = [
    &[Number(2), Text, Guid, Guid, Guid],                            // Module
    &[RESOLUTION_SCOPE, Text, Text],                                 // TypeRef
    &[Number(4), Text, Text, TYPE_DEF_OR_REF, Row(0x04), Row(0x06)], // TypeDef
    &[Row(0x04)],                                                    // FieldPtr
    &[Number(2), Text, Blob],                                        // Field
    &[Row(0x06)],                                                    // MethodPtr
    &[Number(4), Number(2), Number(2), Text, Blob, Row(0x08)],       // MethodDef
    &[Row(0x08)],                                                    // ParamPtr
    &[Number(2), Number(2), Text],                                   // Param
    &[Row(0x02), TYPE_DEF_OR_REF],                                   // InterfaceImpl
    &[MEMBER_REF_PARENT, Text, Blob],                                // MemberRef
    &[Number(2), HAS_CONSTANT, Blob],                                // Constant
    &[HAS_CUSTOM_ATTRIBUTE, CUSTOM_ATTRIBUTE_TYPE, Blob],            // CustomAttribute
    &[HAS_FIELD_MARSHAL, Blob],                                      // FieldMarshal
    &[Number(2), HAS_DECL_SECURITY, Blob],                           // DeclSecurity
    &[Number(2), Number(4), Row(0x02)],                              // ClassLayout
    &[Number(4), Row(0x04)],                                         // FieldLayout
    &[Blob],                                                         // StandAloneSig
    &[Row(0x02), Row(0x14)],                                         // EventMap
    &[Row(0x14)],                                                    // EventPtr
    &[Number(2), Text, TYPE_DEF_OR_REF],                             // Event
    &[Row(0x02), Row(0x17)],                                         // PropertyMap
    &[Row(0x17)],                                                    // PropertyPtr
    &[Number(2), Text, Blob],                                        // Property
    &[Number(2), Row(0x06), HAS_SEMANTICS],                          // MethodSemantics
    &[Row(0x02), METHOD_DEF_OR_REF, METHOD_DEF_OR_REF],              // MethodImpl
    &[Text],                                                         // ModuleRef
    &[Blob],                                                         // TypeSpec
    &[Number(2), MEMBER_FORWARDED, Text, Row(0x1A)],                 // ImplMap
    &[Number(4), Row(0x04)],                                         // FieldRVA
    &[Number(4), Number(4)],                                         // EncLog
    &[Number(4)],                                                    // EncMap
    &[Number(4), Number(2), Number(2), Number(2), Number(2), Number(4), Blob, Text, Text], // Assembly
    &[Number(4)],                                                    // AssemblyProcessor
    &[Number(4), Number(4), Number(4)],                              // AssemblyOS
    &[Number(2), Number(2), Number(2), Number(2), Number(4), Blob, Text, Text, Blob], // AssemblyRef
];

/// The bits of the heaps whose offsets have 4 bytes, and that of 4 bytes more before the tables.
const LARGE_TEXTS: u8 = 1;
const LARGE_GUIDS: u8 = 2;
const LARGE_BLOBS: u8 = 4;
const HAS_EXTRA_DATA: u8 = 0x40;
/// `afPublicKey`: the key is whole.
const IS_WHOLE_KEY: u32 = 1;
const TOKEN_SIZE: usize = 8;
const GUID_SIZE: usize = 16;

fn u32_at(bytes: &[u8], offset: usize) -> Result<u32, Error> {
    let bytes = bytes.get(offset..offset + 4).ok_or(Error::SHORT)?;
    Ok(bytes.try_into().map_or(0, u32::from_le_bytes))
}

/// The stream of the tables, and the heaps.
struct Reader<'a> {
    heap_sizes: u8,
    /// How many rows each table has.
    rows: [u32; 64],
    /// The rows of all tables, one table after the other.
    tables: &'a [u8],
    texts: &'a [u8],
    guids: &'a [u8],
    blobs: &'a [u8],
}

/// The rows of a table.
struct Rows<'a> {
    bytes: &'a [u8],
    widths: Vec<usize>,
    size: usize,
}

impl Rows<'_> {
    /// The numbers of a row.
    fn row(&self, index: usize) -> Result<Vec<u32>, Error> {
        let start = index.checked_mul(self.size).ok_or(Error::SHORT)?;
        let mut left = self.bytes.get(start..).and_then(|it| it.get(..self.size)).ok_or(Error::SHORT)?;
        let numbers = self.widths.iter().map(|width| {
            let (cell, rest) = left.split_at(*width);
            left = rest;
            cell.iter().rev().fold(0, |number, byte| number << 8 | u32::from(*byte))
        });
        Ok(numbers.collect())
    }
}

/// The content of a stream: of one that is not all in the metadata, nothing.
fn stream<'a>(metadata: &Metadata<'a>, names: &[&[u8]]) -> Option<&'a [u8]> {
    metadata
        .streams()
        .map_while(Result::ok)
        .find(|it| names.contains(&it.name))
        .map(|it| it.content.unwrap_or_default())
}

impl<'a> Reader<'a> {
    /// None without a stream of tables.
    fn of(metadata: &Metadata<'a>) -> Result<Option<Reader<'a>>, Error> {
        let Some(bytes) = stream(metadata, &[b"#~", b"#-"]) else { return Ok(None) };
        let heap = |name: &'static [u8]| stream(metadata, &[name]).unwrap_or_default();
        let (low, high) = (u32_at(bytes, 8)?, u32_at(bytes, 12)?);
        let (heap_sizes, present) = (bytes[6], u64::from(high) << 32 | u64::from(low));
        let (mut rows, mut offset) = ([0; 64], 24);
        for (table, count) in rows.iter_mut().enumerate() {
            if present >> table & 1 != 0 {
                *count = u32_at(bytes, offset)?;
                offset += 4;
            }
        }
        offset += if heap_sizes & HAS_EXTRA_DATA != 0 { 4 } else { 0 };
        let tables = bytes.get(offset..).ok_or(Error::SHORT)?;
        Ok(Some(Reader {
            heap_sizes,
            rows,
            tables,
            texts: heap(b"#Strings"),
            guids: heap(b"#GUID"),
            blobs: heap(b"#Blob"),
        }))
    }

    /// How many bytes a column has: 2, or 4 where what it counts has too much for 2.
    fn width(&self, column: Column) -> usize {
        let is_large = match column {
            Number(size) => return size,
            Text => self.heap_sizes & LARGE_TEXTS != 0,
            Guid => self.heap_sizes & LARGE_GUIDS != 0,
            Blob => self.heap_sizes & LARGE_BLOBS != 0,
            Row(table) => self.rows[table] > 0xFFFF,
            Coded(bits, tables) => tables.iter().any(|it| self.rows[*it] > 0xFFFF >> bits),
        };
        if is_large {
            4
        } else {
            2
        }
    }

    fn row_size(&self, table: usize) -> usize {
        TABLES[table].iter().map(|it| self.width(*it)).sum()
    }

    /// The rows of a table, up to the end of the stream: what follows the rows of those before it.
    fn rows_of(&self, table: usize) -> Rows<'a> {
        let before = (0..table).map(|it| u64::from(self.rows[it]) * self.row_size(it) as u64).sum::<u64>();
        let bytes = usize::try_from(before).ok().and_then(|it| self.tables.get(it..)).unwrap_or_default();
        Rows { bytes, widths: TABLES[table].iter().map(|it| self.width(*it)).collect(), size: self.row_size(table) }
    }

    /// The text at an offset of its heap, without the zero at its end.
    fn text(&self, offset: u32) -> Result<Name<'a>, Error> {
        let rest = self.texts.get(offset as usize..).ok_or(Error::SHORT)?;
        let length = rest.iter().position(|it| *it == 0).ok_or(Error::SHORT)?;
        Ok(Name(&rest[..length]))
    }

    /// The bytes at an offset of their heap, after their length in one, two or four bytes.
    fn blob(&self, offset: u32) -> Result<&'a [u8], Error> {
        let rest = self.blobs.get(offset as usize..).ok_or(Error::SHORT)?;
        let (length, start) = match *rest {
            [first @ 0..=0x7F, ..] => (first.into(), 1),
            [first @ 0x80..=0xBF, second, ..] => (usize::from(first & 0x3F) << 8 | usize::from(second), 2),
            [first @ 0xC0..=0xDF, second, third, fourth, ..] => {
                (u32::from_be_bytes([first & 0x1F, second, third, fourth]) as usize, 4)
            }
            _ => return Err(Error::SHORT),
        };
        rest[start..].get(..length).ok_or(Error::SHORT)
    }

    /// A GUID by its number, from 1 on. Nothing for 0, or where it is not whole.
    fn guid(&self, index: u32) -> Option<String> {
        let start = (index as usize).checked_sub(1)?.checked_mul(GUID_SIZE)?;
        let bytes = self.guids.get(start..)?.get(..GUID_SIZE)?;
        Some(pe_c::Guid(bytes.try_into().ok()?).to_string())
    }

    fn module(&self) -> Result<Option<Module<'a>>, Error> {
        if self.rows[MODULE] == 0 {
            return Ok(None);
        }
        let row = self.rows_of(MODULE).row(0)?;
        Ok(Some(Module { name: self.text(row[1])?, mvid: self.guid(row[2]) }))
    }

    fn assembly(&self) -> Result<Option<Assembly<'a>>, Error> {
        if self.rows[ASSEMBLY] == 0 {
            return Ok(None);
        }
        let row = self.rows_of(ASSEMBLY).row(0)?;
        Ok(Some(self.identity(&row[1..5], row[6], row[7], row[8])?))
    }

    fn identity(&self, version: &[u32], key: u32, name: u32, culture: u32) -> Result<Assembly<'a>, Error> {
        let numbers: Vec<String> = version.iter().map(u32::to_string).collect();
        let culture = self.text(culture)?;
        Ok(Assembly {
            name: self.text(name)?,
            version: numbers.join("."),
            culture: (!culture.0.is_empty()).then_some(culture),
            has_public_key: key != 0,
        })
    }

    fn reference(&self, row: Vec<u32>) -> Result<Reference<'a>, Error> {
        let assembly = self.identity(&row[..4], row[5], row[6], row[7])?;
        let token = Some(self.blob(row[5])?).filter(|it| row[4] & IS_WHOLE_KEY == 0 && it.len() == TOKEN_SIZE);
        Ok(Reference { assembly, public_key_token_hex: token.map(hex_of) })
    }

    fn references(&self, mut budget: Budget) -> List<Reference<'a>> {
        let table = self.rows_of(ASSEMBLY_REF);
        let rows = (0..self.rows[ASSEMBLY_REF] as usize).map(|it| table.row(it).and_then(|row| self.reference(row)));
        let mut is_over = false;
        let rows = rows.take_while(|it| !std::mem::replace(&mut is_over, it.is_err()));
        List::limited(rows, |it| {
            let culture = it.assembly.culture.map_or(0, |culture| culture.0.len());
            budget.takes(ENTRY + it.assembly.name.0.len() + culture).then_some(it)
        })
    }
}

/// None of metadata without tables.
pub fn of<'a>(metadata: &Metadata<'a>) -> Part<Tables<'a>> {
    let tables = Reader::of(metadata).and_then(|reader| {
        let Some(reader) = reader else { return Ok(None) };
        let references = Part::Present(reader.references(Budget::without_rvas(metadata.bytes)));
        Ok(Some(Tables { module: reader.module()?, assembly: reader.assembly()?, references }))
    });
    tables.into()
}

#[cfg(test)]
mod tests {
    use super::*;

    fn reader(heap_sizes: u8, rows: &[(usize, u32)]) -> Reader<'static> {
        let mut counts = [0; 64];
        rows.iter().for_each(|(table, count)| counts[*table] = *count);
        let (texts, blobs) = (b"\0one\0two", b"\x02ab\x80\x01c\xC0\x00\x00\x02de\xE0");
        Reader { heap_sizes, rows: counts, tables: &[], texts, guids: &[], blobs }
    }

    // II.24.2.6: an index has 2 bytes up to 65,535 rows, and a coded one of 2 bits up to 16,383.
    #[test]
    fn columns_are_as_wide_as_what_they_count() {
        let small = reader(0, &[(0x04, 0xFFFF), (0x01, 0x3FFF)]);
        assert_eq!((small.row_size(0x02), small.row_size(0x03)), (4 + 2 + 2 + 2 + 2 + 2, 2));
        let large = reader(LARGE_TEXTS, &[(0x04, 0x1_0000), (0x01, 0x4000)]);
        assert_eq!((large.row_size(0x02), large.row_size(0x03)), (4 + 4 + 4 + 4 + 4 + 2, 4));
        let keys = reader(LARGE_BLOBS | LARGE_GUIDS, &[]);
        assert_eq!((keys.row_size(ASSEMBLY_REF), keys.row_size(MODULE)), (8 + 4 + 4 + 2 + 2 + 4, 2 + 2 + 4 + 4 + 4));
    }

    // II.24.2.3 and II.24.2.4.
    #[test]
    fn heaps_end_their_items() {
        let heaps = reader(0, &[]);
        assert_eq!((heaps.text(0).unwrap().0, heaps.text(1).unwrap().0), (&b""[..], &b"one"[..]));
        assert_eq!(heaps.text(2).unwrap().0, b"ne");
        assert_eq!((heaps.text(5).err(), heaps.text(9).err()), (Some(Error::SHORT), Some(Error::SHORT)));
        assert_eq!((heaps.blob(0), heaps.blob(3), heaps.blob(6)), (Ok(&b"ab"[..]), Ok(&b"c"[..]), Ok(&b"de"[..])));
        assert_eq!((heaps.blob(12), heaps.blob(13)), (Err(Error::SHORT), Err(Error::SHORT)));
    }
}
