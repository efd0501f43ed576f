//! The numbers of the headers that few programs look at: the DOS header, and of the COFF header and the optional header what
//! `headers` does not have.
//! <https://learn.microsoft.com/windows/win32/debug/pe-format#optional-header-windows-specific-fields-image-only>

use pe_c::{DosHeader, Image, OptionalHeader};
use serde::Serialize;

/// `IMAGE_NT_OPTIONAL_HDR32_MAGIC`
const PE32: u16 = 0x10B;

/// Of the COFF header.
#[derive(Clone, Debug, Serialize)]
pub struct Coff {
    pub number_of_sections: u16,
    /// Of the COFF symbols, or 0.
    pub symbol_table_file_offset: u32,
    /// Entries of the COFF symbol table, auxiliary records included.
    pub number_of_symbols: u32,
    /// Bytes of the string table after the symbols, its size field included; null without one.
    pub string_table_size: Option<usize>,
    /// Bytes.
    pub size_of_optional_header: u16,
}

/// Of the optional header. Versions are `MAJOR.MINOR`, sizes bytes.
#[derive(Clone, Debug, Serialize)]
pub struct Optional {
    pub magic: u16,
    pub linker_version: String,
    pub operating_system_version: String,
    pub image_version: String,
    pub subsystem_version: String,
    pub size_of_code: u32,
    pub size_of_initialized_data: u32,
    pub size_of_uninitialized_data: u32,
    pub base_of_code_rva: u32,
    /// Null in PE32+, which has no such field.
    pub base_of_data_rva: Option<u32>,
    pub size_of_stack_reserve: u64,
    pub size_of_stack_commit: u64,
    pub size_of_heap_reserve: u64,
    pub size_of_heap_commit: u64,
    /// Reserved.
    pub win32_version_value: u32,
    /// Reserved.
    pub loader_flags: u32,
    /// Directories, as the header says.
    pub number_of_rva_and_sizes: u32,
}

/// The DOS header, which DOS read. Windows reads the signature, which is `MZ`, and the last field.
#[derive(Clone, Debug, Serialize)]
pub struct Dos {
    pub bytes_on_last_page: u16,
    pub pages_in_file: u16,
    pub relocations: u16,
    pub size_of_header_in_paragraphs: u16,
    pub minimum_extra_paragraphs: u16,
    pub maximum_extra_paragraphs: u16,
    pub initial_relative_ss: u16,
    pub initial_sp: u16,
    pub checksum: u16,
    pub initial_ip: u16,
    pub initial_relative_cs: u16,
    pub relocations_file_offset: u16,
    pub overlay_number: u16,
    pub reserved: [u16; 4],
    pub oem_id: u16,
    pub oem_information: u16,
    pub reserved2: [u16; 10],
    /// Of the PE signature.
    pub pe_file_offset: u32,
    /// Bytes between this header and the PE signature.
    pub stub_size: u64,
}

/// All of these.
#[derive(Clone, Debug, Serialize)]
pub struct AllHeaders {
    pub coff: Coff,
    /// Null without an optional header.
    pub optional: Option<Optional>,
    pub dos: Dos,
}

fn version(major: impl ToString, minor: impl ToString) -> String {
    major.to_string() + "." + &minor.to_string()
}

fn optional_of(from: &OptionalHeader) -> Optional {
    Optional {
        magic: from.magic,
        linker_version: version(from.major_linker_version, from.minor_linker_version),
        operating_system_version: version(from.major_operating_system_version, from.minor_operating_system_version),
        image_version: version(from.major_image_version, from.minor_image_version),
        subsystem_version: version(from.major_subsystem_version, from.minor_subsystem_version),
        size_of_code: from.size_of_code,
        size_of_initialized_data: from.size_of_initialized_data,
        size_of_uninitialized_data: from.size_of_uninitialized_data,
        base_of_code_rva: from.base_of_code,
        base_of_data_rva: (from.magic == PE32).then_some(from.base_of_data),
        size_of_stack_reserve: from.size_of_stack_reserve,
        size_of_stack_commit: from.size_of_stack_commit,
        size_of_heap_reserve: from.size_of_heap_reserve,
        size_of_heap_commit: from.size_of_heap_commit,
        win32_version_value: from.win32_version_value,
        loader_flags: from.loader_flags,
        number_of_rva_and_sizes: from.number_of_rva_and_sizes,
    }
}

fn dos_of(from: &DosHeader, stub_size: u64) -> Dos {
    Dos {
        bytes_on_last_page: from.bytes_on_last_page,
        pages_in_file: from.pages_in_file,
        relocations: from.relocations,
        size_of_header_in_paragraphs: from.size_of_header_in_paragraphs,
        minimum_extra_paragraphs: from.minimum_extra_paragraphs,
        maximum_extra_paragraphs: from.maximum_extra_paragraphs,
        initial_relative_ss: from.initial_relative_ss,
        initial_sp: from.initial_sp,
        checksum: from.checksum,
        initial_ip: from.initial_ip,
        initial_relative_cs: from.initial_relative_cs,
        relocations_file_offset: from.relocations_offset,
        overlay_number: from.overlay_number,
        reserved: from.reserved,
        oem_id: from.oem_id,
        oem_information: from.oem_information,
        reserved2: from.reserved2,
        pe_file_offset: from.pe_pointer,
        stub_size,
    }
}

/// The library reads them of each image that it accepts, so there is always a value.
pub fn of(image: &Image<'_>) -> Option<AllHeaders> {
    let headers = image.headers().ok()?;
    let coff = Coff {
        number_of_sections: headers.coff.number_of_sections,
        symbol_table_file_offset: headers.coff.pointer_to_symbol_table,
        number_of_symbols: headers.coff.number_of_symbol_table,
        string_table_size: image.string_table().ok().flatten().map(<[u8]>::len),
        size_of_optional_header: headers.coff.size_of_optional_header,
    };
    let optional = (image.info().width != 0).then(|| optional_of(&headers.optional));
    Some(AllHeaders { coff, optional, dos: dos_of(&headers.dos, headers.dos_stub.length) })
}
