//! The optional header, which every image has: its magic number says whether addresses have 32 or 64 bits.
//! <https://learn.microsoft.com/windows/win32/debug/pe-format#optional-header-image-only>

use super::data_directories::{self, DataDirectories, DataDirectory};
use crate::container;
use crate::error;
use crate::raw;
use pe_c::sys;
use scroll::{ctx, Pread, Pwrite, SizeWith};

/// `IMAGE_NT_OPTIONAL_HDR32_MAGIC`: PE32.
pub const MAGIC_32: u16 = 0x10b;
/// `IMAGE_NT_OPTIONAL_HDR64_MAGIC`: PE32+.
pub const MAGIC_64: u16 = 0x20b;
/// Bytes of [`StandardFields32`].
pub const SIZEOF_STANDARD_FIELDS_32: usize = 28;
/// Bytes of [`StandardFields64`].
pub const SIZEOF_STANDARD_FIELDS_64: usize = 24;
/// Bytes of [`WindowsFields32`].
pub const SIZEOF_WINDOWS_FIELDS_32: usize = 68;
/// Bytes of [`WindowsFields64`].
pub const SIZEOF_WINDOWS_FIELDS_64: usize = 88;
/// Of the checksum, from the start of [`WindowsFields32`].
pub const OFFSET_WINDOWS_FIELDS_32_CHECKSUM: usize = 36;
/// Of the checksum, from the start of [`WindowsFields64`].
pub const OFFSET_WINDOWS_FIELDS_64_CHECKSUM: usize = 40;

/// Declares the fields that the headers of both widths share, each with a width of its own.
macro_rules! standard_fields {
    ($(#[$attribute:meta])* $name:ident { $($more:ident)? }) => {
        $(#[$attribute])*
        pub struct $name {
            /// [`MAGIC_32`] or [`MAGIC_64`].
            pub magic: u16,
            /// Of the linker.
            pub major_linker_version: u8,
            /// Of the linker.
            pub minor_linker_version: u8,
            /// Bytes of code in all sections.
            pub size_of_code: u32,
            /// Bytes of data in all sections.
            pub size_of_initialized_data: u32,
            /// Bytes of zeros in all sections.
            pub size_of_uninitialized_data: u32,
            /// RVA where execution starts.
            pub address_of_entry_point: u32,
            /// RVA of the code.
            pub base_of_code: u32,
            $(
                /// RVA of the data; 0 in PE32+.
                pub $more: u32,
            )?
        }
    };
}

standard_fields! {
    /// The first fields of PE32, as they stand in a file.
    #[repr(C)]
    #[derive(Debug, PartialEq, Copy, Clone, Default, Pread, Pwrite, SizeWith)]
    StandardFields32 { base_of_data }
}
standard_fields! {
    /// The first fields of PE32+, as they stand in a file.
    #[repr(C)]
    #[derive(Debug, PartialEq, Copy, Clone, Default, Pread, Pwrite, SizeWith)]
    StandardFields64 { }
}
standard_fields! {
    /// The first fields of both widths.
    #[derive(Debug, PartialEq, Copy, Clone, Default)]
    StandardFields { base_of_data }
}

macro_rules! windows_fields {
    ($(#[$doc:meta])* $name:ident, $width:ty) => {
        $(#[$doc])*
        #[repr(C)]
        #[derive(Debug, PartialEq, Copy, Clone, Default, Pread, Pwrite, SizeWith)]
        pub struct $name {
            /// The preferred virtual address of the image.
            pub image_base: $width,
            /// In bytes: sections start at multiples of it in memory.
            pub section_alignment: u32,
            /// In bytes: sections start at multiples of it in the file.
            pub file_alignment: u32,
            /// Of the system that is needed.
            pub major_operating_system_version: u16,
            /// Of the system that is needed.
            pub minor_operating_system_version: u16,
            /// Of the image.
            pub major_image_version: u16,
            /// Of the image.
            pub minor_image_version: u16,
            /// Of the subsystem that is needed.
            pub major_subsystem_version: u16,
            /// Of the subsystem that is needed.
            pub minor_subsystem_version: u16,
            /// Reserved.
            pub win32_version_value: u32,
            /// Bytes of the image in memory.
            pub size_of_image: u32,
            /// Bytes of the headers in the file, rounded up to the file alignment.
            pub size_of_headers: u32,
            /// The checksum, as the file has it.
            pub check_sum: u32,
            /// `IMAGE_SUBSYSTEM_`.
            pub subsystem: u16,
            /// `IMAGE_DLLCHARACTERISTICS_` flags.
            pub dll_characteristics: u16,
            /// Bytes of the stack to reserve.
            pub size_of_stack_reserve: $width,
            /// Bytes of the stack to commit.
            pub size_of_stack_commit: $width,
            /// Bytes of the heap to reserve.
            pub size_of_heap_reserve: $width,
            /// Bytes of the heap to commit.
            pub size_of_heap_commit: $width,
            /// Reserved.
            pub loader_flags: u32,
            /// The number of data directories, as the file has it.
            pub number_of_rva_and_sizes: u32,
        }
    };
}

windows_fields!(
    /// The other fields of PE32, as they stand in a file.
    WindowsFields32,
    u32
);
windows_fields!(
    /// The other fields of PE32+, and of both widths.
    WindowsFields64,
    u64
);

/// The other fields of both widths.
pub type WindowsFields = WindowsFields64;

/// Makes the fields of one width of those of another, but for those that are named.
macro_rules! conversion {
    ($from:ty => $to:ident { $($field:ident)* } $($other:ident: $value:expr),*) => {
        impl From<$from> for $to {
            fn from(it: $from) -> Self {
                $to { $($field: it.$field.into(),)* $($other: $value(&it)),* }
            }
        }
    };
}

conversion!(StandardFields32 => StandardFields {
    magic major_linker_version minor_linker_version size_of_code size_of_initialized_data size_of_uninitialized_data
    address_of_entry_point base_of_code base_of_data
});
conversion!(StandardFields64 => StandardFields {
    magic major_linker_version minor_linker_version size_of_code size_of_initialized_data size_of_uninitialized_data
    address_of_entry_point base_of_code
} base_of_data: |_: &StandardFields64| 0);
conversion!(StandardFields => StandardFields32 {
    magic major_linker_version minor_linker_version size_of_code size_of_initialized_data size_of_uninitialized_data
    address_of_entry_point base_of_code base_of_data
});
conversion!(StandardFields => StandardFields64 {
    magic major_linker_version minor_linker_version size_of_code size_of_initialized_data size_of_uninitialized_data
    address_of_entry_point base_of_code
});
conversion!(WindowsFields32 => WindowsFields64 {
    image_base section_alignment file_alignment major_operating_system_version minor_operating_system_version
    major_image_version minor_image_version major_subsystem_version minor_subsystem_version win32_version_value
    size_of_image size_of_headers check_sum subsystem dll_characteristics size_of_stack_reserve size_of_stack_commit
    size_of_heap_reserve size_of_heap_commit loader_flags number_of_rva_and_sizes
});

impl TryFrom<WindowsFields64> for WindowsFields32 {
    type Error = error::Error;

    /// Error: `Malformed` where an address or a size has more than 32 bits.
    fn try_from(it: WindowsFields64) -> error::Result<Self> {
        Ok(WindowsFields32 {
            image_base: narrow(it.image_base)?,
            section_alignment: it.section_alignment,
            file_alignment: it.file_alignment,
            major_operating_system_version: it.major_operating_system_version,
            minor_operating_system_version: it.minor_operating_system_version,
            major_image_version: it.major_image_version,
            minor_image_version: it.minor_image_version,
            major_subsystem_version: it.major_subsystem_version,
            minor_subsystem_version: it.minor_subsystem_version,
            win32_version_value: it.win32_version_value,
            size_of_image: it.size_of_image,
            size_of_headers: it.size_of_headers,
            check_sum: it.check_sum,
            subsystem: it.subsystem,
            dll_characteristics: it.dll_characteristics,
            size_of_stack_reserve: narrow(it.size_of_stack_reserve)?,
            size_of_stack_commit: narrow(it.size_of_stack_commit)?,
            size_of_heap_reserve: narrow(it.size_of_heap_reserve)?,
            size_of_heap_commit: narrow(it.size_of_heap_commit)?,
            loader_flags: it.loader_flags,
            number_of_rva_and_sizes: it.number_of_rva_and_sizes,
        })
    }
}

fn narrow(value: u64) -> error::Result<u32> {
    u32::try_from(value).map_err(|_| error::Error::Malformed(format!("{value:#x} does not fit PE32")))
}

/// The optional header.
#[derive(Debug, PartialEq, Copy, Clone)]
pub struct OptionalHeader {
    /// Its first fields.
    pub standard_fields: StandardFields,
    /// Its other fields.
    pub windows_fields: WindowsFields,
    /// Where the parts of the image are.
    pub data_directories: DataDirectories,
}

impl OptionalHeader {
    /// The width of addresses. Error: `BadMagic`.
    pub fn container(&self) -> error::Result<container::Container> {
        match self.standard_fields.magic {
            MAGIC_32 => Ok(container::Container::Little),
            MAGIC_64 => Ok(container::Container::Big),
            magic => Err(error::Error::BadMagic(magic.into())),
        }
    }

    /// Of an image's headers, as the library has read them; `None` without one.
    pub(crate) fn of(headers: &sys::Headers) -> error::Result<Option<Self>> {
        if headers.coff.size_of_optional_header == 0 {
            return Ok(None);
        }
        let mut data_directories = DataDirectories::default();
        let entries = data_directories.data_directories.iter_mut().zip(headers.directories).enumerate();
        let start: usize = raw::narrow(headers.directories_offset)?;
        for (index, (entry, found)) in entries {
            let directory = DataDirectory { virtual_address: found.virtual_address, size: found.size };
            let at = start + index * data_directories::SIZEOF_DATA_DIRECTORY;
            *entry = data_directories::present(at, directory);
        }
        let it = &headers.optional;
        Ok(Some(OptionalHeader { standard_fields: it.into(), windows_fields: it.into(), data_directories }))
    }
}

conversion!(&sys::OptionalHeader => StandardFields {
    magic major_linker_version minor_linker_version size_of_code size_of_initialized_data size_of_uninitialized_data
    address_of_entry_point base_of_code base_of_data
});
conversion!(&sys::OptionalHeader => WindowsFields64 {
    image_base section_alignment file_alignment major_operating_system_version minor_operating_system_version
    major_image_version minor_image_version major_subsystem_version minor_subsystem_version win32_version_value
    size_of_image size_of_headers check_sum subsystem dll_characteristics size_of_stack_reserve size_of_stack_commit
    size_of_heap_reserve size_of_heap_commit loader_flags number_of_rva_and_sizes
});

impl<'a> ctx::TryFromCtx<'a, scroll::Endian> for OptionalHeader {
    type Error = error::Error;

    /// Reads a header that stands alone. Errors: `Scroll` where it is truncated, `BadMagic`, and those of
    /// [`DataDirectories::parse`].
    fn try_from_ctx(bytes: &'a [u8], _: scroll::Endian) -> error::Result<(Self, usize)> {
        let magic = raw::record::<u16>(bytes, 0)?;
        let (mut offset, (standard_fields, windows_fields)) = match magic {
            MAGIC_32 => (SIZEOF_STANDARD_FIELDS_32 + SIZEOF_WINDOWS_FIELDS_32, raw::fields_32(bytes, 0)?),
            MAGIC_64 => (SIZEOF_STANDARD_FIELDS_64 + SIZEOF_WINDOWS_FIELDS_64, raw::fields_64(bytes, 0)?),
            magic => return Err(error::Error::BadMagic(magic.into())),
        };
        let count = windows_fields.number_of_rva_and_sizes as usize;
        let data_directories = DataDirectories::parse(bytes, count, &mut offset)?;
        Ok((OptionalHeader { standard_fields, windows_fields, data_directories }, offset))
    }
}

impl ctx::TryIntoCtx<scroll::Endian> for OptionalHeader {
    type Error = error::Error;

    /// Writes the fields, and as many directories as they name, at most sixteen. Errors: `BadMagic`, `Malformed` where a field
    /// does not fit PE32, `Scroll` where the buffer is too short.
    fn try_into_ctx(self, bytes: &mut [u8], ctx: scroll::Endian) -> error::Result<usize> {
        let offset = &mut 0;
        match self.container()? {
            container::Container::Little => {
                bytes.gwrite_with(StandardFields32::from(self.standard_fields), offset, ctx)?;
                bytes.gwrite_with(WindowsFields32::try_from(self.windows_fields)?, offset, ctx)?;
            }
            container::Container::Big => {
                bytes.gwrite_with(StandardFields64::from(self.standard_fields), offset, ctx)?;
                bytes.gwrite_with(self.windows_fields, offset, ctx)?;
            }
        }
        for entry in self.data_directories.data_directories.iter().take(self.count()) {
            bytes.gwrite_with(entry.unwrap_or_default().1, offset, ctx)?;
        }
        Ok(*offset)
    }
}

impl OptionalHeader {
    /// Whether it can be written. Errors: `BadMagic`; `Malformed` where a field does not fit PE32.
    pub(crate) fn fits(&self) -> error::Result<()> {
        match self.container()? {
            container::Container::Little => WindowsFields32::try_from(self.windows_fields).map(drop),
            container::Container::Big => Ok(()),
        }
    }

    /// How many directories it has.
    fn count(&self) -> usize {
        (self.windows_fields.number_of_rva_and_sizes as usize).min(data_directories::NUM_DATA_DIRECTORIES)
    }

    /// Bytes of the whole header.
    pub(crate) fn written_len(&self) -> usize {
        let fields = match self.standard_fields.magic {
            MAGIC_32 => SIZEOF_STANDARD_FIELDS_32 + SIZEOF_WINDOWS_FIELDS_32,
            _ => SIZEOF_STANDARD_FIELDS_64 + SIZEOF_WINDOWS_FIELDS_64,
        };
        fields + self.count() * data_directories::SIZEOF_DATA_DIRECTORY
    }
}
