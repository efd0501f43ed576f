//! Data directories: where the parts of an image are. Each is an RVA and a size in bytes, at an index that says which part
//! it is. <https://learn.microsoft.com/windows/win32/debug/pe-format#optional-header-data-directories-image-only>

use crate::error;
use crate::raw;
use scroll::{ctx, Pread, Pwrite, SizeWith};

/// Where a part of the image is.
#[repr(C)]
#[derive(Debug, PartialEq, Copy, Clone, Default, Pread, Pwrite, SizeWith)]
pub struct DataDirectory {
    /// RVA of the part; of the certificate table its file offset.
    pub virtual_address: u32,
    /// In bytes.
    pub size: u32,
}

/// Bytes of a [`DataDirectory`].
pub const SIZEOF_DATA_DIRECTORY: usize = 8;
/// How many data directories an image may have.
pub(crate) const NUM_DATA_DIRECTORIES: usize = 16;

impl DataDirectory {
    /// Reads the directory at an offset, and moves the offset. Error: `Scroll` where it is truncated.
    pub fn parse(bytes: &[u8], offset: &mut usize) -> error::Result<Self> {
        let found = raw::data_directory(bytes, *offset)?;
        *offset += SIZEOF_DATA_DIRECTORY;
        Ok(found)
    }
}

/// The data directories of an image by their indices.
#[derive(Debug, PartialEq, Copy, Clone, Default)]
pub struct DataDirectories {
    /// Of each directory that is there the offset of its entry and the directory. One whose fields are both 0 is absent.
    pub data_directories: [Option<(usize, DataDirectory)>; NUM_DATA_DIRECTORIES],
}

macro_rules! getters {
    ($($name:ident = $index:literal),* $(,)?) => { $(
        #[doc = concat!("The directory with the index ", $index, ".")]
        pub fn $name(&self) -> Option<&DataDirectory> {
            self.data_directories[$index].as_ref().map(|(_, it)| it)
        }
    )* };
}

impl DataDirectories {
    /// Reads so many directories at an offset, and moves the offset. Errors: `Malformed` for more than sixteen, `Scroll` where
    /// they are truncated.
    pub fn parse(bytes: &[u8], count: usize, offset: &mut usize) -> error::Result<Self> {
        if count > NUM_DATA_DIRECTORIES {
            return Err(error::Error::Malformed(format!(
                "data directory count ({count}) is greater than maximum number of data directories \
                 ({NUM_DATA_DIRECTORIES})"
            )));
        }
        let mut found = DataDirectories::default();
        for entry in found.data_directories.iter_mut().take(count) {
            let at = *offset;
            *entry = present(at, DataDirectory::parse(bytes, offset)?);
        }
        Ok(found)
    }

    /// Those that are there, in the order of their indices.
    pub fn dirs(&self) -> impl Iterator<Item = DataDirectory> + '_ {
        self.data_directories.iter().flatten().map(|(_, it)| *it)
    }

    getters! {
        get_export_table = 0,
        get_import_table = 1,
        get_resource_table = 2,
        get_exception_table = 3,
        get_certificate_table = 4,
        get_base_relocation_table = 5,
        get_debug_table = 6,
        get_architecture = 7,
        get_global_ptr = 8,
        get_tls_table = 9,
        get_load_config_table = 10,
        get_bound_import_table = 11,
        get_import_address_table = 12,
        get_delay_import_descriptor = 13,
        get_clr_runtime_header = 14,
    }
}

/// The entry of a directory, unless that is absent.
pub(crate) fn present(at: usize, directory: DataDirectory) -> Option<(usize, DataDirectory)> {
    (directory != DataDirectory::default()).then_some((at, directory))
}

impl ctx::TryIntoCtx<scroll::Endian> for DataDirectories {
    type Error = error::Error;

    /// Writes sixteen directories, absent ones as zeros.
    fn try_into_ctx(self, bytes: &mut [u8], ctx: scroll::Endian) -> error::Result<usize> {
        let offset = &mut 0;
        for entry in self.data_directories {
            bytes.gwrite_with(entry.unwrap_or_default().1, offset, ctx)?;
        }
        Ok(*offset)
    }
}
