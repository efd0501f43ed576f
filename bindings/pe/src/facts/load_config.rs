//! The load configuration: what guards an image against attacks, by the fields of its structure, and by the lists of
//! code that it leads to.

use super::guards::{self, Guards};
use super::{field, Flags, Part, Stamp};
use crate::names::{GUARD_FLAGS, LOAD_CONFIG_FIELDS};
use pe_c::{DirectoryIndex, Image, LoadConfigField};
use serde::{Serialize, Serializer};

/// A field is null where the structure, or the file, is too short for it.
#[derive(Clone, Debug, Serialize)]
pub struct LoadConfig {
    /// Of the structure in bytes, as it says itself.
    pub size: u32,
    pub time_date_stamp: Option<u32>,
    /// The same, as RFC 3339 has it.
    pub time: Option<String>,
    pub major_version: Option<u16>,
    pub minor_version: Option<u16>,
    /// Flags of `LoadLibraryEx` for the DLLs that the image imports.
    pub dependent_load_flags: Option<u16>,
    pub security_cookie_va: Option<u64>,
    /// The table of exception handlers, on x86.
    pub se_handler_table_va: Option<u64>,
    pub se_handler_count: Option<u64>,
    pub guard_cf_check_function_pointer_va: Option<u64>,
    pub guard_cf_dispatch_function_pointer_va: Option<u64>,
    /// The table of the functions that may be called indirectly.
    pub guard_cf_function_table_va: Option<u64>,
    pub guard_cf_function_count: Option<u64>,
    /// `IMAGE_GUARD_`
    pub guard_flags: Option<Flags>,
    /// Those that are none of the above.
    pub fields: Fields,
    #[serde(flatten)]
    pub guards: Guards,
}

field!(LoadConfig, "load_config");

impl LoadConfig {
    /// What is said of an image that has code for ARM64 beside that for its machine (ARM64EC, ARM64X, CHPE), with tables of its own.
    pub fn said_of_hybrid(&self) -> &'static str {
        let is_hybrid = self.fields.0.iter().any(|it| it.0 == "CHPEMetadataPointer" && it.1.is_some_and(|it| it != 0));
        if is_hybrid {
            ", hybrid: what is for ARM64 alone is not read"
        } else {
            ""
        }
    }
}

/// Fields by their names in winnt.h, in its order.
#[derive(Clone, Debug)]
pub struct Fields(pub Vec<(&'static str, Option<u64>)>);

impl Serialize for Fields {
    fn serialize<S: Serializer>(&self, serializer: S) -> Result<S::Ok, S::Error> {
        serializer.collect_map(self.0.iter().copied())
    }
}

/// A field has no error of its own: they are those of the structure.
fn fields(image: &Image<'_>) -> Fields {
    let value = |field| image.load_config_field(field).ok().flatten();
    Fields(LOAD_CONFIG_FIELDS.into_iter().zip(LoadConfigField::ALL.into_iter().map(value)).collect())
}

pub fn of(image: &Image<'_>) -> Part<LoadConfig> {
    let found = image.load_config().map(|found| {
        found.map(|config| LoadConfig {
            size: config.size,
            time_date_stamp: config.time_date_stamp,
            time: config.time_date_stamp.and_then(|it| Stamp::of(it).time()),
            major_version: config.major_version,
            minor_version: config.minor_version,
            dependent_load_flags: config.dependent_load_flags,
            security_cookie_va: config.security_cookie,
            se_handler_table_va: config.se_handler_table,
            se_handler_count: config.se_handler_count,
            guard_cf_check_function_pointer_va: config.guard_cf_check_function_pointer,
            guard_cf_dispatch_function_pointer_va: config.guard_cf_dispatch_function_pointer,
            guard_cf_function_table_va: config.guard_cf_function_table,
            guard_cf_function_count: config.guard_cf_function_count,
            guard_flags: config.guard_flags.map(|flags| Flags::of(flags, GUARD_FLAGS)),
            fields: fields(image),
            guards: guards::of(image),
        })
    });
    Part::of_directory(found, image, DirectoryIndex::LoadConfig)
}

#[cfg(test)]
mod tests {
    use super::*;

    #[test]
    fn the_names_of_fields_are_theirs() {
        for (name, field) in LOAD_CONFIG_FIELDS.into_iter().zip(LoadConfigField::ALL) {
            assert!(format!("{field:?}").eq_ignore_ascii_case(&name.replace('.', "")), "{name}, {field:?}");
        }
        assert!(LoadConfigField::ALL.iter().enumerate().all(|(index, it)| index == *it as usize));
    }
}
