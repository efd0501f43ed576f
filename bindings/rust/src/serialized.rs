//! How records are serialized, by the feature `serde`: names as texts, with U+FFFD for what is not UTF-8, contents in hexadecimal,
//! GUIDs with hyphens, errors by their texts. Fields have the names of the records.

use crate::image::up_to_zero;
use crate::{Error, Guid, ResourceName, Text};
use alloc::string::String;
use core::fmt;
use serde::{Serialize, Serializer};

/// A name that zeros may pad.
pub(crate) fn name<S: Serializer>(name: &impl AsRef<[u8]>, serializer: S) -> Result<S::Ok, S::Error> {
    String::from_utf8_lossy(up_to_zero(name.as_ref())).serialize(serializer)
}

/// Contents as text, two digits a byte.
struct Hex<'a>(&'a [u8]);

impl fmt::Display for Hex<'_> {
    fn fmt(&self, f: &mut fmt::Formatter<'_>) -> fmt::Result {
        self.0.iter().try_for_each(|byte| write!(f, "{byte:02x}"))
    }
}

/// Contents.
pub(crate) fn hex<S: Serializer>(content: &impl AsRef<[u8]>, serializer: S) -> Result<S::Ok, S::Error> {
    serializer.collect_str(&Hex(content.as_ref()))
}

/// Contents that may be absent.
pub(crate) fn hex_or_none<S: Serializer>(content: &Option<&[u8]>, serializer: S) -> Result<S::Ok, S::Error> {
    content.map(|it| alloc::format!("{}", Hex(it))).serialize(serializer)
}

impl Serialize for Guid {
    fn serialize<S: Serializer>(&self, serializer: S) -> Result<S::Ok, S::Error> {
        struct Hyphens<'a>(&'a Guid);
        impl fmt::Display for Hyphens<'_> {
            fn fmt(&self, f: &mut fmt::Formatter<'_>) -> fmt::Result {
                self.0.write(f, Guid::HYPHENS)
            }
        }
        serializer.collect_str(&Hyphens(self))
    }
}

impl Serialize for Error {
    fn serialize<S: Serializer>(&self, serializer: S) -> Result<S::Ok, S::Error> {
        serializer.collect_str(self)
    }
}

impl Serialize for Text<'_> {
    fn serialize<S: Serializer>(&self, serializer: S) -> Result<S::Ok, S::Error> {
        serializer.collect_str(self)
    }
}

impl Serialize for ResourceName<'_> {
    fn serialize<S: Serializer>(&self, serializer: S) -> Result<S::Ok, S::Error> {
        match self {
            ResourceName::Id(id) => id.serialize(serializer),
            ResourceName::Name(name) => name.serialize(serializer),
        }
    }
}
