//! Names in an image. They are bytes, mostly of UTF-8.

use super::hex_of;
use serde::{Serialize, Serializer};
use std::borrow::Cow;
use std::fmt;

/// A name in an image. In JSON its text: a field whose bytes may be no UTF-8 is written by a function of `text`.
#[derive(Clone, Copy, Debug, PartialEq, Eq)]
pub struct Name<'a>(pub &'a [u8]);

impl fmt::Display for Name<'_> {
    fn fmt(&self, f: &mut fmt::Formatter<'_>) -> fmt::Result {
        f.pad(&crate::escape::Escaped(self.0).to_string())
    }
}

impl<'a> Name<'a> {
    /// A name that is UTF-8.
    pub fn of(text: &'a str) -> Self {
        Name(text.as_bytes())
    }

    /// In lower case, as the names of DLLs are compared. Null where it is not UTF-8.
    pub fn lower(&self) -> Option<String> {
        std::str::from_utf8(self.0).ok().map(str::to_lowercase)
    }

    /// Its text, with U+FFFD for what is not UTF-8.
    fn text(&self) -> Cow<'a, str> {
        String::from_utf8_lossy(self.0)
    }

    /// Its bytes, where the text does not say them.
    fn hex(&self) -> Option<String> {
        std::str::from_utf8(self.0).is_err().then(|| hex_of(self.0))
    }
}

impl Serialize for Name<'_> {
    fn serialize<S: Serializer>(&self, serializer: S) -> Result<S::Ok, S::Error> {
        self.text().serialize(serializer)
    }
}

/// What a field may be that has a name, or may have one.
pub trait Named {
    fn name(&self) -> Option<Name<'_>>;
}

impl Named for Name<'_> {
    fn name(&self) -> Option<Name<'_>> {
        Some(*self)
    }
}

impl Named for Option<Name<'_>> {
    fn name(&self) -> Option<Name<'_>> {
        *self
    }
}

/// By the name of a field what writes it, and beside it its bytes where they are not UTF-8: for `serde(flatten, serialize_with)`.
pub mod text {
    use super::Named;
    use serde::ser::{SerializeMap, Serializer};

    macro_rules! written {
        ($($field:ident)+) => {$(
            pub fn $field<S: Serializer>(field: &impl Named, serializer: S) -> Result<S::Ok, S::Error> {
                let (name, mut map) = (field.name(), serializer.serialize_map(None)?);
                map.serialize_entry(stringify!($field), &name)?;
                if let Some(hex) = name.and_then(|it| it.hex()) {
                    map.serialize_entry(concat!(stringify!($field), "_hex"), &hex)?;
                }
                map.end()
            }
        )+};
    }
    written!(algorithm culture name section version);
}
