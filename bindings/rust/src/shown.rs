//! How records are printed by `{:?}`: names as text, contents by how many bytes they have, lists by how many items. What is printed of
//! one record is bounded, whatever a file says: no record prints the file that it is of.

use crate::image::up_to_zero;
use crate::sys::{Section, SymbolEntry};
use alloc::string::String;
use core::fmt;

/// How many bytes of a name are printed at most. Each may be one that is escaped, as `\u{1}`.
const MOST: usize = 256;

/// Writes a text as `{:?}` of a str does, and how many bytes all of it has where it is cut.
fn write(f: &mut fmt::Formatter<'_>, text: &str, is_cut: bool, length: usize) -> fmt::Result {
    fmt::Debug::fmt(text, f)?;
    if is_cut {
        write!(f, ".. <{length} bytes>")?;
    }
    Ok(())
}

/// A name, as a text in quotes with U+FFFD for what is not UTF-8.
#[derive(Clone, Copy)]
pub(crate) struct Text<'a>(pub &'a [u8]);

impl fmt::Debug for Text<'_> {
    fn fmt(&self, f: &mut fmt::Formatter<'_>) -> fmt::Result {
        let Text(name) = *self;
        // A character is not cut: the first byte that is left out continues none.
        let is_between = |end: &usize| name.get(*end).is_none_or(|next| next & 0xC0 != 0x80);
        let end = (MOST - 3..=MOST).rev().find(is_between).unwrap_or(MOST).min(name.len());
        write(f, &String::from_utf8_lossy(&name[..end]), end < name.len(), name.len())
    }
}

/// The same of a name that is UTF-8.
pub(crate) fn name(name: &str) -> Text<'_> {
    Text(name.as_bytes())
}

/// A name that may be absent.
pub(crate) fn text(text: Option<&str>) -> Option<Text<'_>> {
    text.map(name)
}

/// A name in UTF-16, by its code units, as a text in quotes with U+FFFD for an unpaired surrogate.
pub(crate) struct Utf16<I>(pub I);

impl<I: Iterator<Item = u16> + Clone> fmt::Debug for Utf16<I> {
    fn fmt(&self, f: &mut fmt::Formatter<'_>) -> fmt::Result {
        let (most, count) = (MOST / 2, self.0.clone().count());
        // A pair of surrogates is not cut: where more follows, the last unit that is printed starts none.
        let ends_in_pair = count > most && self.0.clone().nth(most - 1).is_some_and(|unit| unit & 0xFC00 == 0xD800);
        let units = self.0.clone().take(most - usize::from(ends_in_pair));
        let text: String = char::decode_utf16(units).map(|it| it.unwrap_or(char::REPLACEMENT_CHARACTER)).collect();
        write(f, &text, count > most, 2 * count)
    }
}

/// A name that zeros pad.
pub(crate) struct Padded(pub [u8; 8]);

impl fmt::Debug for Padded {
    fn fmt(&self, f: &mut fmt::Formatter<'_>) -> fmt::Result {
        Text(up_to_zero(&self.0)).fmt(f)
    }
}

/// Sections, by the names of the first ones.
pub(crate) struct Sections<'s>(pub &'s [Section]);

impl fmt::Debug for Sections<'_> {
    fn fmt(&self, f: &mut fmt::Formatter<'_>) -> fmt::Result {
        let (first, others) = self.0.split_at(self.0.len().min(16));
        let mut list = f.debug_list();
        list.entries(first.iter().map(|it| Padded(it.name)));
        if !others.is_empty() {
            list.entry(&format_args!("<{} others>", others.len()));
        }
        list.finish()
    }
}

/// Contents, by their length.
pub(crate) struct Bytes<'a>(pub &'a [u8]);

impl fmt::Debug for Bytes<'_> {
    fn fmt(&self, f: &mut fmt::Formatter<'_>) -> fmt::Result {
        write!(f, "<{} bytes>", self.0.len())
    }
}

/// Contents that may be absent.
pub(crate) fn bytes(content: Option<&[u8]>) -> Option<Bytes<'_>> {
    content.map(Bytes)
}

/// A list, by its length.
pub(crate) struct Items(pub usize);

impl fmt::Debug for Items {
    fn fmt(&self, f: &mut fmt::Formatter<'_>) -> fmt::Result {
        write!(f, "<{} items>", self.0)
    }
}

/// What `Display` writes, which a file may make long: its start.
pub(crate) struct Written<T>(pub T);

impl<T: fmt::Display> fmt::Debug for Written<T> {
    fn fmt(&self, f: &mut fmt::Formatter<'_>) -> fmt::Result {
        struct Start(String);
        impl fmt::Write for Start {
            fn write_str(&mut self, part: &str) -> fmt::Result {
                let room = MOST - self.0.len();
                let end = (0..=room.min(part.len())).rev().find(|i| part.is_char_boundary(*i)).unwrap_or(0);
                self.0.push_str(&part[..end]);
                // An error ends what is written.
                if end < part.len() {
                    Err(fmt::Error)
                } else {
                    Ok(())
                }
            }
        }
        let mut start = Start(String::new());
        let is_cut = fmt::Write::write_fmt(&mut start, format_args!("{}", self.0)).is_err();
        fmt::Debug::fmt(&start.0, f)?;
        f.write_str(if is_cut { ".." } else { "" })
    }
}

/// Implements `Debug` of records by their fields, each as it is or by one of the above; `; ..` says that others are left out:
///
/// ```text
/// shown! { Library<'_, '_> { name: shown::Text, raw; .. } }
/// ```
macro_rules! shown {
    (@field $it:expr) => { &$it };
    (@field $it:expr, $how:expr) => { &$how($it) };
    (@end $it:expr) => { $it.finish() };
    (@end $it:expr, $dots:tt) => { $it.finish_non_exhaustive() };
    ($($name:ident<$($life:lifetime),*> { $($field:ident $(: $how:expr)?),* $(; $dots:tt)? })*) => {
        $(impl core::fmt::Debug for $name<$($life),*> {
            fn fmt(&self, f: &mut core::fmt::Formatter<'_>) -> core::fmt::Result {
                let mut shown = f.debug_struct(stringify!($name));
                $(shown.field(stringify!($field), $crate::shown::shown!(@field self.$field $(, $how)?));)*
                $crate::shown::shown!(@end shown $(, $dots)?)
            }
        })*
    };
}

pub(crate) use shown;

// Records of sys that have a name: tools/make_sys writes the others with the Debug that is derived.
shown! {
    Section<> {
        name: Padded, virtual_size, virtual_address, size_of_raw_data, pointer_to_raw_data, pointer_to_relocations,
        pointer_to_linenumbers, number_of_relocations, number_of_linenumbers, characteristics
    }
    SymbolEntry<> {
        auxiliary, index, name: Padded, value, string_offset, section_number, kind, storage_class, number_of_aux_symbols
    }
}
