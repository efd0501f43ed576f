//! Names and texts of an image may hold anything: control characters that move the cursor, characters that turn the
//! direction of a line, bytes that are no text. `Escaped` shows all of these as escapes, so that a name can't forge a line.

use std::cell::Cell;
use std::fmt::{self, Write};
use std::io::{self, IsTerminal};

/// A text of an image, as it may be printed: control characters as `\x1b` or `\u{202e}`, bytes that are not UTF-8 as
/// `\xff`, a backslash as it is.
pub struct Escaped<'a>(pub &'a [u8]);

thread_local! {
    /// Whether texts stand as they are, where nobody looks at them: see `raw`.
    static IS_RAW: Cell<bool> = const { Cell::new(false) };
}

/// What is made here has texts as an image has them, and no escape but for bytes that are not UTF-8. A terminal is never given it.
pub fn raw<T>(make: impl FnOnce() -> T) -> T {
    IS_RAW.set(!io::stdout().is_terminal());
    let made = make();
    IS_RAW.set(false);
    made
}

/// Whether a character stands for itself: neither a control character nor one that changes how others are laid out.
fn is_plain(character: char) -> bool {
    !character.is_control()
        && !matches!(character,
            '\u{ad}' | '\u{61c}' | '\u{180e}' | '\u{200b}'..='\u{200f}' | '\u{2028}'..='\u{202e}'
            | '\u{2060}'..='\u{206f}' | '\u{feff}' | '\u{fff9}'..='\u{fffb}' | '\u{e0000}'..='\u{e007f}')
}

/// Writes a character, or its escape.
pub fn write_escaped(character: char, to: &mut impl Write) -> fmt::Result {
    match character {
        it if is_plain(it) => to.write_char(it),
        it if it.is_ascii() => write!(to, "\\x{:02x}", it as u32),
        it => write!(to, "\\u{{{:x}}}", it as u32),
    }
}

impl fmt::Display for Escaped<'_> {
    fn fmt(&self, f: &mut fmt::Formatter<'_>) -> fmt::Result {
        let is_raw = IS_RAW.get();
        for chunk in self.0.utf8_chunks() {
            if is_raw {
                f.write_str(chunk.valid())?;
            } else {
                chunk.valid().chars().try_for_each(|character| write_escaped(character, f))?;
            }
            for byte in chunk.invalid() {
                write!(f, "\\x{byte:02x}")?;
            }
        }
        Ok(())
    }
}

/// The same of a text.
pub fn escaped(text: &str) -> String {
    Escaped(text.as_bytes()).to_string()
}

#[cfg(test)]
mod tests {
    use super::*;

    #[test]
    fn what_moves_the_cursor_or_turns_a_line_is_escaped() {
        assert_eq!(Escaped(b"a\x1b[2J\nb\xff\\c").to_string(), "a\\x1b[2J\\x0ab\\xff\\c");
        assert_eq!(escaped("abc\u{202e}exe.\u{85}Zoë"), "abc\\u{202e}exe.\\u{85}Zoë");
    }
}
