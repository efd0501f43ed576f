//! The text of a page: headings, rows and tables, with colours where standard output is a terminal.

use crate::system::{columns_of_terminal, has_colours};
use crate::tables::Table;
use std::fmt::{self, Display, Write};
use std::io::{self, IsTerminal};

/// Whether text has colours, and how wide its lines may be.
#[derive(Clone, Copy, Debug)]
pub struct Style {
    has_colours: bool,
    width: usize,
}

impl Style {
    /// Colours on a terminal, unless the variable `NO_COLOR` has a value (<https://no-color.org>) or `TERM` is `dumb`. Lines are
    /// as wide as the variable `COLUMNS` says, or as the terminal; elsewhere they end where they end.
    pub fn of_stdout() -> Style {
        let is_refused = std::env::var_os("NO_COLOR").is_some_and(|it| !it.is_empty())
            || std::env::var_os("TERM").is_some_and(|it| it == "dumb");
        let is_terminal = io::stdout().is_terminal();
        let named = std::env::var("COLUMNS").ok().and_then(|it| it.parse().ok()).filter(|it| *it > 0);
        let width = named.or_else(|| if is_terminal { columns_of_terminal() } else { None });
        Style { has_colours: is_terminal && !is_refused && has_colours(), width: width.unwrap_or(usize::MAX) }
    }

    /// The same for lines that end where they end: what is in them is there to be copied.
    pub fn whole(self) -> Style {
        Style { width: usize::MAX, ..self }
    }

    /// A text whose lines fit: a longer one goes on in the column of the cell that does not fit, or is too narrow a column.
    pub fn fitted(self, text: String) -> String {
        if self.width == usize::MAX {
            return text;
        }
        let mut lines = String::with_capacity(text.len());
        for line in text.lines() {
            fold(line, self.width.max(NARROWEST), &mut lines);
            lines.push('\n');
        }
        lines
    }

    fn between(self, code: &str, text: &str) -> String {
        if self.has_colours {
            format!("\x1b[{code}m{text}\x1b[0m")
        } else {
            text.to_string()
        }
    }
}

/// The width of the first column of a summary.
const LABEL: usize = 14;

/// How many characters a column has at most. A longer cell moves what follows in its row: padding would make all rows as long as
/// the longest, and a hostile image may have many rows and a name of a million characters.
const WIDEST: usize = 256;

/// Lines are no narrower than this, whatever `COLUMNS` says.
const NARROWEST: usize = 20;

/// With less room than this at the end of a line, a cell goes on in the next one, so far from its start.
const ROOM: usize = 16;
const INDENT: usize = 4;

/// A page of text as it is written.
pub struct Page {
    style: Style,
    text: String,
    /// Whether some of it was put out.
    is_begun: bool,
}

impl Page {
    pub fn new(style: Style) -> Page {
        Page { style, text: String::new(), is_begun: false }
    }

    pub fn into_text(self) -> String {
        self.style.fitted(self.text)
    }

    /// Puts out what there is: lines that are whole.
    pub fn put(&mut self, out: &mut dyn io::Write) -> io::Result<()> {
        let text = std::mem::take(&mut self.text);
        self.is_begun |= !text.is_empty();
        out.write_all(self.style.fitted(text).as_bytes())
    }

    /// The first line of an image or of a part.
    pub fn heading(&mut self, text: &str) {
        if self.is_begun || !self.text.is_empty() {
            self.text.push('\n');
        }
        self.text.push_str(&self.style.between("1", text));
        self.text.push('\n');
    }

    /// How many characters a line of a summary has beside its label.
    pub fn room(&self) -> usize {
        self.style.width.saturating_sub(LABEL + 2)
    }

    /// A line of a summary: what it is about, and what it says. A longer text goes on in lines below it.
    pub fn row(&mut self, label: &str, value: impl Display) {
        let value = value.to_string();
        if self.room() < ROOM {
            return self.narrow_row("36", label, &value);
        }
        let label = self.style.between("36", &format!("{label:LABEL$}"));
        for (index, line) in wrapped(&value, self.room()).iter().enumerate() {
            if index == 0 {
                self.line(format_args!("  {label}{line}"));
            } else {
                self.line(format_args!("  {:LABEL$}{line}", ""));
            }
        }
    }

    /// The same where a word has no room beside the label: what it says stands below that.
    fn narrow_row(&mut self, colour: &str, label: &str, value: &str) {
        if !label.is_empty() {
            let label = self.style.between(colour, label);
            self.line(format_args!("  {label}"));
        }
        for line in wrapped(value, self.style.width.max(NARROWEST) - INDENT) {
            self.line(format_args!("{:INDENT$}{line}", ""));
        }
    }

    /// A line that warns.
    pub fn warning(&mut self, text: impl Display) {
        let text = text.to_string();
        if self.room() < ROOM {
            return self.narrow_row("33", "warning", &text);
        }
        for (index, line) in wrapped(&text, self.room()).iter().enumerate() {
            let label = if index == 0 { "warning" } else { "" };
            let line = self.style.between("33", &format!("{label:LABEL$}{line}"));
            self.line(format_args!("  {line}"));
        }
    }

    /// A line, without spaces at its end.
    pub fn line(&mut self, text: fmt::Arguments<'_>) {
        // Writing to a string does not fail.
        let _ = write!(self.text, "{text}");
        self.text.truncate(self.text.trim_end_matches(' ').len());
        self.text.push('\n');
    }

    /// Rows of cells in columns as wide as the widest cell, up to `WIDEST` and half of a line; the last column is as wide as its
    /// text.
    pub fn table(&mut self, table: &Table) {
        let head = |column: usize| table.columns[column].head;
        let width = |column: usize| {
            let cells = table.rows.iter().map(|row| row[column].chars().count());
            cells.chain([head(column).chars().count()]).max().unwrap_or(0).min(WIDEST).min(self.style.width / 2)
        };
        let widths: Vec<usize> = (0..table.columns.len()).map(width).collect();
        let lay = |cells: &mut dyn Iterator<Item = &str>| {
            let mut line = String::new();
            for (cell, width) in cells.zip(&widths) {
                let _ = write!(line, "  {cell:width$}");
            }
            line.trim_end().to_string()
        };
        let head = self.style.between("36", &lay(&mut (0..table.columns.len()).map(head)));
        self.line(format_args!("{head}"));
        for row in &table.rows {
            let line = lay(&mut row.iter().map(String::as_str));
            self.line(format_args!("{line}"));
        }
    }
}

/// Lines of a text, of at most so many characters each, unless a word is longer. They end at spaces.
fn wrapped(text: &str, width: usize) -> Vec<String> {
    let mut lines = vec![String::new()];
    let mut length = 0;
    for word in text.split_inclusive(' ') {
        let own = word.trim_end().chars().count();
        if length > 0 && length + own > width {
            lines.push(String::new());
            length = 0;
        }
        if let Some(line) = lines.last_mut() {
            line.push_str(word);
        }
        length += word.chars().count();
    }
    lines
}

/// How many columns of a terminal a character takes: those of East Asia and pictures take two.
fn columns_of(letter: char) -> usize {
    let is_wide = matches!(letter as u32, 0x1100..=0x115F | 0x2E80..=0xA4CF | 0xAC00..=0xD7A3 | 0xF900..=0xFAFF | 0xFE30..=0xFE6F
        | 0xFF00..=0xFF60 | 0xFFE0..=0xFFE6 | 0x1F300..=0x1FAFF | 0x20000..=0x3FFFD);
    1 + usize::from(is_wide)
}

/// Writes a line as lines of at most so many columns, which go on below the cell that they break. Cells are two spaces apart. A
/// cell ends at a space where it has one, and else where the line is full.
fn fold(line: &str, width: usize, to: &mut String) {
    let (mut start, mut indent) = (0, 0);
    while let Some((end, next)) = end_of(&line[start..], indent, width) {
        to.push_str(line[start..start + end].trim_end_matches(' '));
        to.push('\n');
        to.extend(std::iter::repeat_n(' ', next));
        (start, indent) = (start + end, next);
    }
    to.push_str(&line[start..]);
}

/// Where a line has to end that starts in a column, in bytes, and in which column the next one starts. None where it fits.
fn end_of(line: &str, indent: usize, width: usize) -> Option<(usize, usize)> {
    let (mut column, mut spaces, mut is_in_colour) = (indent, 2, false);
    let (mut first, mut cell, mut word) = (None, (0, indent), None);
    for (at, letter) in line.char_indices() {
        if is_in_colour || letter == '\x1b' {
            is_in_colour = letter != 'm';
            continue;
        }
        if letter == ' ' {
            (column, spaces) = (column + 1, spaces + 1);
            continue;
        }
        match spaces {
            0 => (),
            1 => word = Some(at),
            _ => (cell, word) = ((at, column), None),
        }
        let first = *first.get_or_insert(cell.0);
        spaces = 0;
        if column + columns_of(letter) > width && at > 0 {
            let has_room = cell.1 + ROOM <= width;
            // A cell that starts the line is broken all the same, since the next line has no more room.
            return Some(match has_room || cell.0 == first {
                true => (word.unwrap_or(at), cell.1.min(width - ROOM)),
                false => (cell.0, INDENT),
            });
        }
        column += columns_of(letter);
    }
    None
}

#[cfg(test)]
mod tests {
    use super::*;

    fn folded(line: &str, width: usize) -> String {
        let mut text = String::new();
        fold(line, width, &mut text);
        text
    }

    #[test]
    fn lines_go_on_below_the_cell_that_is_broken() {
        assert_eq!(folded("  a   bb", 8), "  a   bb");
        // A text ends at a space, a hash where the line is full.
        assert_eq!(folded("  one two three four five six", 20), "  one two three four\n  five six");
        assert_eq!(
            folded("  hash  0123456789abcdef0123456789abcdef", 26),
            "  hash  0123456789abcdef01\n        23456789abcdef"
        );
        // A cell without room stands by itself.
        assert_eq!(folded("  a name of twenty  0123456789abcdef", 24), "  a name of twenty\n    0123456789abcdef");
        // Colours take no room, and wide letters take two columns.
        assert_eq!(folded("\x1b[36m0123456789\x1b[0m0123456789", 20), "\x1b[36m0123456789\x1b[0m0123456789");
        assert_eq!(folded(&"\u{4e00}".repeat(11), 20), format!("{}\n\u{4e00}", "\u{4e00}".repeat(10)));
    }

    #[test]
    fn lines_end_at_spaces() {
        assert_eq!(wrapped("one two three", 7), ["one two ", "three"]);
        assert_eq!(wrapped("one two three", 13), ["one two three"]);
        assert_eq!(wrapped("abcdefgh i", 4), ["abcdefgh ", "i"]);
        assert_eq!(wrapped("", 4), [""]);
        assert_eq!(wrapped("é é", 1), ["é ", "é"]);
    }
}
