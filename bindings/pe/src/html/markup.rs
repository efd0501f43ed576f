//! A page of HTML as it is written. Markup is this program's own, so it is `&'static str`; all else goes through `text`,
//! which escapes it. So no text of an image can be markup.

use crate::escape::write_escaped;
use std::fmt::{self, Display, Write as _};
use std::io::{self, Write};

/// The page goes out as it is made: only one text at a time is in memory.
pub struct Html<'a> {
    /// None where the parts alone are asked for.
    out: Option<&'a mut dyn Write>,
    /// The first error of a write. Nothing is written after it.
    written: io::Result<()>,
    /// The text that is written last, escaped.
    escaped: String,
    /// The parts that are on the page, each with its id and its title.
    parts: Vec<(&'static str, &'static str)>,
}

/// Escapes what HTML takes for markup, in elements and in quoted attributes, and what `escape` does.
struct Escaping<'a>(&'a mut String);

impl fmt::Write for Escaping<'_> {
    fn write_str(&mut self, text: &str) -> fmt::Result {
        for character in text.chars() {
            match character {
                '&' => self.0.push_str("&amp;"),
                '<' => self.0.push_str("&lt;"),
                '>' => self.0.push_str("&gt;"),
                '"' => self.0.push_str("&quot;"),
                '\'' => self.0.push_str("&#39;"),
                it => write_escaped(it, self.0)?,
            }
        }
        Ok(())
    }
}

impl<'a> Html<'a> {
    /// A page that goes to `out`.
    pub fn to(out: &'a mut dyn Write) -> Html<'a> {
        Html { out: Some(out), ..Html::unwritten() }
    }

    /// A page that is not written: it has `parts` alone.
    pub fn unwritten() -> Html<'a> {
        Html { out: None, written: Ok(()), escaped: String::new(), parts: Vec::new() }
    }

    /// Whether all of it was written.
    pub fn finish(self) -> io::Result<()> {
        self.written
    }

    /// Notes that a part is on the page.
    pub fn has_part(&mut self, id: &'static str, title: &'static str) {
        self.parts.push((id, title));
    }

    pub fn parts(&self) -> &[(&'static str, &'static str)] {
        &self.parts
    }

    /// Writes markup.
    pub fn markup(&mut self, markup: &'static str) -> &mut Html<'a> {
        put(&mut self.out, &mut self.written, markup);
        self
    }

    /// Writes text, escaped.
    pub fn text(&mut self, text: impl Display) -> &mut Html<'a> {
        if self.out.is_some() {
            self.escaped.clear();
            // Writing to a string does not fail.
            let _ = write!(Escaping(&mut self.escaped), "{text}");
            put(&mut self.out, &mut self.written, &self.escaped);
        }
        self
    }
}

fn put(out: &mut Option<&mut dyn Write>, written: &mut io::Result<()>, text: &str) {
    if let (Some(out), Ok(())) = (out, &*written) {
        *written = out.write_all(text.as_bytes());
    }
}

#[cfg(test)]
mod tests {
    use super::*;

    #[test]
    fn text_is_no_markup() {
        let mut out = Vec::new();
        let mut html = Html::to(&mut out);
        html.markup("<b>").text("<i a='\"&'>\u{202e}\x1b\n é").markup("</b>");
        html.finish().unwrap();
        let text = "<b>&lt;i a=&#39;&quot;&amp;&#39;&gt;\\u{202e}\\x1b\\x0a é</b>";
        assert_eq!(String::from_utf8(out).unwrap(), text);
    }

    #[test]
    fn the_first_error_stays() {
        let mut room = [0; 4];
        let mut out = &mut room[..];
        let mut html = Html::to(&mut out);
        html.markup("<b>").text("bold").markup("</b>");
        assert_eq!(html.finish().unwrap_err().kind(), io::ErrorKind::WriteZero);
        assert_eq!(&room, b"<b>b");
    }
}
