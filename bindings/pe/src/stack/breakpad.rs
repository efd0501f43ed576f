//! Symbol files of [Breakpad](https://chromium.googlesource.com/breakpad/breakpad/+/master/docs/symbol_files.md), as `dump_syms` of
//! Breakpad and of Mozilla, and `pe symbols`, write them: lines of text. Functions, their lines, the functions that are inlined there and
//! public symbols are read; how frames are unwound is not. A line that is none of these refuses the file.

use std::collections::BTreeMap;
use std::fmt;

/// How a file starts.
const START: &[u8] = b"MODULE ";
/// How many bytes a file has at most that is read: of one byte of text as many as six may be kept.
pub const MOST: u64 = 512 << 20;
/// How many functions are inlined in one another at most.
const MOST_INLINED: usize = 64;
/// Lines that say nothing of functions.
const OTHERS: [&str; 2] = ["INFO", "STACK"];

/// Why a symbol file is refused.
#[derive(Clone, Copy, Debug, PartialEq, Eq)]
pub enum Why {
    /// It is no UTF-8.
    Text,
    /// The first line has not four parts and a name.
    Module,
    /// A line has fewer parts than its kind has, or others.
    Parts,
    /// A number is none, or has more than 32 bits.
    Number,
    /// A line or an inlined function before the first function.
    NoFunction,
}

/// A refusal, with the number of its line, from 1 on.
#[derive(Clone, Copy, Debug, PartialEq, Eq)]
pub struct Refused {
    pub line: usize,
    pub why: Why,
}

impl fmt::Display for Refused {
    fn fmt(&self, f: &mut fmt::Formatter<'_>) -> fmt::Result {
        let why = match self.why {
            Why::Text => "it is not UTF-8",
            Why::Module => "the line MODULE has not four parts and a name",
            Why::Parts => "a line has not the parts of its kind",
            Why::Number => "invalid number",
            Why::NoFunction => "a line of no function",
        };
        write!(f, "line {}: {why}", self.line)
    }
}

/// A function, with where its lines and those that are inlined in it are.
#[derive(Debug)]
struct Function<'b> {
    start: u32,
    end: u32,
    name: &'b str,
    lines: std::ops::Range<usize>,
    inlined: std::ops::Range<usize>,
}

#[derive(Clone, Copy, Debug)]
struct Row {
    start: u32,
    end: u32,
    line: u32,
    file: u32,
}

/// An inlined function: the line of its call, and which function it is.
#[derive(Clone, Copy, Debug)]
struct Inlined {
    level: u32,
    start: u32,
    end: u32,
    line: u32,
    file: u32,
    origin: u32,
}

/// A function at an address, and the line of the code in it.
#[derive(Clone, Debug, PartialEq, Eq)]
pub struct Named<'b> {
    pub name: &'b str,
    pub start: u32,
    pub file: Option<&'b str>,
    pub line: Option<u32>,
    pub is_public: bool,
}

/// A symbol file.
#[derive(Debug, Default)]
pub struct SymbolFile<'b> {
    files: BTreeMap<u32, &'b str>,
    origins: BTreeMap<u32, &'b str>,
    functions: Vec<Function<'b>>,
    rows: Vec<Row>,
    inlined: Vec<Inlined>,
    publics: Vec<(u32, &'b str)>,
}

/// Whether bytes start as a symbol file does.
pub fn is_symbol_file(bytes: &[u8]) -> bool {
    bytes.starts_with(START)
}

/// The key of the PDB of the module that a file is of.
pub fn key_of(bytes: &[u8]) -> Result<&str, Refused> {
    let end = bytes.iter().position(|it| *it == b'\n').unwrap_or(bytes.len());
    let line = std::str::from_utf8(&bytes[..end]).map_err(|_| Refused { line: 1, why: Why::Text })?;
    let mut parts = line.trim_end_matches('\r').splitn(5, ' ');
    let key = parts.nth(3).filter(|it| it.len() > 32 && it.bytes().all(|it| it.is_ascii_hexdigit()));
    key.filter(|_| parts.next().is_some()).ok_or(Refused { line: 1, why: Why::Module })
}

/// The name of the symbol file of a PDB: in place of `.pdb` it has `.sym`.
pub fn name_of(pdb: &str) -> String {
    let stem =
        pdb.len().checked_sub(4).filter(|&it| pdb.is_char_boundary(it) && pdb[it..].eq_ignore_ascii_case(".pdb"));
    format!("{}.sym", &pdb[..stem.unwrap_or(pdb.len())])
}

fn number(text: &str, radix: u32) -> Result<u32, Why> {
    let is_plain = text.bytes().all(|it| it.is_ascii_alphanumeric());
    u32::from_str_radix(text, radix).ok().filter(|_| is_plain).ok_or(Why::Number)
}

/// So many parts of a line, and what is left of it.
fn parts<const N: usize>(text: &str) -> Result<([&str; N], &str), Why> {
    let (mut found, mut rest) = ([""; N], text);
    for part in &mut found {
        (*part, rest) = rest.split_once(' ').unwrap_or((rest, ""));
        if part.is_empty() {
            return Err(Why::Parts);
        }
    }
    Ok((found, rest))
}

impl<'b> SymbolFile<'b> {
    pub fn parse(bytes: &'b [u8]) -> Result<SymbolFile<'b>, Refused> {
        key_of(bytes)?;
        let text = std::str::from_utf8(bytes).map_err(|error| {
            let line = 1 + bytes[..error.valid_up_to()].iter().filter(|it| **it == b'\n').count();
            Refused { line, why: Why::Text }
        })?;
        let mut file = SymbolFile::default();
        for (index, line) in text.lines().enumerate().skip(1).filter(|it| !it.1.is_empty()) {
            file.add(line).map_err(|why| Refused { line: index + 1, why })?;
        }
        file.sort();
        Ok(file)
    }

    fn add(&mut self, line: &'b str) -> Result<(), Why> {
        let (kind, rest) = line.split_once(' ').ok_or(Why::Parts)?;
        // Of several at one address it says that.
        let rest_of_symbol = rest.strip_prefix("m ").unwrap_or(rest);
        match kind {
            "FILE" => {
                parts(rest).and_then(|([index], name)| Ok(self.files.insert(number(index, 10)?, name))).map(|_| ())
            }
            "INLINE_ORIGIN" => {
                parts(rest).and_then(|([index], name)| Ok(self.origins.insert(number(index, 10)?, name))).map(|_| ())
            }
            "FUNC" => self.add_function(rest_of_symbol),
            "INLINE" => self.add_inlined(rest),
            "PUBLIC" => {
                let ([address, _], name) = parts(rest_of_symbol)?;
                self.publics.push((number(address, 16)?, name));
                Ok(())
            }
            it if OTHERS.contains(&it) => Ok(()),
            _ => self.add_row(line),
        }
    }

    fn add_function(&mut self, rest: &'b str) -> Result<(), Why> {
        let ([address, size, _], name) = parts(rest)?;
        let start = number(address, 16)?;
        let end = start.saturating_add(number(size, 16)?);
        let (lines, inlined) = (self.rows.len()..self.rows.len(), self.inlined.len()..self.inlined.len());
        self.functions.push(Function { start, end, name, lines, inlined });
        Ok(())
    }

    fn add_row(&mut self, line: &'b str) -> Result<(), Why> {
        let ([address, size, line, file], rest) = parts(line)?;
        if !rest.is_empty() {
            return Err(Why::Parts);
        }
        let start = number(address, 16)?;
        let end = start.saturating_add(number(size, 16)?);
        let row = Row { start, end, line: number(line, 10)?, file: number(file, 10)? };
        let function = self.functions.last_mut().ok_or(Why::NoFunction)?;
        self.rows.push(row);
        function.lines.end = self.rows.len();
        Ok(())
    }

    fn add_inlined(&mut self, rest: &'b str) -> Result<(), Why> {
        let ([level, line, file, origin], mut rest) = parts(rest)?;
        let level = number(level, 10)?;
        let (line, file, origin) = (number(line, 10)?, number(file, 10)?, number(origin, 10)?);
        let function = self.functions.last_mut().ok_or(Why::NoFunction)?;
        while !rest.is_empty() {
            let ([address, size], after) = parts(rest)?;
            let start = number(address, 16)?;
            let end = start.saturating_add(number(size, 16)?);
            self.inlined.push(Inlined { level, start, end, line, file, origin });
            rest = after;
        }
        function.inlined.end = self.inlined.len();
        Ok(())
    }

    /// Sorts all by their addresses: of several at one the last counts.
    fn sort(&mut self) {
        for it in &self.functions {
            self.rows[it.lines.clone()].sort_by_key(|it| it.start);
            self.inlined[it.inlined.clone()].sort_by_key(|it| (it.level, it.start));
        }
        self.functions.sort_by_key(|it| it.start);
        self.publics.sort_by_key(|it| it.0);
    }

    /// The functions at an address, the innermost first: those that are inlined there and the one that has the code, or else the last public
    /// symbol before it.
    pub fn frames(&self, rva: u32) -> Vec<Named<'b>> {
        let after = self.functions.partition_point(|it| it.start <= rva);
        let function = after.checked_sub(1).and_then(|it| self.functions.get(it)).filter(|it| rva < it.end);
        let Some(function) = function.filter(|it| !it.name.is_empty()) else {
            return self.public(rva).into_iter().collect();
        };
        let mut frames = Vec::new();
        let rows = &self.rows[function.lines.clone()];
        let row =
            rows.partition_point(|it| it.start <= rva).checked_sub(1).map(|it| rows[it]).filter(|it| rva < it.end);
        let mut place = row.map(|it| (it.file, it.line));
        let mut named = |name, place: Option<(u32, u32)>| {
            let file = place.and_then(|it| self.files.get(&it.0).copied());
            frames.push(Named {
                name,
                start: function.start,
                file,
                line: place.map(|it| it.1).filter(|it| *it > 0),
                is_public: false,
            });
        };
        for it in self.inlined_at(function, rva).iter().rev() {
            named(self.origins.get(&it.origin).copied().unwrap_or("?"), place);
            place = Some((it.file, it.line));
        }
        named(function.name, place);
        frames
    }

    /// Those that are inlined at an address, the outermost first: one of each level, as long as there is one.
    fn inlined_at(&self, function: &Function<'b>, rva: u32) -> Vec<Inlined> {
        let all = &self.inlined[function.inlined.clone()];
        let mut found: Vec<Inlined> = Vec::new();
        while found.len() < MOST_INLINED {
            let level = found.len() as u32;
            let after = all.partition_point(|it| (it.level, it.start) <= (level, rva));
            match after.checked_sub(1).map(|it| all[it]).filter(|it| it.level == level && rva < it.end) {
                Some(it) => found.push(it),
                None => break,
            }
        }
        found
    }

    fn public(&self, rva: u32) -> Option<Named<'b>> {
        let after = self.publics.partition_point(|it| it.0 <= rva);
        let (start, name) = *self.publics.get(after.checked_sub(1)?)?;
        Some(Named { name, start, file: None, line: None, is_public: true }).filter(|it| !it.name.is_empty())
    }
}

#[cfg(test)]
mod tests {
    use super::*;

    const KEY: &str = "C4AAF6DE03F43CF24C4C44205044422E1";

    fn parsed(lines: &str) -> Result<String, Refused> {
        let text = format!("MODULE windows x86_64 {KEY} a b.pdb\n{lines}");
        let file = SymbolFile::parse(text.as_bytes())?;
        let said = |rva| {
            let frames = file.frames(rva);
            let frames = frames.iter().map(|it| {
                let place = it.line.map_or(String::new(), |line| format!("@{}:{line}", it.file.unwrap_or("?")));
                format!("{}+{:x}{place}{}", it.name, rva - it.start, if it.is_public { "!" } else { "" })
            });
            frames.collect::<Vec<_>>().join("<")
        };
        Ok([0xFFF, 0x1000, 0x1008, 0x100C, 0x1010, 0x2000].map(said).join(" "))
    }

    /// The examples of Breakpad's page, with an inlined function of two ranges and one within it.
    #[test]
    fn functions_lines_and_inlined_functions() {
        let lines = "INFO CODE_ID 1 a\nFILE 1 a.c\nFILE 2 b c.h\nINLINE_ORIGIN 3 in lined\nINLINE_ORIGIN 4 deep\n\
             FUNC m 1000 10 0 main(int, char**)\nINLINE 0 7 1 3 1004 4 1008 8\nINLINE 1 9 2 4 100c 4\n\
             1000 8 5 1\n1008 4 6 2\r\n100c 4 8 2\nPUBLIC 1800 0 after it\nSTACK CFI INIT 1000 10 .cfa: $rsp 8 +\n";
        let deep = "deep+c@b c.h:8<in lined+c@b c.h:9<main(int, char**)+c@a.c:7";
        let wanted =
            format!(" main(int, char**)+0@a.c:5 in lined+8@b c.h:6<main(int, char**)+8@a.c:7 {deep}  after it+800!");
        assert_eq!(parsed(lines), Ok(wanted));
        assert_eq!(key_of(format!("MODULE Linux x86 {KEY} x\n").as_bytes()), Ok(KEY));
    }

    #[test]
    fn what_is_refused_says_where() {
        for (lines, line, why) in [
            ("FUNC 1000 10 0", 2, None),
            ("FUNC 1000 10", 2, Some(Why::Parts)),
            ("FUNC 1000 g 0 a", 2, Some(Why::Number)),
            ("FUNC 100000000 1 0 a", 2, Some(Why::Number)),
            ("FUNC +1000 1 0 a", 2, Some(Why::Number)),
            ("\n1000 8 5 1\n", 3, Some(Why::NoFunction)),
            ("INLINE 0 7 1 3 1004 4\n", 2, Some(Why::NoFunction)),
            ("FUNC 1000 1 0 a\nINLINE 0 7 1 3 1004\n", 3, Some(Why::Parts)),
            ("WHAT 1\n", 2, Some(Why::Parts)),
            ("FILE x a.c\n", 2, Some(Why::Number)),
            ("FILE\n", 2, Some(Why::Parts)),
        ] {
            assert_eq!(parsed(lines).err(), why.map(|why| Refused { line, why }), "{lines}");
        }
        for text in [
            "MODULE a b",
            "MODULE windows x86 C4AA a.pdb\n",
            "MODULE windows x86 C4AAF6DE03F43CF24C4C44205044422EG1 a\n",
        ] {
            assert_eq!(SymbolFile::parse(text.as_bytes()).err(), Some(Refused { line: 1, why: Why::Module }), "{text}");
        }
        let text = [format!("MODULE windows x86 {KEY} a\n\n").as_bytes(), b"FILE 1 \xff\n"].concat();
        assert_eq!(SymbolFile::parse(&text).err(), Some(Refused { line: 3, why: Why::Text }));
    }

    #[test]
    fn a_symbol_file_has_the_name_of_its_pdb() {
        assert_eq!(
            ["a.pdb", "A.PDB", "libx.so", "é", ".pdb"].map(name_of),
            ["a.sym", "A.sym", "libx.so.sym", "é.sym", ".sym"]
        );
    }

    /// Any bytes are read or refused, and each answer is of the file.
    #[test]
    fn damaged_files_are_read_or_refused() {
        let lines = "FILE 1 a.c\nINLINE_ORIGIN 3 in\nFUNC 1000 10 0 main\nINLINE 0 7 1 3 1004 4 1008 8\nINLINE 1 9 1 3 100c 4\n\
                     1000 8 5 1\n1008 8 6 1\nPUBLIC 1800 0 after\nSTACK CFI INIT 1000 10 .cfa: $rsp 8 +\n";
        let whole = format!("MODULE windows x86_64 {KEY} a.pdb\n{lines}").into_bytes();
        let (mut seed, mut read) = (83u64, 0);
        let mut random = |below: usize| {
            seed = seed.wrapping_mul(6364136223846793005).wrapping_add(1442695040888963407);
            (seed >> 33) as usize % below
        };
        for _ in 0..20_000 {
            let mut bytes = whole.clone();
            for _ in 0..1 + random(4) {
                let at = random(bytes.len());
                bytes[at] = [b' ', b'\n', b'0', b'f', b'1', 0xFF, b'm', random(128) as u8][random(8)];
            }
            bytes.truncate(whole.len() - [0, 0, 0, random(whole.len())][random(4)]);
            if let Ok(file) = SymbolFile::parse(&bytes) {
                read += 1;
                for rva in [0, 0xFFF, 0x1000, 0x1004, 0x100C, 0x1010, 0x1800, u32::MAX] {
                    assert!(file.frames(rva).iter().all(|it| it.start <= rva));
                }
            }
        }
        assert!(read > 1000, "{read}");
    }
}
