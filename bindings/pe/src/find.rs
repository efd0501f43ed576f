//! Who imports or exports a name.

use crate::escape::Escaped;
use crate::facts::{Facts, Name, NotWhole, Part};
use serde::Serialize;

/// Where a name was found.
#[derive(Debug, Serialize)]
pub struct Match<'a> {
    /// `imports`, `delay_imports` or `exports`.
    part: &'static str,
    /// The DLL that it is imported from, or null.
    dll: Option<Name<'a>>,
    /// This and the ordinal are null of a DLL of which no function is listed.
    name: Option<Name<'a>>,
    ordinal: Option<u64>,
}

/// The matches in a file, as a line of JSON.
#[derive(Debug, Serialize)]
pub struct Found<'a> {
    pub json_version: u32,
    pub file: &'a str,
    pub file_hex: Option<&'a str>,
    /// The bytes of the path, for text.
    #[serde(skip)]
    path: &'a [u8],
    pub matches: Vec<Match<'a>>,
    /// What may have the word, and was not looked at.
    pub not_whole: Vec<NotWhole>,
}

fn has(name: &Name, word: &str) -> bool {
    String::from_utf8_lossy(name.0).to_lowercase().contains(word)
}

/// The name or the ordinal of a function: neither where it stands for a DLL alone.
type Function<'a> = (Option<Name<'a>>, Option<u32>);

/// The functions of a DLL. One of which none is listed stands there by itself.
fn or_itself<'a>(functions: impl ExactSizeIterator<Item = Function<'a>>) -> impl Iterator<Item = Function<'a>> {
    let alone = (functions.len() == 0).then_some((None, None));
    functions.chain(alone)
}

/// A function of a DLL, or nothing where neither has the word.
fn imported<'a>(part: &'static str, dll: Name<'a>, function: Function<'a>, word: &str) -> Option<Match<'a>> {
    let (name, ordinal) = function;
    let is_match = has(&dll, word) || name.is_some_and(|it| has(&it, word));
    is_match.then(|| Match { part, dll: Some(dll), name, ordinal: ordinal.map(u64::from) })
}

/// All that has the word, in any case, in the name of a function or of a DLL.
pub fn matches_of<'a>(facts: &'a Facts<'a>, word: &str) -> Found<'a> {
    let word = word.to_lowercase();
    let mut matches = Vec::new();
    for dll in facts.imports.iter().flat_map(|it| it.entries()) {
        let functions = dll.functions.entries().iter().map(|it| (it.name, it.ordinal));
        matches.extend(or_itself(functions).filter_map(|it| imported("imports", dll.name, it, &word)));
    }
    for dll in facts.delay_imports.iter().flat_map(|it| it.entries()) {
        let functions = dll.functions.entries().iter().map(|it| (it.name, it.ordinal));
        matches.extend(or_itself(functions).filter_map(|it| imported("delay_imports", dll.name, it, &word)));
    }
    for export in facts.exports.iter().filter_map(Part::present).flat_map(|it| &it.entries) {
        let names = export.names.iter().filter(|it| has(it, &word));
        matches.extend(names.map(|it| Match {
            part: "exports",
            dll: None,
            name: Some(*it),
            ordinal: Some(export.ordinal),
        }));
    }
    let (file, file_hex) = (facts.file.as_str(), facts.file_hex.as_deref());
    let (json_version, path) = (facts.json_version, facts.path.as_slice());
    Found { json_version, file, file_hex, path, matches, not_whole: facts.not_whole() }
}

impl Found<'_> {
    /// A line for each match: the file, how it has the name, and the name.
    pub fn text(&self) -> String {
        let line = |it: &Match| {
            let way = it.part.replace('_', "-");
            let dll = it.dll.map_or(String::new(), |dll| format!(" {dll}"));
            let name = it.name.map(|name| name.to_string()).or(it.ordinal.map(|it| format!("#{it}")));
            let name = name.map_or(String::new(), |name| format!(" {name}"));
            format!("{}: {way}{dll}{name}\n", Escaped(self.path))
        };
        self.matches.iter().map(line).collect()
    }
}
