//! Functions of the function table, whose bytes are compared. A function has the name that the image has for it, or the RVA of its
//! start. Of what was linked anew most has moved: one whose name is not in both images is left out where the other image has its
//! bytes anywhere.

use super::Rows;
use crate::escape::escaped;
use crate::facts::{counted, hex_of, Budget};
use crate::verify::hashing::Hash;
use pe_c::{Arm64Unwinding, CodeAddress, Image};
use std::collections::{BTreeMap, BTreeSet};

/// How long a function is, and the start of the hash of its bytes, as sections have it. In a hostile image each of many functions may
/// be the whole file: once these have 16 times the bytes of the file there are no more hashes.
type Content = (u32, Option<[u8; 8]>);

struct Function {
    name: Option<String>,
    start: u32,
    content: Content,
}

impl Function {
    fn shown_name(&self) -> String {
        self.name.clone().unwrap_or_else(|| format!("{:#x}", self.start))
    }

    fn shown_content(&self) -> String {
        let hash = self.content.1.map_or(String::new(), |it| format!(", SHA-256 {}", hex_of(&it)));
        counted(self.content.0 as usize, "byte") + &hash
    }
}

/// RVA and length of each function. The length is 0 where the unwind data of ARM64 is refused, which has it.
fn ranges_of(image: &Image<'_>) -> Vec<(u32, u32)> {
    if let Ok(Some(functions)) = image.functions() {
        return functions.iter().map(|it| (it.begin, it.end.saturating_sub(it.begin))).collect();
    }
    let Ok(Some(functions)) = image.arm64_functions() else { return Vec::new() };
    let length = |it| match functions.unwinding(it) {
        Ok(Arm64Unwinding::Packed(it)) => it.function_length,
        Ok(Arm64Unwinding::Record(it)) => it.function_length(),
        Err(_) => 0,
    };
    functions.iter().map(|it| (it.begin, length(it))).collect()
}

/// The names of the functions that start at these RVAs, as far as the image has some, up to 16 times the bytes of the file.
fn names_of(image: &Image<'_>, ranges: &[(u32, u32)]) -> Vec<Option<String>> {
    let addresses: Vec<_> = ranges.iter().map(|it| CodeAddress { rva: it.0, is_return: 0 }).collect();
    // Without memory for names there are none.
    let found = image.function_names(&addresses).unwrap_or_default();
    let mut budget = Budget::without_rvas(image.bytes());
    let names = found.into_iter().map(|it| it.filter(|it| it.offset == 0 && !it.is_nearest)?.name);
    let mut names: Vec<_> = names.map(|it| it.filter(|it| budget.takes(it.len())).map(escaped)).collect();
    names.resize(ranges.len(), None);
    names
}

fn functions_of(image: &Image<'_>) -> Vec<Function> {
    let (ranges, mut budget) = (ranges_of(image), Budget::of(image));
    let names = names_of(image, &ranges);
    let mut hash_of = |start, length: usize| {
        let at = budget.takes(length).then(|| usize::try_from(image.offset(start)?).ok())??;
        let bytes = image.bytes().get(at..at.checked_add(length)?).filter(|it| !it.is_empty())?;
        Hash::Sha256.digest([bytes].into_iter()).first_chunk().copied()
    };
    let function = |((start, length), name): ((u32, u32), _)| Function {
        name,
        start,
        content: (length, hash_of(start, length as usize)),
    };
    ranges.into_iter().zip(names).map(function).collect()
}

/// How many of them have each content.
fn counts<'f>(functions: impl Iterator<Item = &'f Function>) -> BTreeMap<Content, usize> {
    let mut counts = BTreeMap::new();
    functions.for_each(|it| *counts.entry(it.content).or_default() += 1);
    counts
}

/// The functions of two images as rows, without those that were at most moved.
pub fn of(images: [&Image<'_>; 2]) -> [Rows; 2] {
    let found = images.map(functions_of);
    let names = [0, 1].map(|it| found[it].iter().filter_map(|it| it.name.as_deref()).collect::<BTreeSet<_>>());
    let is_in_both = |it: &Function| it.name.as_deref().is_some_and(|it| names.iter().all(|names| names.contains(it)));
    let may_move = |it: &&Function| it.content.1.is_some() && !is_in_both(it);
    let [before, after] = [0, 1].map(|it| counts(found[it].iter().filter(may_move)));
    let least = |(content, count): (&Content, &usize)| Some((*content, *count.min(after.get(content)?)));
    let moved: BTreeMap<Content, usize> = before.iter().filter_map(least).collect();
    [0, 1].map(|it| {
        let (mut moved, mut rows) = (moved.clone(), Rows::default());
        for function in &found[it] {
            match moved.get_mut(&function.content).filter(|it| **it > 0 && may_move(&function)) {
                Some(left) => *left -= 1,
                None => rows.put(function.shown_name(), function.shown_content()),
            }
        }
        rows
    })
}
