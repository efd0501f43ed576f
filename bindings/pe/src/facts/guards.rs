//! The lists of code that a load configuration leads to: which functions may be called indirectly, which exception handlers x86
//! takes, and where else control may go. See <https://learn.microsoft.com/windows/win32/secbp/pe-metadata>.

use super::{entry, Budget, Entry, Flags, List, Part, Refusal, ENTRY};
use crate::names::GUARDED_FLAGS;
use pe_c::{GuardEntry, GuardTable, Image};
use serde::Serialize;

/// The lists. One is absent where the structure does not have its fields, or names no table.
#[derive(Clone, Debug, Serialize)]
pub struct Guards {
    /// Exception handlers of x86.
    #[serde(flatten)]
    pub handlers: Part<List<Handler>>,
    /// Functions that may be called indirectly.
    #[serde(flatten)]
    pub functions: Part<List<Function>>,
    /// Entries of the import address table whose address is taken.
    #[serde(flatten)]
    pub iat_entries: Part<List<IatEntry>>,
    /// Where `longjmp` may go.
    #[serde(flatten)]
    pub long_jumps: Part<List<LongJump>>,
    /// Where execution goes on after exceptions.
    #[serde(flatten)]
    pub continuations: Part<List<Continuation>>,
}

/// The RVA of an exception handler.
#[derive(Clone, Copy, Debug, Serialize)]
#[serde(transparent)]
pub struct Handler(pub u32);

entry!(Handler, "se_handlers");

/// An entry of the other lists.
#[derive(Clone, Copy, Debug, Serialize)]
pub struct Target<const LIST: usize> {
    pub rva: u32,
    /// `IMAGE_GUARD_FLAG_` of the first byte of flags. Null where the entries have none.
    pub flags: Option<Flags>,
}

pub type Function = Target<0>;
pub type IatEntry = Target<1>;
pub type LongJump = Target<2>;
pub type Continuation = Target<3>;

entry!(Function, "guarded_functions");
entry!(IatEntry, "guarded_iat_entries");
entry!(LongJump, "long_jump_targets");
entry!(Continuation, "eh_continuations");

/// The size of an entry's RVA in bytes.
const SIZE_OF_RVA: usize = 4;

pub fn of(image: &Image<'_>) -> Guards {
    let mut tables = Tables { image, budget: Budget::without_rvas(image.bytes()) };
    Guards {
        handlers: tables.list(GuardTable::SeHandlers, |entry| Handler(entry.rva)),
        functions: tables.list(GuardTable::CfFunctions, target),
        iat_entries: tables.list(GuardTable::AddressTakenIatEntries, target),
        long_jumps: tables.list(GuardTable::LongJumpTargets, target),
        continuations: tables.list(GuardTable::EhContinuations, target),
    }
}

/// What the tables are read of, and for how much of it they may still be. Tables of a hostile file may all be the same bytes.
struct Tables<'i, 'a> {
    image: &'i Image<'a>,
    budget: Budget,
}

impl Tables<'_, '_> {
    /// The entries of a table up to the end of the file, as many as the budget has left. Each byte of an entry counts for an entry,
    /// so tables that share no bytes are shown whole: they cannot use the budget up.
    fn list<T: Entry>(&mut self, table: GuardTable, of: impl Fn(GuardEntry<'_>) -> T) -> Part<List<T>> {
        let found = self.image.guard_table(table).map(|entries| {
            entries.map(|entries| {
                let size = SIZE_OF_RVA + entries.flag_size() as usize;
                List::limited(entries, |entry| self.budget.takes(ENTRY * size).then(|| of(entry)))
            })
        });
        found.into()
    }
}

fn target<const LIST: usize>(entry: GuardEntry<'_>) -> Target<LIST> {
    Target { rva: entry.rva, flags: entry.flags.first().map(|it| Flags::of((*it).into(), GUARDED_FLAGS)) }
}

impl Guards {
    /// Whether there is more of a list.
    pub fn is_limited(&self) -> bool {
        fn is_limited<T>(list: &Part<List<T>>) -> bool {
            list.present().is_some_and(|it| it.is_limited)
        }
        is_limited(&self.handlers)
            || is_limited(&self.functions)
            || is_limited(&self.iat_entries)
            || is_limited(&self.long_jumps)
            || is_limited(&self.continuations)
    }

    /// Which lists are refused or end early, each by its name.
    pub fn refusals(&self) -> impl Iterator<Item = (&'static str, &Refusal)> {
        let lists = [
            ("exception handlers", self.handlers.list_refusal()),
            ("guarded functions", self.functions.list_refusal()),
            ("guarded imports", self.iat_entries.list_refusal()),
            ("long jumps", self.long_jumps.list_refusal()),
            ("exception continuations", self.continuations.list_refusal()),
        ];
        lists.into_iter().filter_map(|(name, refusal)| Some((name, refusal?)))
    }
}
