//! Lists of names of exports and imports, and of forwarders' texts, which a hostile file may let start in one long text: few are read
//! each by itself, and once these have cost much the others are read together.

use super::{narrow, resize, with_numbers, Refusal, View};
use crate::error;
use crate::pe::import::SIZEOF_IMPORT_DIRECTORY_ENTRY;
use core::ops::Range;
use pe_c::sys;

/// How many libraries, or imports, are taken a call where their names are read together.
const MOST_TOGETHER: usize = 1 << 16;

/// How many texts that a call reads and does not return count as the image: nothing says how long each was.
const SKIPPED: usize = 64;

/// Room for a list of names. A call takes few, and reads each name by itself; once these have cost as much as the image has bytes a
/// call takes many, and reads their names together, however many of them share a text.
pub(crate) struct Names<T, const FEW: usize> {
    few: [T; FEW],
    many: Vec<T>,
    runs: Vec<sys::Run>,
    /// How many bytes names may still cost, each by itself.
    left: usize,
}

impl<T: Copy + Default, const FEW: usize> Names<T, FEW> {
    pub fn of(view: View<'_, '_>) -> Self {
        Names { few: [T::default(); FEW], many: Vec::new(), runs: Vec::new(), left: view.bytes.len() }
    }

    /// Makes a call that fills room for a few items, or for `most` with so many runs each. Returns how many it wrote.
    fn fill(
        &mut self,
        most: usize,
        runs: usize,
        call: impl FnOnce(&mut [sys::Run], &mut [T]) -> error::Result<usize>,
        cost: impl Fn(&T) -> u64,
    ) -> error::Result<usize> {
        let is_together = self.left == 0 && most > 0;
        let (many, more) = if is_together { (most, runs * most) } else { (0, 0) };
        resize(&mut self.many, many)?;
        resize(&mut self.runs, more)?;
        let room = if is_together { &mut self.many[..] } else { &mut self.few[..] };
        let written = call(&mut self.runs, room)?;
        let cost: u64 = room.iter().take(written).map(cost).sum();
        self.spend(cost as usize);
        Ok(written)
    }

    fn spend(&mut self, cost: usize) {
        self.left = self.left.saturating_sub(cost);
    }

    /// The first so many items that the last call wrote.
    fn found(&self, count: usize) -> &[T] {
        let room = if self.many.is_empty() { &self.few[..] } else { &self.many[..] };
        room.get(..count).unwrap_or(room)
    }
}

/// Room for the imports of an image, which are asked for library by library. A call takes few of one library, as for other names;
/// once these have cost much a call takes those of all libraries that are left, and reads their names together.
pub(crate) struct ImportNames<const FEW: usize> {
    alone: Names<sys::LibraryImport, FEW>,
    /// The walk before the first library, and how many there are.
    libraries: sys::Libraries,
    count: usize,
    /// The walk over those that are left, and of what it listed those that were not asked for.
    others: Option<sys::LibraryImports>,
    many: Vec<sys::LibraryImport>,
    left: Range<usize>,
    runs: Vec<sys::Run>,
}

impl<const FEW: usize> ImportNames<FEW> {
    pub fn of(view: View<'_, '_>, libraries: sys::Libraries, count: usize) -> Self {
        let (many, runs) = (Vec::new(), Vec::new());
        ImportNames { alone: Names::of(view), libraries, count, others: None, many, left: 0..0, runs }
    }
}

/// A walk over the imports of one library, which is that with this index: no other follows it.
pub(crate) fn imports_of(library: &sys::Library, index: usize) -> sys::LibraryImports {
    let libraries = sys::Libraries { is_over: 1, ..Default::default() };
    sys::LibraryImports { libraries, imports: library.imports, begun: index as u64 + 1, ..Default::default() }
}

impl View<'_, '_> {
    /// The next exports that have names, of so many entries of the name table as there is room for: perhaps none of these. `None`
    /// after the last entry.
    pub fn next_exports<'r, const FEW: usize>(
        &self,
        walk: &mut sys::Exports,
        names: &'r mut Names<sys::Export, FEW>,
    ) -> error::Result<Option<&'r [sys::Export]>> {
        let rest: usize = narrow((walk.names.length / 4).saturating_sub(walk.next))?;
        if rest == 0 {
            return Ok(None);
        }
        let taken = if names.left > 0 { rest.min(FEW) } else { rest };
        let mut part = sys::ExportWalk::from(*walk);
        part.exports.names.length = 4 * (walk.next + taken as u64);
        let call = |runs: &mut [_], room: &mut [_]| Ok(self.list_exports(&mut part, runs, room)?);
        // An entry has a name and perhaps a forwarder's text.
        let found = names.fill(taken, 2, call, |it| it.name.length + it.forwarder.length)?;
        walk.next = part.exports.next;
        let without = names.found(found).iter().filter(|it| it.is_forwarder != 0 && it.forwarder.length == 0).count();
        names.spend((taken.saturating_sub(found) + without).saturating_mul(self.bytes.len() / SKIPPED));
        Ok(Some(names.found(found)))
    }

    /// The next libraries; none at the end.
    pub fn next_libraries<'r, const FEW: usize>(
        &self,
        walk: &mut sys::LibraryWalk,
        taken: usize,
        names: &'r mut Names<sys::Library, FEW>,
    ) -> error::Result<&'r [sys::Library]> {
        // Nothing says how many are left: four times as many as there were.
        let most = (4 * taken).min(MOST_TOGETHER);
        let cost = |it: &sys::Library| it.name.length + it.imports.left.length;
        let before = *walk;
        let refused = |it: Refusal| with_numbers(it.into(), self.library_failure(&before.libraries));
        let call = |runs: &mut [_], room: &mut [_]| self.list_libraries(walk, runs, room).map_err(refused);
        let found = names.fill(most, 2, call, cost)?;
        Ok(names.found(found))
    }

    /// The next imports of a library, by its walk; none at the end.
    pub fn next_imports<'r, const FEW: usize>(
        &self,
        walk: &mut sys::LibraryImports,
        room: &'r mut ImportNames<FEW>,
    ) -> error::Result<&'r [sys::LibraryImport]> {
        if room.alone.left > 0 {
            let cost = |it: &sys::LibraryImport| it.import.name.length;
            let before = walk.imports;
            let refused = |it: Refusal| with_numbers(it.into(), self.import_failure(&before));
            let call = |_: &mut [_], room: &mut [_]| self.list_all_imports(walk, &mut [], room).map_err(refused);
            let found = room.alone.fill(0, 0, call, cost)?;
            return Ok(room.alone.found(found));
        }
        if room.left.is_empty() {
            self.list_others(walk, room)?;
        }
        let listed = room.many.get(room.left.clone()).unwrap_or_default();
        let count = listed.iter().take_while(|it| it.library + 1 == walk.begun).count();
        room.left.start += count;
        Ok(listed.get(..count).unwrap_or_default())
    }

    /// Lists imports of all libraries that are left, from those that this one has left on.
    fn list_others<const FEW: usize>(
        &self,
        own: &sys::LibraryImports,
        room: &mut ImportNames<FEW>,
    ) -> error::Result<()> {
        let next = room.libraries.next.saturating_add(own.begun * SIZEOF_IMPORT_DIRECTORY_ENTRY as u64);
        let libraries = sys::Libraries { next, ..room.libraries };
        let walk = room.others.get_or_insert(sys::LibraryImports { libraries, ..*own });
        let libraries_left = room.count.saturating_sub(narrow::<_, usize>(own.begun)?.saturating_sub(1));
        resize(&mut room.many, MOST_TOGETHER.min(self.bytes.len()))?;
        resize(&mut room.runs, room.many.len() + libraries_left)?;
        room.left = 0..self.list_all_imports(walk, &mut room.runs, &mut room.many)?;
        Ok(())
    }
}
