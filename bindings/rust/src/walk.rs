//! What all walks share: the call of a step, and that a walk is over after its end or an error.

use crate::coff::room_for;
use crate::failure::{found, Failure};
use crate::image::{returned, CallWith, Error, Image, Look as ImageLook};
use crate::sys::{self, Run, View};
use alloc::vec::Vec;
use core::fmt;

/// A call that takes the bytes, a record and a number, and returns a record.
pub(crate) type Look<M, N, T> = unsafe extern "C" fn(*const u8, usize, *const M, N, *mut T) -> u32;

/// Makes such a call.
pub(crate) fn look<M, N, T: Default>(bytes: &[u8], call: Look<M, N, T>, more: &M, n: N) -> Result<Option<T>, Error> {
    let mut out = T::default();
    // SAFETY: the call is one of the declarations of `sys`. The pointer and the length are those of one slice, `more`
    // and `out` are lent for the call, `n` is a number or comes from a reference to what the caller lends for it, and the library
    // requires nothing else.
    let number = unsafe { call(bytes.as_ptr(), bytes.len(), more, n, &mut out) };
    returned(number, out)
}

/// A call that takes the bytes and a record, and returns a record.
pub(crate) type Ask<M, T> = unsafe extern "C" fn(*const u8, usize, *const M, *mut T) -> u32;

/// Makes such a call.
pub(crate) fn ask_of_bytes<M, T: Default>(bytes: &[u8], call: Ask<M, T>, more: &M) -> Result<Option<T>, Error> {
    let mut out = T::default();
    // SAFETY: as in `look`.
    let number = unsafe { call(bytes.as_ptr(), bytes.len(), more, &mut out) };
    returned(number, out)
}

/// The next item of a walk, unless it is over, as it is after its end or an error.
fn unless_over<T>(is_over: &mut bool, step: impl FnOnce() -> Result<Option<T>, Error>) -> Option<Result<T, Error>> {
    if *is_over {
        return None;
    }
    let item = step().transpose();
    *is_over = !matches!(item, Some(Ok(_)));
    item
}

/// The same of a walk that is `None` where it is over. The step moves the walk, and returns what its call returned.
pub(crate) fn next_of<W, T: Default>(
    walk: &mut Option<W>,
    step: impl FnOnce(&mut W, &mut T) -> u32,
) -> Option<Result<T, Error>> {
    let (mut moved, mut out) = (walk.take()?, T::default());
    let number = step(&mut moved, &mut out);
    let item = returned(number, out).transpose()?;
    *walk = item.is_ok().then_some(moved);
    Some(item)
}

/// Walks that keep sections, at their start.
macro_rules! started_at {
    ($($walk:ident { $place:ident: $kind:ident },)*) => { $(
        impl From<sys::$kind> for sys::$walk {
            /// The walk that starts there.
            fn from($place: sys::$kind) -> Self {
                sys::$walk { $place, kept: sys::KeptSections::default() }
            }
        }
    )* };
}

started_at! {
    ExportWalk { exports: Exports },
    LibraryWalk { libraries: Libraries },
    ImportWalk { imports: Imports },
    DelayImportWalk { entries: Range },
    DelayedFunctionWalk { functions: DelayedFunctions },
    LeafWalk { leaves: ResourceWalk },
}

/// A walk over bytes.
#[derive(Clone, Copy)]
pub(crate) struct Walk<'a, W> {
    pub bytes: &'a [u8],
    walk: W,
    is_over: bool,
    /// The walk as it was before the step that returned an error.
    refused: Option<W>,
}

impl<W: fmt::Debug> fmt::Debug for Walk<'_, W> {
    fn fmt(&self, f: &mut fmt::Formatter<'_>) -> fmt::Result {
        f.debug_struct("Walk").field("walk", &self.walk).field("is_over", &self.is_over).finish_non_exhaustive()
    }
}

impl<'a, W: Copy> Walk<'a, W> {
    pub fn new(bytes: &'a [u8], walk: W) -> Self {
        Walk { bytes, walk, is_over: false, refused: None }
    }

    /// The walk that a call has started, or one that is over where there is nothing to walk over.
    pub fn started(bytes: &'a [u8], walk: Option<W>) -> Self
    where
        W: Default,
    {
        Walk { is_over: walk.is_none(), ..Walk::new(bytes, walk.unwrap_or_default()) }
    }

    /// The next item.
    pub fn step<T: Default>(
        &mut self,
        call: unsafe extern "C" fn(*const u8, usize, *mut W, *mut T) -> u32,
    ) -> Option<Result<T, Error>> {
        let Walk { bytes, walk, is_over, refused } = self;
        let before = *walk;
        let item = unless_over(is_over, || {
            let mut out = T::default();
            // SAFETY: as in `look`; the walk is lent for the call too, and overlaps no other argument.
            let number = unsafe { call(bytes.as_ptr(), bytes.len(), walk, &mut out) };
            returned(number, out)
        });
        if matches!(item, Some(Err(_))) {
            *refused = Some(before);
        }
        item
    }

    /// Why the step that returned an error did, by the call that says so of such a step.
    pub fn failure(&self, call: Ask<W, sys::Failure>) -> Option<Failure> {
        found(ask_of_bytes(self.bytes, call, self.refused.as_ref()?))
    }
}

/// Declares an iterator over bytes: its walk, its items, the call of a step, and how an item is made of what the call
/// returned and the bytes.
macro_rules! items {
    ($(#[$doc:meta])* $name:ident<'a>($walk:ty): $item:ty, $call:path, $reported:expr) => {
        $(#[$doc])*
        #[derive(Clone, Debug)]
        pub struct $name<'a>(crate::walk::Walk<'a, $walk>);

        impl<'a> Iterator for $name<'a> {
            type Item = Result<$item, Error>;

            fn next(&mut self) -> Option<Self::Item> {
                let bytes = self.0.bytes;
                Some(self.0.step($call)?.and_then(|found| $reported(found, bytes)))
            }
        }

        impl core::iter::FusedIterator for $name<'_> {}
    };
}

pub(crate) use items;

/// A walk over an image.
#[derive(Clone)]
pub(crate) struct ImageWalk<'i, 'a, W> {
    pub image: &'i Image<'a>,
    walk: W,
    is_over: bool,
}

impl<W: fmt::Debug> fmt::Debug for ImageWalk<'_, '_, W> {
    fn fmt(&self, f: &mut fmt::Formatter<'_>) -> fmt::Result {
        f.debug_struct("ImageWalk").field("walk", &self.walk).field("is_over", &self.is_over).finish_non_exhaustive()
    }
}

impl<'i, 'a, W> ImageWalk<'i, 'a, W> {
    pub fn new(image: &'i Image<'a>, walk: W) -> Self {
        ImageWalk { image, walk, is_over: false }
    }

    /// The next item, by a call that takes a record too.
    pub fn step_by<M, T: Default>(&mut self, call: ImageLook<M, *mut W, T>, more: &M) -> Option<Result<T, Error>> {
        unless_over(&mut self.is_over, || self.image.step_by(call, more, &mut self.walk))
    }
}

/// How many items a walk takes a call.
const ROOM: usize = 16;

/// How many names a call that reads them together takes of these bytes, at most, where none are skipped. Each call may read a text
/// that is as long as the bytes, so it takes more names of longer ones, and the calls stay few. A name takes up to 112 bytes of
/// memory, so those of a call less than twice as many as there are bytes, or 7 MiB; calls of the names of all DLLs take 24 more for
/// each DLL that is left.
pub(crate) fn most_names(bytes: &[u8]) -> usize {
    (bytes.len() / 64).max(1 << 16)
}

/// A call that writes items to an array, and moves a walk past them.
pub(crate) type Listing<W, T> = unsafe extern "C" fn(*const View, *mut W, *mut T, usize, *mut u64) -> u32;

/// The same over bytes.
type ListingOfBytes<W, T> = unsafe extern "C" fn(*const u8, usize, *mut W, *mut T, usize, *mut u64) -> u32;

/// The same of items whose names are read together, with runs for these.
pub(crate) type Together<W, T> =
    unsafe extern "C" fn(*const View, *mut W, *mut Run, usize, *mut T, usize, *mut u64) -> u32;

/// A walk over an image that takes several items a call.
pub(crate) type ImageList<'i, 'a, W, T> = List<&'i Image<'a>, W, T>;

/// The same over bytes.
pub(crate) type BytesList<'a, W, T> = List<&'a [u8], W, T>;

/// A walk that takes several items a call. Its items are those of the steps, one after the other.
#[derive(Clone)]
pub(crate) struct List<S, W, T> {
    pub source: S,
    walk: W,
    items: [T; ROOM],
    /// What the last call wrote in place of these, if it read names together.
    many: Vec<T>,
    /// Of the items those that are not returned yet.
    left: core::ops::Range<usize>,
    /// How many items were written by all calls, and how many bytes were read of their names, each by itself.
    taken: usize,
    spent: u64,
    is_over: bool,
    /// The walk as it was before the step that returned an error.
    refused: Option<W>,
}

impl<S, W: fmt::Debug, T> fmt::Debug for List<S, W, T> {
    fn fmt(&self, f: &mut fmt::Formatter<'_>) -> fmt::Result {
        let Self { walk, left, is_over, .. } = self;
        let mut shown = f.debug_struct("List");
        shown.field("walk", walk).field("left", &left.len()).field("is_over", is_over).finish_non_exhaustive()
    }
}

impl<S: Copy, W: Copy, T: Copy + Default> List<S, W, T> {
    pub fn new(source: S, walk: W) -> Self {
        List {
            source,
            walk,
            items: [T::default(); ROOM],
            many: Vec::new(),
            left: 0..0,
            taken: 0,
            spent: 0,
            is_over: false,
            refused: None,
        }
    }

    /// The walk that a call has started, or one that is over where there is nothing to walk over.
    pub fn started(source: S, walk: Option<W>) -> Self
    where
        W: Default,
    {
        List { is_over: walk.is_none(), ..List::new(source, walk.unwrap_or_default()) }
    }

    /// How many items were written.
    pub fn taken(&self) -> usize {
        self.taken
    }

    /// The walk as it was before the step that returned an error.
    pub fn refused(&self) -> Option<&W> {
        self.refused.as_ref()
    }

    /// Goes on with another walk after the end of this one.
    pub fn restart(&mut self, walk: W) {
        (self.walk, self.is_over) = (walk, false);
    }

    /// Makes a call, and keeps how many items it wrote. Returns the error of the walk, if it is one.
    fn fill(&mut self, call: impl FnOnce(S, &mut Self, &mut u64) -> u32) -> Option<Error> {
        let (before, source, mut written) = (self.walk, self.source, 0);
        let number = call(source, self, &mut written);
        let count = returned(number, written).map(|count| count.unwrap_or(0) as usize);
        // An error is that of the first step of its call.
        self.refused = count.is_err().then_some(before);
        self.left = 0..count.unwrap_or(0);
        self.taken += self.left.len();
        self.is_over = self.left.is_empty();
        count.err()
    }

    /// The next of the items that the last call wrote.
    fn first_left(&mut self) -> Option<Result<T, Error>> {
        let i = self.left.next()?;
        Some(Ok(if self.many.is_empty() { self.items[i] } else { self.many[i] }))
    }

    /// The next item, by a call that writes a few.
    pub fn step_of_few(
        &mut self,
        call: impl FnOnce(S, &mut W, &mut [T; ROOM], &mut u64) -> u32,
    ) -> Option<Result<T, Error>> {
        if self.left.is_empty() && !self.is_over {
            self.many.clear();
            let refused = self.fill(|source, list, written| call(source, &mut list.walk, &mut list.items, written));
            if let Some(error) = refused {
                return Some(Err(error));
            }
        }
        self.first_left()
    }
}

impl<W: Copy, T: Copy + Default> BytesList<'_, W, T> {
    /// The next item.
    pub fn step(&mut self, call: ListingOfBytes<W, T>) -> Option<Result<T, Error>> {
        // SAFETY: as in `look`; the walk and `written` are lent for the call, the array has so many items, and none overlaps another.
        self.step_of_few(|bytes, walk, items, written| unsafe {
            call(bytes.as_ptr(), bytes.len(), walk, items.as_mut_ptr(), ROOM, written)
        })
    }

    /// Why the step that returned an error did, by the call that says so of such a step.
    pub fn failure(&self, call: Ask<W, sys::Failure>) -> Option<Failure> {
        found(ask_of_bytes(self.source, call, self.refused.as_ref()?))
    }
}

impl<W: Copy, T: Copy + Default> ImageList<'_, '_, W, T> {
    /// The next item.
    pub fn step(&mut self, call: Listing<W, T>) -> Option<Result<T, Error>> {
        // SAFETY: as of bytes, and of the view.
        self.step_of_few(|image, walk, items, written| unsafe {
            call(&image.view(), walk, items.as_mut_ptr(), ROOM, written)
        })
    }

    /// Why the step that returned an error did, by the call that says so of such a step, which takes where the walk stood.
    pub fn failure<P>(&self, call: CallWith<*const P, sys::Failure>, place: impl FnOnce(&W) -> &P) -> Option<Failure> {
        found(self.source.ask_of(call, place(self.refused.as_ref()?)))
    }

    /// The next item of a walk that may have so many names left, by the walk and how many it returned. Once those that were read
    /// each by itself have as many bytes as the image, by what each cost, further ones are read together, with `runs` for each; where
    /// there is no memory for that each is read by itself.
    pub fn step_together(
        &mut self,
        call: Together<W, T>,
        runs: usize,
        most: impl FnOnce(&W, usize) -> usize,
        cost: impl Fn(&T) -> u64,
    ) -> Option<Result<T, Error>> {
        if !self.left.is_empty() || self.is_over {
            return self.first_left();
        }
        let most = most(&self.walk, self.taken);
        if most == 0 || self.spent <= self.source.bytes().len() as u64 {
            let first = self.step_alone(call);
            let others = self.left.clone().map(|i| cost(&self.items[i])).sum::<u64>();
            self.spent += others + first.as_ref().and_then(|it| it.as_ref().ok()).map_or(0, cost);
            return first;
        }
        match self.list_together(call, runs * most, most) {
            Some(first) => first,
            None => self.step_alone(call),
        }
    }

    /// The next item, by a call that reads each name by itself.
    fn step_alone(&mut self, call: Together<W, T>) -> Option<Result<T, Error>> {
        // SAFETY: as in `step`; there need be no room for no runs.
        self.step_of_few(|image, walk, items, written| unsafe {
            call(&image.view(), walk, core::ptr::null_mut(), 0, items.as_mut_ptr(), ROOM, written)
        })
    }

    /// Lists so many items at most, with so many runs for their names, and returns the first. `None` if there is no memory for that.
    fn list_together(&mut self, call: Together<W, T>, runs: usize, most: usize) -> Option<Option<Result<T, Error>>> {
        let (mut room, many) = (room_for(runs, Run::default()).ok()?, room_for(most, T::default()).ok()?);
        self.many = many;
        // SAFETY: as above, and of the runs.
        let refused = self.fill(|image, list, written| unsafe {
            call(&image.view(), &mut list.walk, room.as_mut_ptr(), room.len(), list.many.as_mut_ptr(), most, written)
        });
        Some(refused.map(Err).or_else(|| self.first_left()))
    }

    /// The next item of a walk whose names are all read together: a run for each of four times as many items as there were, and more
    /// for what else has a name, by the walk. Where there is no memory for that a call takes few, and reads each name by itself.
    pub fn step_with_runs(&mut self, call: Together<W, T>, more: impl FnOnce(&W) -> usize) -> Option<Result<T, Error>> {
        if !self.left.is_empty() || self.is_over {
            return self.first_left();
        }
        let most = (4 * self.taken).clamp(ROOM, most_names(self.source.bytes()));
        match self.list_together(call, most + more(&self.walk), most) {
            Some(first) => first,
            None => self.step_alone(call),
        }
    }
}
