//! What a step of the library's unwinder does, as rules: each register points to a region of addresses of its own, and each word of memory
//! says at which address it is. So where a register of the caller comes from is what it has after the step.

use pe_c::{MemoryList, MemoryPiece, StepError};

/// Each register points to the middle of a region of so many bits: the stack pointer to the lowest, since that of a caller is above it.
const REGION: u32 = 40;
/// What the word at an address has beside the address.
const WORD: u64 = 1 << 46;
/// How many bytes are made readable at once, and how often for one step: of a hostile image each code may read elsewhere.
const BLOCK: u64 = 256;
const MOST_BLOCKS: usize = 128;

/// An address, by a register and how far it is above that: register 0 is the stack pointer, and n + 1 that with the number n.
#[derive(Clone, Copy, Debug, PartialEq, Eq)]
pub struct Address {
    pub register: usize,
    pub offset: i64,
}

/// Where a value comes from.
#[derive(Clone, Copy, Debug, PartialEq, Eq)]
pub enum Value {
    Address(Address),
    /// The word there.
    Word(Address),
}

/// The value that a register has before a step.
pub const fn initial(register: usize) -> u64 {
    (register as u64 + 1) << REGION
}

/// Where a value after a step comes from. None of one that was reckoned of what was read.
pub fn source_of(value: u64) -> Option<Value> {
    let address = |it: u64| {
        let region = it.checked_add(1 << (REGION - 1))? >> REGION;
        let register = usize::try_from(region).ok()?.checked_sub(1).filter(|_| it < WORD)?;
        Some(Address { register, offset: it.wrapping_sub(initial(register)) as i64 })
    };
    match value.checked_sub(WORD) {
        Some(read) => address(read).map(Value::Word),
        None => address(value).map(Value::Address),
    }
}

/// The memory that steps read, in blocks that are made where one is missing.
#[derive(Default)]
pub struct Memory {
    bytes: Vec<u8>,
    pieces: Vec<MemoryPiece>,
}

impl Memory {
    /// Makes the block of an address readable. False where it is.
    fn add(&mut self, address: u64) -> bool {
        let start = address / BLOCK * BLOCK;
        let Err(at) = self.pieces.binary_search_by_key(&start, |it| it.start) else { return false };
        self.pieces.insert(at, MemoryPiece { start, offset: self.bytes.len() as u64, length: BLOCK });
        let words = (start..start.saturating_add(BLOCK)).step_by(8);
        self.bytes.extend(words.flat_map(|it| it.wrapping_add(WORD).to_le_bytes()));
        true
    }

    /// What a step returns, whatever it reads.
    pub fn step<T>(&mut self, step: impl Fn(MemoryList<'_>) -> Result<T, StepError>) -> Result<T, String> {
        if self.pieces.len() > MOST_BLOCKS {
            *self = Memory::default();
        }
        let most = self.pieces.len() + MOST_BLOCKS;
        loop {
            let memory = MemoryList::new(&self.bytes, &self.pieces).map_err(|error| error.to_string())?;
            match step(memory) {
                Err(StepError::Missing(address)) if self.pieces.len() < most => {
                    // A word may stand in two blocks.
                    if !self.add(address) && !self.add(address.saturating_add(7)) {
                        return Err(StepError::Missing(address).to_string());
                    }
                }
                found => return found.map_err(|error| error.to_string()),
            }
        }
    }
}
