/// What goblin's files ask of its module `options`, for tools/try_goblin --compare.
pub trait Permissive<T, E> {
    fn or_permissive_and_default(self, is_permissive: bool, text: &str) -> Result<T, E>
    where
        T: Default;
    fn or_permissive_and_value(self, is_permissive: bool, text: &str, value: T) -> Result<T, E>;
}

impl<T, E> Permissive<T, E> for Result<T, E> {
    fn or_permissive_and_default(self, is_permissive: bool, text: &str) -> Result<T, E>
    where
        T: Default,
    {
        self.or_permissive_and_value(is_permissive, text, T::default())
    }

    fn or_permissive_and_value(self, is_permissive: bool, _: &str, value: T) -> Result<T, E> {
        match self {
            Err(_) if is_permissive => Ok(value),
            found => found,
        }
    }
}

/// What goblin's files ask of its module `pe/authenticode`, for tools/try_goblin --compare.
#[derive(Debug)]
pub struct ExcludedSections;

impl ExcludedSections {
    pub fn new(_: core::ops::Range<usize>, _: core::ops::Range<usize>, _: usize, _: usize) -> Self {
        ExcludedSections
    }
}

/// What goblin's files ask of its module `pe/utils`, for tools/try_goblin --compare.
pub fn pad(length: usize, alignment: Option<usize>) -> Option<Vec<u8>> {
    let zeros = padding(length, alignment?);
    (zeros > 0).then(|| vec![0; zeros])
}

pub fn align_up(length: usize, alignment: usize) -> usize {
    length.next_multiple_of(alignment)
}
