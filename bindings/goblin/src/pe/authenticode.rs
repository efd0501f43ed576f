//! What an Authenticode digest covers: the file but for the checksum, the entry of the certificate table and that table.
//! <https://learn.microsoft.com/windows/win32/debug/pe-format#process-for-generating-the-authenticode-pe-image-hash>

use crate::raw;
use core::iter::FusedIterator;
use pe_c::sys::Digest;

/// The parts of the file that a digest covers, in their order, and at the end zeros up to a multiple of eight.
#[derive(Debug, Clone)]
pub struct ExcludedSectionsIter<'s> {
    bytes: &'s [u8],
    digest: Digest,
    next: usize,
}

const ZEROS: [u8; 8] = [0; 8];

impl<'s> ExcludedSectionsIter<'s> {
    pub(crate) fn new(bytes: &'s [u8], digest: Option<Digest>) -> Self {
        ExcludedSectionsIter { bytes, digest: digest.unwrap_or_default(), next: 0 }
    }
}

impl<'s> Iterator for ExcludedSectionsIter<'s> {
    type Item = &'s [u8];

    fn next(&mut self) -> Option<&'s [u8]> {
        while let Some(range) = self.digest.ranges.get(self.next) {
            self.next += 1;
            match raw::slice(self.bytes, *range) {
                Ok(part) if !part.is_empty() => return Some(part),
                _ => continue,
            }
        }
        let zeros = core::mem::take(&mut self.digest.zeros);
        ZEROS.get(..usize::try_from(zeros).ok()?).filter(|it| !it.is_empty())
    }
}

impl FusedIterator for ExcludedSectionsIter<'_> {}
