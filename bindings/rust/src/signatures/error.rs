//! Why a part of a signature is refused, and how the calls of signatures are made.

use crate::image::Error;
use crate::sys;
use core::fmt;

/// Why an element of a signature is refused, and where. Signatures are written by DER, as elements of a tag, a length and a content,
/// in each other; a call reads the elements that its type has, and refuses the first that is not as the grammar has it.
///
/// ```
/// use pe_c::{Error, Signature};
///
/// // A SET, where a signature starts with a SEQUENCE.
/// let refused = Signature::parse(&[0x31, 0]).unwrap_err();
/// assert_eq!((refused.error, refused.offset), (Error::SIGNATURE_TAG, 0));
/// assert_eq!((refused.value, refused.expected), (0x31, 0x30));
/// ```
#[derive(Clone, Copy, Debug, PartialEq, Eq)]
pub struct SignatureError {
    /// What is wrong: one of the constants of [`Error`] that start with `SIGNATURE_`.
    pub error: Error,
    /// Of the element, from the start of the bytes of the signature.
    pub offset: u64,
    /// The tag that is there, of [`Error::SIGNATURE_TAG`]; how many octets a length has after its first, of
    /// [`Error::SIGNATURE_LENGTH_OCTETS`]; the length of the content, of [`Error::SIGNATURE_PAST_PARENT`]; else 0.
    pub value: u64,
    /// How many bytes the parent has left, of [`Error::SIGNATURE_TRUNCATED`] and [`Error::SIGNATURE_PAST_PARENT`], or follow the last
    /// field, of [`Error::SIGNATURE_TRAILING`]; else 0.
    pub left: u64,
    /// The tag that the grammar has there, of [`Error::SIGNATURE_TAG`]; else 0.
    pub expected: u32,
}

impl SignatureError {
    fn new(failure: sys::SignatureFailure) -> Self {
        let sys::SignatureFailure { offset, value, left, expected, result } = failure;
        SignatureError { error: Error::with_number(result), offset, value, left, expected }
    }
}

impl fmt::Display for SignatureError {
    fn fmt(&self, f: &mut fmt::Formatter<'_>) -> fmt::Result {
        let SignatureError { error, offset, value, left, expected } = self;
        write!(f, "{error} at offset {offset:#x}")?;
        match *error {
            Error::SIGNATURE_TAG => write!(f, ": tag {value:#04x}, not {expected:#04x}"),
            Error::SIGNATURE_LENGTH_OCTETS => write!(f, ": {value} octet{}", plural(*value)),
            Error::SIGNATURE_PAST_PARENT => write!(f, ": content of {value} byte{}, {left} left", plural(*value)),
            Error::SIGNATURE_TRUNCATED => write!(f, ": {left} byte{} left", plural(*left)),
            Error::SIGNATURE_TRAILING => write!(f, ": {left} byte{}", plural(*left)),
            _ => Ok(()),
        }
    }
}

/// The end of a noun after a number.
fn plural(count: u64) -> &'static str {
    if count == 1 {
        ""
    } else {
        "s"
    }
}

impl core::error::Error for SignatureError {}

/// Returns [`Error::SIGNATURE_TAG`] unless an element has this tag.
pub(crate) fn require_tag(element: &sys::DerElement, tag: u32) -> Result<(), SignatureError> {
    if element.tag == tag {
        return Ok(());
    }
    let (offset, value) = (element.whole.offset, element.tag.into());
    Err(SignatureError { error: Error::SIGNATURE_TAG, offset, value, left: 0, expected: tag })
}

/// A call that takes the bytes and a range, or a walk, and returns a record or a failure.
type Call<R, T> = unsafe extern "C" fn(*const u8, usize, R, *mut sys::SignatureFailure, *mut T) -> u32;

fn returned<T>(number: u32, failure: sys::SignatureFailure, out: T) -> Result<Option<T>, SignatureError> {
    match number {
        sys::DONE => Ok(Some(out)),
        sys::NOTHING => Ok(None),
        _ => Err(SignatureError::new(failure)),
    }
}

/// What a call reads at a range, if there is something of the kind.
pub(crate) fn look<T: Default>(
    bytes: &[u8],
    call: Call<*const sys::Range, T>,
    range: sys::Range,
) -> Result<Option<T>, SignatureError> {
    let (mut failure, mut out) = (sys::SignatureFailure::default(), T::default());
    // SAFETY: the call is one of the declarations of `sys`. The pointer and the length are those of one slice; the range, the
    // failure and `out` are lent for the call, and none overlaps another.
    let number = unsafe { call(bytes.as_ptr(), bytes.len(), &range, &mut failure, &mut out) };
    returned(number, failure, out)
}

/// The same of a call that never returns that there is nothing.
pub(crate) fn read<T: Default>(
    bytes: &[u8],
    call: Call<*const sys::Range, T>,
    range: sys::Range,
) -> Result<T, SignatureError> {
    Ok(look(bytes, call, range)?.unwrap_or_default())
}

/// The next attribute of a signer in a walk whose type has this number.
pub(crate) fn find_attribute(
    bytes: &[u8],
    walk: &mut sys::Range,
    id: u32,
) -> Result<Option<sys::SignerAttribute>, SignatureError> {
    let (mut failure, mut out) = (sys::SignatureFailure::default(), sys::SignerAttribute::default());
    // SAFETY: as in `look`.
    let number = unsafe { sys::pe_c_find_attribute(bytes.as_ptr(), bytes.len(), walk, id, &mut failure, &mut out) };
    returned(number, failure, out)
}

/// The next item of a walk.
pub(crate) fn step<W, T: Default>(
    bytes: &[u8],
    call: Call<*mut W, T>,
    walk: &mut W,
) -> Result<Option<T>, SignatureError> {
    let (mut failure, mut out) = (sys::SignatureFailure::default(), T::default());
    // SAFETY: as in `look`.
    let number = unsafe { call(bytes.as_ptr(), bytes.len(), walk, &mut failure, &mut out) };
    returned(number, failure, out)
}
