//! Times, and what time stamps say.

use super::error::read;
use super::{of, Algorithm, SignatureError};
use crate::shown::shown;
use crate::sys;
use core::fmt;

/// A time in UTC. Its text is that of [RFC 3339](https://www.rfc-editor.org/rfc/rfc3339): `2026-11-27T01:00:04Z`.
///
/// ```
/// # #[path = "../../tests/made/mod.rs"] mod made;
/// # let bytes = made::signature();
/// use pe_c::Signature;
///
/// let signature = Signature::parse(&bytes)?;
/// let signer = signature.signers().next().expect("it has a signer")?;
/// let stamp = signer.time_stamps().next().expect("it has a time stamp")?.time_stamp()?.expect("it is one");
/// assert_eq!(stamp.time()?.to_string(), "2023-11-14T22:13:20Z");
/// assert_eq!(stamp.time()?.unix(), 1_700_000_000);
/// # Ok::<(), Box<dyn std::error::Error>>(())
/// ```
#[derive(Clone, Copy, Debug, PartialEq, Eq, PartialOrd, Ord, Hash)]
pub struct Time {
    /// 0 to 9999.
    pub year: u32,
    /// 1 to 12.
    pub month: u32,
    /// 1 to 31; a month may have fewer days.
    pub day: u32,
    /// 0 to 23.
    pub hour: u32,
    /// 0 to 59.
    pub minute: u32,
    /// 0 to 59. A fraction of a second is left out: a time stamp may have one; that a certificate and a signing time have none (RFC 5280,
    /// RFC 5652) is not tested.
    pub second: u32,
}

impl Time {
    pub(super) fn at(bytes: &[u8], range: sys::Range) -> Result<Self, SignatureError> {
        let sys::UtcTime { year, month, day, hour, minute, second } = read(bytes, sys::pe_c_time, range)?;
        Ok(Time { year, month, day, hour, minute, second })
    }

    /// Seconds since the start of 1970. A day that its month does not have counts as that of the next month.
    pub fn unix(&self) -> i64 {
        // Years that begin in March, so that the day of a leap year is their last; 719,468 days from the year 0 to 1970.
        let (year, month) = match self.month {
            1 | 2 => (i64::from(self.year) - 1, i64::from(self.month) + 9),
            month => (i64::from(self.year), i64::from(month) - 3),
        };
        let leaps = year.div_euclid(4) - year.div_euclid(100) + year.div_euclid(400);
        let days = 365 * year + leaps + (153 * month + 2) / 5 + i64::from(self.day) - 1 - 719_468;
        86_400 * days + 3600 * i64::from(self.hour) + 60 * i64::from(self.minute) + i64::from(self.second)
    }
}

impl fmt::Display for Time {
    fn fmt(&self, f: &mut fmt::Formatter<'_>) -> fmt::Result {
        let Time { year, month, day, hour, minute, second } = self;
        write!(f, "{year:04}-{month:02}-{day:02}T{hour:02}:{minute:02}:{second:02}Z")
    }
}

/// What a time-stamp token says, `TSTInfo` ([RFC 3161](https://www.rfc-editor.org/rfc/rfc3161), 2.4).
#[derive(Clone, Copy)]
pub struct TimeStamp<'a> {
    bytes: &'a [u8],
    parts: sys::TstInfo,
}

shown! { TimeStamp<'_> { parts; .. } }

impl<'a> TimeStamp<'a> {
    pub(super) fn at(bytes: &'a [u8], range: sys::Range) -> Result<Self, SignatureError> {
        Ok(TimeStamp { bytes, parts: read(bytes, sys::pe_c_time_stamp, range)? })
    }

    /// When it was stamped.
    ///
    /// # Errors
    ///
    /// [`Error::SIGNATURE_BAD_TIME`](crate::Error::SIGNATURE_BAD_TIME).
    pub fn time(&self) -> Result<Time, SignatureError> {
        Time::at(self.bytes, self.parts.time)
    }

    /// The algorithm of the digest.
    pub fn digest_algorithm(&self) -> Algorithm<'a> {
        Algorithm { bytes: self.bytes, parts: self.parts.digest_algorithm }
    }

    /// The digest of what is stamped: of [`Signer::signature`](super::Signer::signature).
    pub fn digest(&self) -> &'a [u8] {
        of(self.parts.digest, self.bytes)
    }

    /// The serial number of the token: two's complement, the high byte first.
    pub fn serial(&self) -> &'a [u8] {
        of(self.parts.serial, self.bytes)
    }

    /// The number by which who asked knows the token. Empty without one.
    pub fn nonce(&self) -> &'a [u8] {
        of(self.parts.nonce, self.bytes)
    }
}
