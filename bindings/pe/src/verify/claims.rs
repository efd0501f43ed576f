//! What a signer or its certificate says that has to fit what is signed: the type of the content, and what the key is for. No key is
//! needed to compare it.

use super::checked::{Checked, NO_CERTIFICATE};
use pe_c::{Oid, SignatureError, Time, X509};
use std::time::{SystemTime, UNIX_EPOCH};

/// What a key has to be for.
pub struct Purpose {
    /// The octets of its object identifier.
    octets: &'static [u8],
    /// Whether a key is for it whose certificate does not say what it is for.
    is_usual: bool,
}

/// 1.3.6.1.5.5.7.3.3 ([RFC 5280](https://www.rfc-editor.org/rfc/rfc5280), 4.2.1.12).
pub const CODE_SIGNING: Purpose = Purpose { octets: &[0x2B, 6, 1, 5, 5, 7, 3, 3], is_usual: true };
/// 1.3.6.1.5.5.7.3.8, which the certificate has to say ([RFC 3161](https://www.rfc-editor.org/rfc/rfc3161), 2.3).
pub const TIME_STAMPING: Purpose = Purpose { octets: &[0x2B, 6, 1, 5, 5, 7, 3, 8], is_usual: false };

const NOT_SAID: Checked = Checked::Not("the signer does not say it");
const REFUSED: Checked = Checked::Not("its extensions are refused");

/// Whether a certificate's key is for a purpose.
pub fn key_purpose(certificate: Option<X509<'_>>, purpose: &Purpose) -> Checked {
    let Some(certificate) = certificate else { return NO_CERTIFICATE };
    is_for(&certificate, purpose).map_or(REFUSED, checked)
}

fn is_for(certificate: &X509<'_>, purpose: &Purpose) -> Result<bool, SignatureError> {
    let Some(mut purposes) = certificate.key_purposes()? else { return Ok(purpose.is_usual) };
    // One that is refused counts only before the one that is looked for.
    let found = purposes.find(|it| it.as_ref().map_or(true, |it| it.octets() == purpose.octets));
    Ok(found.transpose()?.is_some())
}

/// `digitalSignature` and `contentCommitment` of the extension `keyUsage`.
const MAY_SIGN: u32 = 0x80 | 0x40;

/// A warning where the usage of a certificate's key does not have signatures
/// ([RFC 5280](https://www.rfc-editor.org/rfc/rfc5280), 4.2.1.3).
pub fn usage_warning(certificate: Option<X509<'_>>) -> Option<&'static str> {
    let usage = certificate?.key_usage().ok()??;
    (usage & MAY_SIGN == 0).then_some("the usage of its key (keyUsage) does not have signatures")
}

/// What is warned of at a time stamp: the usage of its key, and a time that has not come.
pub fn stamp_warnings(certificate: Option<X509<'_>>, time: Option<Time>) -> Vec<&'static str> {
    let now = SystemTime::now().duration_since(UNIX_EPOCH).map_or(0, |it| it.as_secs());
    let is_future = time.is_some_and(|it| it.unix() > i64::try_from(now).unwrap_or(i64::MAX));
    let warning = is_future.then_some("its time is in the future");
    usage_warning(certificate).into_iter().chain(warning).collect()
}

/// Whether a signer says the type that what is signed has ([RFC 5652](https://www.rfc-editor.org/rfc/rfc5652), 11.1).
pub fn content_type(said: Option<Oid<'_>>, content: Oid<'_>) -> Checked {
    said.map_or(NOT_SAID, |it| checked(it == content))
}

fn checked(is_good: bool) -> Checked {
    match is_good {
        true => Checked::Good,
        false => Checked::Wrong,
    }
}
