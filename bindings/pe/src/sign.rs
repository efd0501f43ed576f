//! Images with a certificate, without certificates, or with another checksum, as new files. What is written is the library's.

use crate::facts::headers::checksum_state;
use crate::facts::{Origin, Refusal};
use crate::files::{self, Report};
use crate::new_file::Target;
use crate::streams::complaint;
use crate::Status;
use pe_c::{Error, Image, Mode, Placement};
use serde::Serialize;
use std::borrow::Cow;
use std::path::Path;

/// Bytes of the header of a certificate.
const HEADER: u32 = 8;
/// The tag of a sequence in DER, with which PKCS #7 signed data start. An entry of a table starts with its length, whose first
/// byte may be the same, but then its revision is that of one.
const SEQUENCE: u8 = 0x30;
/// `WIN_CERT_REVISION_2_0` and `WIN_CERT_TYPE_PKCS_SIGNED_DATA`.
const REVISION_AND_TYPE: [u8; 4] = [0, 2, 2, 0];

/// An entry of a certificate table: what is given, or signed data with a header.
fn entry_of(given: &[u8]) -> Cow<'_, [u8]> {
    let is_entry = given.get(4..8) == Some(&REVISION_AND_TYPE);
    match u32::try_from(given.len()).ok().and_then(|it| it.checked_add(HEADER)) {
        Some(length) if given.first() == Some(&SEQUENCE) && !is_entry => {
            [&length.to_le_bytes()[..], &REVISION_AND_TYPE, given].concat().into()
        }
        _ => given.into(),
    }
}

fn deliver(made: Result<Vec<u8>, Error>, of: &Path, to: &Target) -> Report {
    match made {
        Ok(file) => files::deliver_like(Some(of), &file, to, Status::Done),
        Err(error) => Report::refused(of, Refusal::from(error)),
    }
}

/// What starts a file of PEM.
const PEM: &[u8] = b"-----BEGIN ";

/// What is wrong with signatures among the certificates of a file after so many, as far as they are read. An error is that of an entry
/// that is none.
fn wrong_data(file: &[u8], before: usize) -> Result<Option<String>, Error> {
    let mut wrong = None;
    for certificate in Image::parse(file, Mode::Permissive)?.certificates().skip(before) {
        wrong = wrong.or(certificate?.signature().err());
    }
    Ok(wrong.map(|error| format!("it is attached, and is no PKCS #7 signed data: {error}")))
}

pub fn attach(
    path: &Path,
    image: Result<Image<'_>, Error>,
    certificate: &Path,
    placement: Placement,
    to: &Target,
) -> Report {
    let given = match files::whole(certificate) {
        Ok(bytes) => bytes,
        Err(error) => return Report::unread(certificate, error),
    };
    if given.starts_with(PEM) {
        return Report::refused(certificate, "it is PEM, and not DER, which `openssl pkcs7 -outform DER` makes of it");
    }
    let image = match image {
        Ok(image) => image,
        Err(error) => return Report::refused(path, Refusal::from(error)),
    };
    let (has_own, count) = (has_its_certificates(&image), image.certificates().count());
    let before = if placement == Placement::After { count } else { 0 };
    let made = image.attach(&entry_of(&given), placement);
    match made.and_then(|file| wrong_data(&file, before).map(|wrong| (file, wrong))) {
        // What is refused of a certificate is that of the image itself, or the one that is given.
        Err(error) if has_own && is_of_certificate(error, &given) => Report::refused(certificate, Refusal::from(error)),
        Err(error) => Report::refused(path, Refusal::from(error)),
        Ok((file, wrong)) => {
            let made = deliver(Ok(file), path, to);
            let wrong = wrong.filter(|_| made.status == Status::Done);
            let said = wrong.map_or(String::new(), |it| complaint(certificate, it));
            Report { complaints: made.complaints + &said, ..made }
        }
    }
}

/// Whether none of an image's own certificates is refused.
fn has_its_certificates(image: &Image<'_>) -> bool {
    image.certificates().all(|it| it.is_ok())
}

fn is_of_certificate(error: Error, given: &[u8]) -> bool {
    let is_short = error == Error::SHORT && given.len() < HEADER as usize;
    is_short || Refusal::from(error).name.starts_with("CERTIFICATE")
}

pub fn detach(path: &Path, image: Result<Image<'_>, Error>, to: &Target) -> Report {
    let has_none = image.as_ref().is_ok_and(|it| it.certificates().next().is_none());
    let made = deliver(image.and_then(|it| it.detach()), path, to);
    match has_none && made.status == Status::Done {
        true => Report {
            complaints: complaint(path, "it has no certificates: nothing is detached, and the checksum is set"),
            ..made
        },
        false => made,
    }
}

/// The image with the right checksum.
fn fixed(image: &Image<'_>) -> Result<Vec<u8>, Error> {
    let (mut bytes, checksum) = (image.bytes().to_vec(), image.checksum()?);
    let field = usize::try_from(checksum.offset).ok().and_then(|it| bytes.get_mut(it..it + 4)).ok_or(Error::SHORT)?;
    field.copy_from_slice(&checksum.value.to_le_bytes());
    Ok(bytes)
}

/// The image with the right checksum, as a new file.
pub fn fix(path: &Path, image: Result<Image<'_>, Error>, to: &Target) -> Report {
    deliver(image.and_then(|it| fixed(&it)), path, to)
}

/// The checksum of an image and the right one, which are null where it is refused.
#[derive(Debug, Serialize)]
struct Checksum {
    #[serde(flatten)]
    origin: Origin,
    checksum: Option<u32>,
    right_checksum: Option<u32>,
    /// As the headers have it.
    checksum_state: Option<&'static str>,
    error: Option<Refusal>,
}

/// The checksum and the right one, as text or JSON.
pub fn checksum(path: &Path, image: Result<Image<'_>, Error>, is_json: bool) -> Report {
    let found = image.and_then(|it| Ok((it.info().checksum, it.checksum()?.value)));
    let origin = Origin::of(path);
    match found {
        Ok((own, right)) if is_json => {
            let (checksum, right_checksum, checksum_state) = (Some(own), Some(right), Some(checksum_state(own, right)));
            let said = Checksum { origin, checksum, right_checksum, checksum_state, error: None };
            Report::of(crate::json(&said), Status::Done)
        }
        Ok((own, right)) => {
            let state = match checksum_state(own, right) {
                "none" => format!("none, {right:#010x} is right"),
                "right" => format!("{own:#010x}, right"),
                _ => format!("{own:#010x}, wrong: {right:#010x} is right"),
            };
            Report::of(format!("{}: {state}\n", origin.shown_file()), Status::Done)
        }
        Err(error) if is_json => {
            let error = Some(error.into());
            let said = Checksum { origin, checksum: None, right_checksum: None, checksum_state: None, error };
            Report::of(crate::json(&said), Status::Refused)
        }
        Err(error) => Report::refused(path, Refusal::from(error)),
    }
}

#[cfg(test)]
mod tests {
    use super::*;

    #[test]
    fn signed_data_get_a_header() {
        assert_eq!(entry_of(&[0x30, 1, 2]).as_ref(), [11, 0, 0, 0, 0, 2, 2, 0, 0x30, 1, 2]);
        let entry = [0x30, 0, 0, 0, 0, 2, 2, 0, 1];
        assert_eq!(entry_of(&entry).as_ref(), entry);
        assert_eq!(entry_of(&[1]).as_ref(), [1]);
    }
}
