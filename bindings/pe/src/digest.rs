//! The Authenticode digest of an image: SHA-256 over what the library says that a signature covers.

use crate::facts::hashes::authenticode_of;
use crate::facts::{Origin, Refusal};
use crate::files::Report;
use crate::Status;
use pe_c::{Error, Image};
use serde::Serialize;
use std::path::Path;

/// What is said of a file. Numbers and digest are null where it is refused, or its headers have no room for a signature.
#[derive(Debug, Serialize)]
struct Digest {
    #[serde(flatten)]
    origin: Origin,
    sha256_hex: Option<String>,
    /// What the header says, and what it has to say.
    checksum: Option<u32>,
    right_checksum: Option<u32>,
    error: Option<Refusal>,
}

/// The digest as `sha256sum` shows one, or as JSON. As text a refusal goes to standard error.
pub fn report(path: &Path, image: Result<Image<'_>, Error>, is_json: bool) -> Report {
    let found = image.and_then(|image| Ok((authenticode_of(&image)?, image.info().checksum, image.checksum()?.value)));
    let origin = Origin::of(path);
    match found {
        Ok((digest, ..)) if !is_json => Report::of(format!("{digest}  {}\n", origin.shown_file()), Status::Done),
        Ok((digest, own, right)) => {
            let sha256_hex = Some(digest);
            let said = Digest { origin, sha256_hex, checksum: Some(own), right_checksum: Some(right), error: None };
            Report::of(crate::json(&said), Status::Done)
        }
        Err(error) if is_json => {
            let error = Some(error.into());
            let said = Digest { origin, sha256_hex: None, checksum: None, right_checksum: None, error };
            Report::of(crate::json(&said), Status::Refused)
        }
        Err(error) => Report::refused(path, Refusal::from(error)),
    }
}
