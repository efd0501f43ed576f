//! The attribute certificates, and by whom those that are signatures are. Nothing is verified here: `pe verify` does that.

use super::signatures::{algorithm_of, text_of};
use super::{entry, hex_of, List, Named, Part, Refusal};
use crate::escape::escaped;
use crate::names::CERTIFICATE_TYPES;
use pe_c::{Image, SignatureError, Time};
use serde::Serialize;

#[derive(Clone, Debug, Serialize)]
pub struct Certificate {
    /// With its header of 8 bytes.
    pub size: u32,
    pub revision: u16,
    pub r#type: Named,
    /// Of a signature its first signer. Null where it is refused or has none, and of what is no signature.
    pub signer: Option<CertificateSigner>,
    /// Why the signature or its first signer is refused.
    pub signer_error: Option<Refusal>,
}

impl Certificate {
    /// By whom it is, or why that is refused.
    pub fn said_of_signer(&self) -> Option<String> {
        let refused = || self.signer_error.as_ref().map(|it| format!("refused: {it}"));
        self.signer.as_ref().map(|it| escaped(&it.to_string())).or_else(refused)
    }
}

/// By whom a signature is, as it says.
#[derive(Clone, Debug, Serialize)]
pub struct CertificateSigner {
    /// Of the signer's certificate, as RFC 4514 has it. Null where it is not found in the signature.
    pub subject: Option<String>,
    /// Issuer and serial number of the certificate.
    pub issuer: String,
    pub serial_hex: String,
    pub digest_algorithm: String,
    /// What the first time stamp says, by RFC 3339. Null without one, and where it is refused.
    pub time_stamp: Option<String>,
}

impl std::fmt::Display for CertificateSigner {
    fn fmt(&self, f: &mut std::fmt::Formatter<'_>) -> std::fmt::Result {
        match &self.subject {
            Some(subject) => f.write_str(subject),
            None => write!(f, "number {} of {}", self.serial_hex, self.issuer),
        }
    }
}

entry!(Certificate, "certificates");

/// What the first time stamp of a signer says. A counter-signature comes first.
fn time_stamp_of(signer: &pe_c::Signer<'_>) -> Result<Option<Time>, SignatureError> {
    if let Some(stamp) = signer.counter_signatures().next() {
        return stamp?.signing_time();
    }
    let Some(token) = signer.time_stamps().next() else { return Ok(None) };
    token?.time_stamp()?.map(|it| it.time()).transpose()
}

fn signer_of(certificate: &pe_c::Certificate<'_>) -> Result<Option<CertificateSigner>, SignatureError> {
    let Some(signature) = certificate.signature()? else { return Ok(None) };
    let Some(signer) = signature.signers().next().transpose()? else { return Ok(None) };
    Ok(Some(CertificateSigner {
        subject: signature.certificate_of(&signer).map(|it| text_of(it.subject())),
        issuer: text_of(signer.issuer()),
        serial_hex: hex_of(signer.serial()),
        digest_algorithm: algorithm_of(signer.digest_algorithm().oid()),
        time_stamp: time_stamp_of(&signer).ok().flatten().map(|it| it.to_string()),
    }))
}

pub fn of(image: &Image<'_>) -> Part<List<Certificate>> {
    let certificates = List::of(image.certificates(), |certificate| {
        let (signer, refused) = match signer_of(&certificate) {
            Ok(signer) => (signer, None),
            Err(refused) => (None, Some(refused)),
        };
        Certificate {
            size: certificate.length,
            revision: certificate.revision,
            r#type: Named::of(certificate.kind.into(), CERTIFICATE_TYPES),
            signer,
            signer_error: refused.map(|it| it.error.into()),
        }
    });
    let is_none = certificates.entries.is_empty() && certificates.error.is_none();
    if is_none {
        Part::Absent
    } else {
        Part::Present(certificates)
    }
}
