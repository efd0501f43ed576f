//! Whether a signature is that of a key, and whether a chain of certificates leads to a root. OpenSSL says it (`by_openssl`); in a
//! program that is built without the feature `openssl` nothing is checked, and that is said.

use super::hashing::Hash;
use pe_c::{Algorithm, Time, X509};
use std::path::Path;

#[cfg(feature = "openssl")]
pub use super::by_openssl::{checked_by, is_of_key, Roots};
#[cfg(not(feature = "openssl"))]
pub use without::{checked_by, is_of_key, Roots};

/// Whether a signature is that of a key.
#[derive(Clone, Debug, PartialEq, Eq)]
pub enum Checked {
    Good,
    Wrong,
    /// With why.
    Not(&'static str),
}

impl Checked {
    pub fn text(&self) -> String {
        match self {
            Checked::Good => "good".to_string(),
            Checked::Wrong => "wrong".to_string(),
            Checked::Not(why) => format!("not checked: {why}"),
        }
    }
}

pub const NO_CERTIFICATE: Checked = Checked::Not("its certificate is not found in the signature");
pub const NO_ISSUER: Checked = Checked::Not("that of its issuer is not found in the signature");
pub const NO_ROOTS: Checked = Checked::Not("no roots are given");

/// Whether a chain leads to a root, and where it is wrong why.
#[derive(Clone, Debug)]
pub struct Trust {
    pub checked: Checked,
    pub why: Option<String>,
}

impl From<Checked> for Trust {
    fn from(checked: Checked) -> Trust {
        Trust { checked, why: None }
    }
}

/// When a chain has to be good, and from when on what is revoked counts.
#[cfg_attr(not(feature = "openssl"), allow(dead_code))]
#[derive(Clone, Copy, Debug)]
pub enum When {
    Now,
    /// At the time of a good time stamp: what is revoked after it was good then.
    Stamped(Time),
    /// Of a stamp, at its own time if it says one. By a key that is not to be trusted any more another time can be said.
    OfStamp(Option<Time>),
}

impl When {
    #[cfg_attr(not(feature = "openssl"), allow(dead_code))]
    pub fn time(self) -> Option<Time> {
        match self {
            When::Now => None,
            When::Stamped(time) => Some(time),
            When::OfStamp(time) => time,
        }
    }
}

/// A signature over a message, and how it was made.
#[cfg_attr(not(feature = "openssl"), allow(dead_code))]
#[derive(Clone, Copy)]
pub struct Signing<'a> {
    pub algorithm: Algorithm<'a>,
    /// The digest of the signer, where the algorithm says none.
    pub hash: Option<Hash>,
    pub message: &'a [&'a [u8]],
    pub signature: &'a [u8],
}

/// Whether a certificate is signed by the key of another.
pub fn is_signed_by(certificate: &X509<'_>, issuer: &X509<'_>) -> Checked {
    let (algorithm, message) = (certificate.signature_algorithm(), [certificate.to_be_signed()]);
    is_of_key(*issuer, Signing { algorithm, hash: None, message: &message, signature: certificate.signature() })
}

/// Where systems have the roots that they trust, in PEM: Debian, Fedora, openSUSE, Alpine.
const OF_SYSTEMS: [&str; 4] = [
    "/etc/ssl/certs/ca-certificates.crt",
    "/etc/pki/tls/certs/ca-bundle.crt",
    "/etc/ssl/ca-bundle.pem",
    "/etc/ssl/cert.pem",
];

/// The file of the system's roots: the first that is there.
pub fn roots_of_system() -> &'static Path {
    Path::new(OF_SYSTEMS.into_iter().find(|it| Path::new(it).exists()).unwrap_or(OF_SYSTEMS[0]))
}

#[cfg(not(feature = "openssl"))]
mod without {
    use super::{Checked, Path, Signing, Trust, When, X509};

    /// The program is built without what checks signatures.
    const WITHOUT: Checked = Checked::Not("this program is built without OpenSSL");

    pub struct Roots;

    impl Roots {
        pub fn read(_: &Path) -> Result<Roots, String> {
            Err("roots need a program that is built with the feature openssl".to_string())
        }

        pub fn without(self, _: &Path) -> Result<Roots, String> {
            Ok(self)
        }

        pub fn lead_to(&self, _: X509<'_>, _: &mut dyn Iterator<Item = X509<'_>>, _: When) -> Trust {
            WITHOUT.into()
        }
    }

    pub fn is_of_key(_: X509<'_>, _: Signing<'_>) -> Checked {
        WITHOUT
    }

    pub fn checked_by() -> &'static str {
        "not checked, since this program is built without OpenSSL; pe verify compares digests alone"
    }
}
