//! Object identifiers, by which signatures name kinds and algorithms.

use super::error::require_tag;
use super::{of, SignatureError};
use crate::shown;
use crate::sys;
use core::fmt;

/// The tag of an object identifier.
const OBJECT_IDENTIFIER: u32 = 6;

macro_rules! object_ids {
    ($($(#[$doc:meta])* $name:ident = $number:literal,)*) => {
        impl KnownOid {
            $($(#[$doc])* pub const $name: KnownOid = KnownOid($number);)*

            /// The name of the constant.
            pub const fn name(self) -> &'static str {
                match self.0 {
                    $($number => stringify!($name),)*
                    _ => "unknown",
                }
            }

            /// All of them, in the order of their numbers.
            pub const ALL: &'static [KnownOid] = &[$(KnownOid($number),)*];
        }
    };
}

/// An object identifier that this library knows.
///
/// ```
/// # #[path = "../../tests/made/mod.rs"] mod made;
/// # let bytes = made::signature();
/// use pe_c::{KnownOid, Signature};
///
/// let signature = Signature::parse(&bytes)?;
/// let signed = signature.content_type();
/// assert_eq!(signed, KnownOid::SPC_INDIRECT_DATA);
/// assert_eq!((signed.to_string().as_str(), KnownOid::SPC_INDIRECT_DATA.name()), ("1.3.6.1.4.1.311.2.1.4", "SPC_INDIRECT_DATA"));
/// # Ok::<(), Box<dyn std::error::Error>>(())
/// ```
#[derive(Clone, Copy, Debug, PartialEq, Eq, PartialOrd, Ord, Hash)]
pub struct KnownOid(u32);

impl KnownOid {
    /// The number of the constant `PE_C_OID_` of `pe.h`.
    pub const fn number(self) -> u32 {
        self.0
    }
}

// Written by tools/make_object_ids.
object_ids! {
    /// 1.2.840.113549.1.7.1. Id-data.
    DATA = 1,
    /// 1.2.840.113549.1.7.2. Id-signedData: the content of a signature.
    SIGNED_DATA = 2,
    /// 1.2.840.113549.1.9.16.1.4. Id-ct-TSTInfo: what a time-stamp token signs.
    TST_INFO = 3,
    /// 1.3.6.1.4.1.311.2.1.4. SPC_INDIRECT_DATA_OBJID: what Authenticode signs.
    SPC_INDIRECT_DATA = 4,
    /// 1.3.6.1.4.1.311.2.1.15. SPC_PE_IMAGE_DATA_OBJID: of an image.
    SPC_PE_IMAGE_DATA = 5,
    /// 1.3.6.1.4.1.311.2.1.30. SPC_SIPINFO_OBJID: of a script or a package.
    SPC_SIP_INFO = 6,
    /// 1.3.6.1.4.1.311.2.1.25. SPC_CAB_DATA_OBJID: of a cabinet.
    SPC_CAB_DATA = 7,
    /// 1.3.6.1.4.1.311.10.1. SzOID_CTL: of a catalog.
    CTL = 8,
    /// 1.2.840.113549.1.9.3. ContentType: the type of what is signed.
    CONTENT_TYPE = 101,
    /// 1.2.840.113549.1.9.4. MessageDigest: the digest of what is signed.
    MESSAGE_DIGEST = 102,
    /// 1.2.840.113549.1.9.5. SigningTime.
    SIGNING_TIME = 103,
    /// 1.2.840.113549.1.9.6. Countersignature: a signer again.
    COUNTER_SIGNATURE = 104,
    /// 1.2.840.113549.1.9.16.2.12. Id-aa-signingCertificate.
    SIGNING_CERTIFICATE = 105,
    /// 1.2.840.113549.1.9.16.2.14. Id-aa-timeStampToken: a time-stamp token (RFC 3161).
    AA_TIME_STAMP_TOKEN = 106,
    /// 1.2.840.113549.1.9.16.2.47. Id-aa-signingCertificateV2.
    SIGNING_CERTIFICATE_V2 = 107,
    /// 1.3.6.1.4.1.311.2.1.11. SPC_STATEMENT_TYPE_OBJID.
    SPC_STATEMENT_TYPE = 108,
    /// 1.3.6.1.4.1.311.2.1.12. SPC_SP_OPUS_INFO_OBJID: of the program.
    SPC_SP_OPUS_INFO = 109,
    /// 1.3.6.1.4.1.311.2.4.1. SzOID_NESTED_SIGNATURE: more signatures of the image.
    NESTED_SIGNATURE = 110,
    /// 1.3.6.1.4.1.311.3.3.1. SzOID_RFC3161_counterSign: a time-stamp token (RFC 3161).
    TIME_STAMP_TOKEN = 111,
    /// 1.2.840.113549.2.5.
    MD5 = 201,
    /// 1.3.14.3.2.26.
    SHA1 = 202,
    /// 2.16.840.1.101.3.4.2.1.
    SHA256 = 203,
    /// 2.16.840.1.101.3.4.2.2.
    SHA384 = 204,
    /// 2.16.840.1.101.3.4.2.3.
    SHA512 = 205,
    /// 1.2.840.113549.1.1.1. A key; of a signature PKCS #1 v1.5.
    RSA = 206,
    /// 1.2.840.113549.1.1.4. PKCS #1 v1.5, as the next four.
    MD5_RSA = 207,
    /// 1.2.840.113549.1.1.5.
    SHA1_RSA = 208,
    /// 1.2.840.113549.1.1.11.
    SHA256_RSA = 209,
    /// 1.2.840.113549.1.1.12.
    SHA384_RSA = 210,
    /// 1.2.840.113549.1.1.13.
    SHA512_RSA = 211,
    /// 1.2.840.113549.1.1.10. With its digest among the parameters.
    RSA_PSS = 212,
    /// 1.2.840.10045.2.1. A key, with its curve as the parameters.
    EC = 213,
    /// 1.2.840.10045.4.1.
    ECDSA_SHA1 = 214,
    /// 1.2.840.10045.4.3.2.
    ECDSA_SHA256 = 215,
    /// 1.2.840.10045.4.3.3.
    ECDSA_SHA384 = 216,
    /// 1.2.840.10045.4.3.4.
    ECDSA_SHA512 = 217,
    /// 1.2.840.10040.4.1. A key.
    DSA = 218,
    /// 1.2.840.10040.4.3.
    DSA_SHA1 = 219,
    /// 1.3.14.3.2.29. The older identifier of SHA1_RSA, sha1WithRSA of the OIW.
    SHA1_RSA_OIW = 220,
    /// 1.2.840.113549.1.1.2. PKCS #1 v1.5.
    MD2_RSA = 221,
    /// 2.5.4.3. CN.
    COMMON_NAME = 301,
    /// 2.5.4.5.
    SERIAL_NUMBER = 302,
    /// 2.5.4.6. C.
    COUNTRY = 303,
    /// 2.5.4.7. L.
    LOCALITY = 304,
    /// 2.5.4.8. ST.
    STATE = 305,
    /// 2.5.4.9. STREET.
    STREET = 306,
    /// 2.5.4.10. O.
    ORGANIZATION = 307,
    /// 2.5.4.11. OU.
    ORGANIZATIONAL_UNIT = 308,
    /// 2.5.4.15.
    BUSINESS_CATEGORY = 309,
    /// 2.5.4.17.
    POSTAL_CODE = 310,
    /// 0.9.2342.19200300.100.1.25. DC.
    DOMAIN_COMPONENT = 311,
    /// 0.9.2342.19200300.100.1.1. UID.
    USER_ID = 312,
    /// 1.2.840.113549.1.9.1.
    EMAIL_ADDRESS = 313,
    /// 1.3.6.1.4.1.311.60.2.1.3.
    JURISDICTION_COUNTRY = 314,
    /// 1.3.6.1.4.1.311.60.2.1.2.
    JURISDICTION_STATE = 315,
    /// 1.3.6.1.4.1.311.60.2.1.1.
    JURISDICTION_LOCALITY = 316,
    /// 2.5.29.14.
    SUBJECT_KEY_IDENTIFIER = 401,
    /// 2.5.29.15. What the key is for.
    KEY_USAGE = 402,
    /// 2.5.29.17.
    SUBJECT_ALT_NAME = 403,
    /// 2.5.29.19. Whether it is a certificate of an authority.
    BASIC_CONSTRAINTS = 404,
    /// 2.5.29.32.
    CERTIFICATE_POLICIES = 405,
    /// 2.5.29.35.
    AUTHORITY_KEY_IDENTIFIER = 406,
    /// 2.5.29.37. What the key is for, by object identifiers.
    EXTENDED_KEY_USAGE = 407,
    /// 2.5.29.31.
    CRL_DISTRIBUTION_POINTS = 408,
    /// 1.3.6.1.5.5.7.1.1.
    AUTHORITY_INFORMATION_ACCESS = 409,
}

/// An object identifier.
#[derive(Clone, Copy)]
pub struct Oid<'a> {
    octets: &'a [u8],
    known: u32,
}

impl<'a> Oid<'a> {
    pub(super) fn new(bytes: &'a [u8], oid: sys::Oid) -> Self {
        Oid { octets: of(oid.octets, bytes), known: oid.id }
    }

    /// The one that an element is. It is none of those that are known: that depends on where it stands.
    pub(super) fn of_element(bytes: &'a [u8], element: &sys::DerElement) -> Result<Self, SignatureError> {
        require_tag(element, OBJECT_IDENTIFIER)?;
        Ok(Oid { octets: of(element.content, bytes), known: 0 })
    }

    /// Its octets: the content of its element.
    pub fn octets(&self) -> &'a [u8] {
        self.octets
    }

    /// Which one it is, if it is known and of those that may stand where it stands.
    pub fn known(&self) -> Option<KnownOid> {
        (self.known != 0).then_some(KnownOid(self.known))
    }

    /// The numbers that it has, but for the first, which stands for two; `None` where the octets end before the number does, or the
    /// number has more than 64 bits.
    fn arcs(&self) -> impl Iterator<Item = Option<u64>> + 'a {
        self.octets.split_inclusive(|octet| *octet < 0x80).map(|group| {
            let value =
                group.iter().try_fold(0u64, |sum, octet| Some(sum.checked_mul(128)? + u64::from(octet % 128)))?;
            group.last().is_some_and(|last| *last < 0x80).then_some(value)
        })
    }
}

impl PartialEq for Oid<'_> {
    fn eq(&self, other: &Self) -> bool {
        self.octets == other.octets
    }
}

impl Eq for Oid<'_> {}

impl PartialEq<KnownOid> for Oid<'_> {
    fn eq(&self, other: &KnownOid) -> bool {
        self.known == other.0
    }
}

/// Its numbers with dots, such as `2.5.4.3`; `?` stands for one that is truncated or has more than 64 bits.
impl fmt::Display for Oid<'_> {
    fn fmt(&self, f: &mut fmt::Formatter<'_>) -> fmt::Result {
        for (i, arc) in self.arcs().enumerate() {
            match (i, arc) {
                (0, Some(arc)) => {
                    let first = (arc / 40).min(2);
                    write!(f, "{first}.{}", arc - 40 * first)?;
                }
                (0, None) => f.write_str("?")?,
                (_, Some(arc)) => write!(f, ".{arc}")?,
                (_, None) => f.write_str(".?")?,
            }
        }
        Ok(())
    }
}

impl fmt::Debug for Oid<'_> {
    fn fmt(&self, f: &mut fmt::Formatter<'_>) -> fmt::Result {
        f.debug_tuple("Oid").field(&shown::Written(self)).finish()
    }
}
