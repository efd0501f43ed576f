//! The digests that signatures have, by the algorithms that Authenticode knows. They are worked out by crates of RustCrypto.

use crate::facts::hex_of;
use md5::Md5;
use pe_c::{Algorithm, KnownOid};
use sha1::Sha1;
use sha2::{Digest, Sha256, Sha384, Sha512};
use std::collections::BTreeSet;

/// An algorithm of a digest.
#[derive(Clone, Copy, Debug, PartialEq, Eq, PartialOrd, Ord)]
pub enum Hash {
    Md5,
    Sha1,
    Sha256,
    Sha384,
    Sha512,
}

impl Hash {
    /// The algorithm of an object identifier. `None` of one that is not known here.
    pub fn of(oid: pe_c::Oid<'_>) -> Option<Hash> {
        Some(match oid.known()? {
            KnownOid::MD5 => Hash::Md5,
            KnownOid::SHA1 => Hash::Sha1,
            KnownOid::SHA256 => Hash::Sha256,
            KnownOid::SHA384 => Hash::Sha384,
            KnownOid::SHA512 => Hash::Sha512,
            _ => return None,
        })
    }

    /// The algorithm of the digest that is signed. `None` where the algorithm does not say one.
    pub fn of_signature(algorithm: Algorithm<'_>) -> Option<Hash> {
        Some(match algorithm.oid().known()? {
            KnownOid::RSA_PSS => super::der::pss_of(algorithm)?.hash,
            KnownOid::MD5_RSA => Hash::Md5,
            KnownOid::SHA1_RSA | KnownOid::SHA1_RSA_OIW | KnownOid::ECDSA_SHA1 | KnownOid::DSA_SHA1 => Hash::Sha1,
            KnownOid::SHA256_RSA | KnownOid::ECDSA_SHA256 => Hash::Sha256,
            KnownOid::SHA384_RSA | KnownOid::ECDSA_SHA384 => Hash::Sha384,
            KnownOid::SHA512_RSA | KnownOid::ECDSA_SHA512 => Hash::Sha512,
            _ => return None,
        })
    }

    /// Whether two texts with one digest have been made.
    pub fn is_weak(self) -> bool {
        matches!(self, Hash::Md5 | Hash::Sha1)
    }

    /// Bytes of a digest.
    pub fn size(self) -> usize {
        match self {
            Hash::Md5 => 16,
            Hash::Sha1 => 20,
            Hash::Sha256 => 32,
            Hash::Sha384 => 48,
            Hash::Sha512 => 64,
        }
    }

    pub fn name(self) -> &'static str {
        match self {
            Hash::Md5 => "MD5",
            Hash::Sha1 => "SHA-1",
            Hash::Sha256 => "SHA-256",
            Hash::Sha384 => "SHA-384",
            Hash::Sha512 => "SHA-512",
        }
    }

    /// The digest of these slices, one after the other.
    pub fn digest<'a>(self, slices: impl Iterator<Item = &'a [u8]>) -> Vec<u8> {
        fn worked_out<'a, D: Digest>(slices: impl Iterator<Item = &'a [u8]>) -> Vec<u8> {
            let mut hash = D::new();
            slices.for_each(|slice| hash.update(slice));
            hash.finalize().to_vec()
        }
        match self {
            Hash::Md5 => worked_out::<Md5>(slices),
            Hash::Sha1 => worked_out::<Sha1>(slices),
            Hash::Sha256 => worked_out::<Sha256>(slices),
            Hash::Sha384 => worked_out::<Sha384>(slices),
            Hash::Sha512 => worked_out::<Sha512>(slices),
        }
    }
}

/// The weak algorithms among these, by their names.
pub fn weak_of(hashes: impl Iterator<Item = Option<Hash>>) -> BTreeSet<&'static str> {
    hashes.flatten().filter(|it| it.is_weak()).map(Hash::name).collect()
}

/// The digests of one text, each worked out once: many signers may ask for them.
pub struct Digests<'a> {
    slices: Vec<&'a [u8]>,
    known: Vec<(Hash, Vec<u8>)>,
}

impl<'a> Digests<'a> {
    pub fn of(slices: Vec<&'a [u8]>) -> Digests<'a> {
        Digests { slices, known: Vec::new() }
    }

    pub fn get(&mut self, hash: Hash) -> &[u8] {
        let at = match self.known.iter().position(|(it, _)| *it == hash) {
            Some(at) => at,
            None => {
                self.known.push((hash, hash.digest(self.slices.iter().copied())));
                self.known.len() - 1
            }
        };
        &self.known[at].1
    }

    /// How a digest compares with what a signature says of it.
    pub fn compared(&mut self, algorithm: pe_c::Oid<'_>, said: &[u8]) -> Compared {
        match Hash::of(algorithm) {
            None => Compared::Unknown,
            Some(hash) if self.get(hash) == said => Compared::Equal,
            Some(hash) => Compared::Different { worked_out_hex: hex_of(self.get(hash)) },
        }
    }
}

/// How a digest compares with what a signature says of it.
#[derive(Clone, Debug, PartialEq, Eq)]
pub enum Compared {
    Equal,
    Different {
        worked_out_hex: String,
    },
    /// The signature does not say it.
    Absent,
    /// By an algorithm that is not known here.
    Unknown,
}

impl Compared {
    pub fn word(&self) -> &'static str {
        match self {
            Compared::Equal => "equal",
            Compared::Different { .. } => "different",
            Compared::Absent => "absent",
            Compared::Unknown => "not compared",
        }
    }
}

#[cfg(test)]
mod tests {
    use super::*;

    /// Of `abc`, as RFC 1321 and FIPS 180 have them.
    #[test]
    fn digests_are_those_of_their_standards() {
        let first = |hash: Hash| hex_of(&hash.digest([&b"a"[..], b"bc"].into_iter()))[..16].to_string();
        let hashes = [Hash::Md5, Hash::Sha1, Hash::Sha256, Hash::Sha384, Hash::Sha512].map(first);
        let wanted =
            ["900150983cd24fb0", "a9993e364706816a", "ba7816bf8f01cfea", "cb00753f45a35e8b", "ddaf35a193617aba"];
        assert_eq!(hashes, wanted);
    }
}
