//! A signer, and what of it fits: the digest of what is signed, the signature, the chain of its certificates, its time stamps.

use super::checked::{self, Checked, Roots, Signing, Trust, When, NO_CERTIFICATE, NO_ISSUER, NO_ROOTS};
use super::claims::{self, CODE_SIGNING, TIME_STAMPING};
use super::hashing::{weak_of, Compared, Digests, Hash};
use super::or_refused;
use crate::facts::hex_of;
use crate::facts::signatures::{algorithm_of, is_self_issued, text_of, Certificate, Certificates, SignatureRefusal};
use pe_c::{Oid, Signature, SignatureError, Signer, Time, X509};
use serde::Serialize;
use std::collections::BTreeSet;

/// How many time stamps of a signer are told. Signers have one.
const STAMPS: usize = 4;
/// How many characters of a program's name and URL are told.
const CHARACTERS: usize = 1024;

/// What is said of a signer.
#[derive(Clone, Debug, Serialize)]
pub struct Told {
    /// Null where it is not found in the signature.
    pub certificate: Option<Certificate>,
    pub issuer: String,
    pub serial_hex: String,
    pub program_name: Option<String>,
    pub program_url: Option<String>,
    /// When the signer says to have signed, by RFC 3339.
    pub signing_time: Option<String>,
    pub digest_algorithm: String,
    /// Of what is signed, as the signer has it.
    pub message_digest: Compared,
    /// Whether the signer says the type that what is signed has.
    pub content_type: Checked,
    pub signature_algorithm: String,
    pub signature: Checked,
    /// Whether the certificate's key is for code signing.
    pub key_purpose: Checked,
    /// The subjects of the certificates from that of the signer on.
    pub chain: Vec<String>,
    /// Whether the last of them is by its own word.
    pub is_chain_whole: bool,
    /// Whether each certificate is signed by the next.
    pub chain_signatures: Checked,
    /// Whether the chain leads to one of the roots that were given, and where it does not why.
    pub trust: Checked,
    pub trust_error: Option<String>,
    /// What is wrong with it and does not count.
    pub warnings: Vec<&'static str>,
    pub time_stamps: Vec<Stamp>,
    /// Whether there are more time stamps.
    #[serde(skip)]
    pub is_limited: bool,
    /// Those of the signer, its chain and its time stamps.
    #[serde(skip)]
    pub weak_algorithms: BTreeSet<&'static str>,
    pub error: Option<SignatureRefusal>,
}

/// What is said of a time stamp.
#[derive(Clone, Debug, Serialize)]
pub struct Stamp {
    /// `RFC 3161` or `PKCS #9`.
    pub kind: &'static str,
    pub time: Option<String>,
    /// By whom.
    pub subject: Option<String>,
    /// Of the signature that is stamped.
    pub digest: Compared,
    /// Of what the stamp signs.
    pub message_digest: Compared,
    /// Whether the stamp says the type that what it signs has. Null of a counter-signature, which says none, and of one
    /// that is refused.
    pub content_type: Option<Checked>,
    pub signature: Checked,
    /// Whether the certificate's key is for time stamps.
    pub key_purpose: Checked,
    /// Whether the chain of its certificate leads to one of the roots that were given, at the time of the stamp, and where it does not
    /// why.
    pub trust: Checked,
    pub trust_error: Option<String>,
    /// What is wrong with it and does not count.
    pub warnings: Vec<&'static str>,
    pub error: Option<SignatureRefusal>,
    #[serde(skip)]
    stamped: Option<Time>,
    #[serde(skip)]
    weak_algorithms: BTreeSet<&'static str>,
}

impl Stamp {
    /// When it was stamped, where all of the stamp fits.
    fn good_time(&self) -> Option<Time> {
        let digests = [&self.digest, &self.message_digest];
        let checks = [&self.signature, &self.trust, &self.key_purpose];
        let is_good = checks.into_iter().chain(&self.content_type).all(|it| *it == Checked::Good)
            && digests.iter().all(|it| **it == Compared::Equal);
        self.stamped.filter(|_| is_good && self.error.is_none())
    }
}

/// A signature as its signers are compared with it.
pub struct Signed<'a> {
    certificates: Certificates<'a>,
    content: Digests<'a>,
    content_type: Oid<'a>,
    digested: Option<&'a [u8]>,
}

impl<'a> Signed<'a> {
    pub fn of(signature: &Signature<'a>) -> Signed<'a> {
        let digested = signature.digested();
        let content = Digests::of(digested.into_iter().collect());
        Signed { certificates: Certificates::of(signature), content, content_type: signature.content_type(), digested }
    }

    /// The digest of what is signed, as a signer of it has it.
    fn message_digest(&mut self, signer: &Signer<'_>, error: &mut Option<SignatureRefusal>) -> Compared {
        match (or_refused(signer.message_digest(), error), self.digested) {
            (Some(said), Some(_)) => self.content.compared(signer.digest_algorithm().oid(), said),
            _ => Compared::Absent,
        }
    }

    /// A certificate, and after it those of its issuers, as far as they are here.
    fn chain(&self, certificate: Option<X509<'a>>) -> Vec<X509<'a>> {
        let is_signed_by = |it: &X509<'a>, by: &X509<'a>| checked::is_signed_by(it, by) == Checked::Good;
        certificate.map(|it| self.certificates.chain(it, &is_signed_by)).unwrap_or_default()
    }

    /// Whether the signature of a signer is by the key of its certificate.
    fn signature(&self, signer: &Signer<'_>, certificate: Option<X509<'_>>) -> Checked {
        let Some(certificate) = certificate else { return NO_CERTIFICATE };
        let (algorithm, hash) = (signer.signature_algorithm(), Hash::of(signer.digest_algorithm().oid()));
        let check = |message: &[&[u8]]| {
            checked::is_of_key(certificate, Signing { algorithm, hash, message, signature: signer.signature() })
        };
        match (signer.signed_bytes(), self.digested) {
            (Some((first, rest)), _) => check(&[&[first], rest]),
            (None, Some(content)) => check(&[content]),
            (None, None) => Checked::Not("what is signed is not in the file"),
        }
    }

    /// What a signer says, and what of it fits.
    pub fn tell(&mut self, signer: &Signer<'a>, roots: Option<&Roots>) -> Told {
        let mut error = None;
        let certificate = self.certificates.of_signer(signer);
        let chain = self.chain(certificate);
        let opus = or_refused(signer.opus_info(), &mut error);
        let message_digest = self.message_digest(signer, &mut error);
        let mut stamps = self.time_stamps(signer, roots);
        let time_stamps: Vec<Stamp> = stamps.by_ref().take(STAMPS).collect();
        let is_limited = stamps.next().is_some();
        let time = time_stamps.iter().find_map(Stamp::good_time);
        let trust = trust(&chain, &mut self.certificates.all(), roots, time.map_or(When::Now, When::Stamped));
        Told {
            certificate: certificate.as_ref().map(Certificate::of),
            issuer: text_of(signer.issuer()),
            serial_hex: hex_of(signer.serial()),
            program_name: opus.as_ref().and_then(|it| it.program_name()).map(shortened),
            program_url: opus.as_ref().and_then(|it| it.url()).map(shortened),
            signing_time: or_refused(signer.signing_time(), &mut error).map(|it| it.to_string()),
            digest_algorithm: algorithm_of(signer.digest_algorithm().oid()),
            message_digest,
            content_type: claims::content_type(or_refused(signer.content_type(), &mut error), self.content_type),
            signature_algorithm: algorithm_of(signer.signature_algorithm().oid()),
            signature: self.signature(signer, certificate),
            key_purpose: claims::key_purpose(certificate, &CODE_SIGNING),
            is_chain_whole: chain.last().is_some_and(is_self_issued),
            chain_signatures: signatures_of(&chain),
            trust: trust.checked,
            trust_error: trust.why,
            warnings: claims::usage_warning(certificate).into_iter().collect(),
            weak_algorithms: weak_algorithms(signer, &chain, &time_stamps),
            chain: chain.iter().map(|it| text_of(it.subject())).collect(),
            time_stamps,
            is_limited,
            error,
        }
    }

    /// The time stamps of a signer, of both kinds.
    fn time_stamps<'s>(&'s self, signer: &Signer<'a>, roots: Option<&'s Roots>) -> impl Iterator<Item = Stamp> + 's {
        let stamped = signer.signature();
        let older = signer.counter_signatures().map(move |it| self.counter_signature(it, stamped, roots));
        let newer = signer.time_stamps().map(move |it| self.time_stamp(it, stamped, roots));
        older.chain(newer)
    }

    /// A counter-signature signs the signature that it stamps.
    fn counter_signature(
        &self,
        stamp: Result<Signer<'a>, SignatureError>,
        stamped: &[u8],
        roots: Option<&Roots>,
    ) -> Stamp {
        let stamp = match stamp {
            Ok(stamp) => stamp,
            Err(refused) => return refused_stamp("PKCS #9", refused),
        };
        let mut error = None;
        let certificate = self.certificates.of_signer(&stamp);
        let time = or_refused(stamp.signing_time(), &mut error);
        let said = or_refused(stamp.message_digest(), &mut error);
        let algorithm = stamp.digest_algorithm().oid();
        let digest = said.map_or(Compared::Absent, |said| Digests::of(vec![stamped]).compared(algorithm, said));
        let trust = trust(&self.chain(certificate), &mut self.certificates.all(), roots, When::OfStamp(time));
        Stamp {
            kind: "PKCS #9",
            time: time.map(|it| it.to_string()),
            subject: certificate.map(|it| text_of(it.subject())),
            message_digest: digest.clone(),
            digest,
            content_type: None,
            signature: self.signature(&stamp, certificate),
            key_purpose: claims::key_purpose(certificate, &TIME_STAMPING),
            trust: trust.checked,
            trust_error: trust.why,
            warnings: claims::stamp_warnings(certificate, time),
            error,
            stamped: time,
            weak_algorithms: weak_of(hashes_of(&stamp).into_iter()),
        }
    }

    /// A time-stamp token is a signature, whose content has the digest of the signature that it stamps.
    fn time_stamp(&self, token: Result<Signature<'a>, SignatureError>, stamped: &[u8], roots: Option<&Roots>) -> Stamp {
        let token = match token {
            Ok(token) => token,
            Err(refused) => return refused_stamp("RFC 3161", refused),
        };
        let mut error = None;
        let (mut signed, said) = (Signed::of(&token), or_refused(token.time_stamp(), &mut error));
        let time = said.and_then(|it| or_refused(it.time().map(Some), &mut error));
        let digest = said.map_or(Compared::Absent, |it| {
            Digests::of(vec![stamped]).compared(it.digest_algorithm().oid(), it.digest())
        });
        let signer = or_refused(token.signers().next().transpose(), &mut error);
        let certificate = signer.and_then(|it| signed.certificates.of_signer(&it).or(self.certificates.of_signer(&it)));
        // Some tools put the certificates of a stamp into the signature that is stamped.
        let mut others = signed.certificates.all().chain(self.certificates.all());
        let trust = trust(&signed.chain(certificate), &mut others, roots, When::OfStamp(time));
        drop(others);
        Stamp {
            kind: "RFC 3161",
            time: time.map(|it| it.to_string()),
            subject: certificate.map(|it| text_of(it.subject())),
            digest,
            message_digest: signer.map_or(Compared::Absent, |it| signed.message_digest(&it, &mut error)),
            signature: signer.map_or(NO_CERTIFICATE, |it| signed.signature(&it, certificate)),
            content_type: Some(claims::content_type(
                signer.and_then(|it| or_refused(it.content_type(), &mut error)),
                signed.content_type,
            )),
            key_purpose: claims::key_purpose(certificate, &TIME_STAMPING),
            trust: trust.checked,
            trust_error: trust.why,
            warnings: claims::stamp_warnings(certificate, time),
            weak_algorithms: weak_of(
                signer.iter().flat_map(hashes_of).chain([said.and_then(|it| Hash::of(it.digest_algorithm().oid()))]),
            ),
            error,
            stamped: time,
        }
    }
}

/// Whether the first certificate of a chain leads to a root, over those of the chain or over all of these: where several have one
/// name, OpenSSL tries the first alone.
fn trust(chain: &[X509<'_>], others: &mut dyn Iterator<Item = X509<'_>>, roots: Option<&Roots>, when: When) -> Trust {
    match (chain, roots) {
        (_, None) => NO_ROOTS.into(),
        ([], _) => NO_CERTIFICATE.into(),
        ([first, issuers @ ..], Some(roots)) => {
            let by_chain = roots.lead_to(*first, &mut issuers.iter().copied(), when);
            let by_all =
                if by_chain.checked == Checked::Good { None } else { Some(roots.lead_to(*first, others, when)) };
            by_all.filter(|it| it.checked == Checked::Good).unwrap_or(by_chain)
        }
    }
}

/// The algorithms of the digests that a signer has: of what is signed, and of what its signature is over.
fn hashes_of(signer: &Signer<'_>) -> [Option<Hash>; 2] {
    [Hash::of(signer.digest_algorithm().oid()), Hash::of_signature(signer.signature_algorithm())]
}

/// The weak ones of a signer, of the certificates that others signed, and of the time stamps. The last certificate of a chain that
/// is by its own word is trusted for itself.
fn weak_algorithms(signer: &Signer<'_>, chain: &[X509<'_>], stamps: &[Stamp]) -> BTreeSet<&'static str> {
    let signed = chain.iter().filter(|it| !is_self_issued(it));
    let hashes = signed.map(|it| Hash::of_signature(it.signature_algorithm())).chain(hashes_of(signer));
    let mut weak = weak_of(hashes);
    weak.extend(stamps.iter().flat_map(|it| &it.weak_algorithms));
    weak
}

fn shortened(text: String) -> String {
    text.chars().take(CHARACTERS).collect()
}

fn refused_stamp(kind: &'static str, refused: SignatureError) -> Stamp {
    Stamp {
        kind,
        time: None,
        subject: None,
        digest: Compared::Absent,
        message_digest: Compared::Absent,
        content_type: None,
        signature: NO_CERTIFICATE,
        key_purpose: NO_CERTIFICATE,
        trust: NO_CERTIFICATE,
        trust_error: None,
        warnings: Vec::new(),
        error: Some(refused.into()),
        stamped: None,
        weak_algorithms: BTreeSet::new(),
    }
}

/// Whether each certificate of a chain is signed by the next, and the last by itself where it is by its own word.
fn signatures_of(chain: &[X509<'_>]) -> Checked {
    let last = chain.last().filter(|it| is_self_issued(it));
    let issuers = chain.iter().skip(1).chain(last);
    let mut links = chain.iter().zip(issuers).map(|it| checked::is_signed_by(it.0, it.1));
    match (chain.len(), links.find(|it| *it != Checked::Good)) {
        (0, _) => NO_CERTIFICATE,
        (_, Some(bad)) => bad,
        (1, None) if last.is_none() => NO_ISSUER,
        (_, None) => Checked::Good,
    }
}
