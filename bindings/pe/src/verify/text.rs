//! What is said of the signatures of an image, as text.

use super::checked::Checked;
use super::hashing::Compared;
use super::signer::{Stamp, Told};
use super::{Signature, State, Verified};
use crate::escape::escaped;
use crate::facts::counted;
use crate::page::{Page, Style};

/// What all of it comes to, in words that say no more than was checked.
fn words_of(state: State) -> &'static str {
    match state {
        State::Refused => "refused: see why above",
        State::NotSigned => "not signed",
        State::Wrong => "WRONG: see what is different or wrong",
        State::Weak => "all of it fits, but by MD5: another text with the same digest is made in seconds",
        State::Open => "open: see what was not compared or checked",
        State::DigestsEqual => {
            "the digests of file, signers and stamps are equal; no signature was checked, nor any certificate"
        }
        State::SignaturesGood => {
            "the digests of file, signers and stamps are equal and their signatures good; chains and whom to trust were \
             not checked"
        }
        State::Trusted => {
            "the digests of file, signers and stamps are equal, their signatures good, and the chains lead to the roots \
             that were given"
        }
    }
}

fn words_of_digest(digest: &Compared) -> String {
    match digest {
        Compared::Different { worked_out_hex } => format!("DIFFERENT: {worked_out_hex} is right"),
        _ => digest.word().to_string(),
    }
}

pub fn of(verified: &Verified, style: Style) -> String {
    let mut page = Page::new(style);
    page.heading(&verified.origin.shown_file());
    for signature in &verified.signatures {
        signature_of(signature, &mut page);
    }
    if let Some(error) = &verified.error {
        page.warning(error);
    }
    if verified.is_limited {
        page.warning("there are more signers, time stamps or nested signatures");
    }
    for catalog in verified.catalogs.iter().filter(|it| !it.is_listed) {
        let entries = if catalog.entries == 1 { "entry" } else { "entries" };
        let unread = match catalog.entries_not_read {
            0 => String::new(),
            count => format!(", of which {count} without a digest that is read here"),
        };
        let file = escaped(&catalog.file);
        let said = format!("{file}, which does not list the image ({} {entries}{unread})", catalog.entries);
        page.row("catalog", said);
    }
    if verified.other_entries > 0 {
        let entries = if verified.other_entries == 1 { "entry" } else { "entries" };
        page.warning(format_args!("{} {entries} of other types, which are not looked at", verified.other_entries));
    }
    page.row("result", words_of(verified.state));
    page.into_text()
}

fn signature_of(signature: &Signature, page: &mut Page) {
    let nested = if signature.depth == 0 { "" } else { ", nested" };
    let of = signature
        .catalog
        .as_ref()
        .map_or("the certificate table".to_string(), |it| format!("the catalog {}", escaped(it)));
    page.row("signature", format_args!("entry {} of {of}{nested}", signature.entry));
    if let (Some(algorithm), Some(digest)) = (&signature.digest_algorithm, &signature.digest_hex) {
        let compared = signature.digest.as_ref().map(words_of_digest).unwrap_or_default();
        page.row("  file digest", format_args!("{algorithm} {digest}, {compared}"));
    }
    for hashes in &signature.page_hashes {
        let compared = hashes.compared.word().replace("different", "DIFFERENT");
        let place =
            hashes.different_file_offset.map_or(String::new(), |it| format!(", first that at file offset {it:#x}"));
        let pages = counted(hashes.pages, "page");
        page.row("  page hashes", format_args!("{}, {pages}, {compared}{place}", hashes.algorithm()));
    }
    signature.signers.iter().for_each(|it| signer_of(it, page));
    if !signature.weak_algorithms.is_empty() {
        let weak: Vec<&str> = signature.weak_algorithms.iter().copied().collect();
        page.warning(format_args!("weak: {}; two texts with one such digest have been made", weak.join(", ")));
    }
    signature.warnings.iter().for_each(|it| page.warning(it));
    if let Some(error) = &signature.error {
        page.warning(error);
    }
}

fn signer_of(signer: &Told, page: &mut Page) {
    match &signer.certificate {
        Some(certificate) => {
            let time = |it: &Option<String>| it.clone().unwrap_or_else(|| "a time that is none".to_string());
            page.row("  signer", escaped(&certificate.subject));
            page.row("  valid", format_args!("{} to {}", time(&certificate.not_before), time(&certificate.not_after)));
        }
        None => page.row("  signer", "its certificate is not found in the signature"),
    }
    page.row("  issuer", escaped(&signer.issuer));
    page.row("  serial", &signer.serial_hex);
    if let Some(certificate) = &signer.certificate {
        page.row("  thumbprints", format_args!("SHA-1 {}, SHA-256 {}", certificate.sha1_hex, certificate.sha256_hex));
    }
    for (label, text) in [("  program", &signer.program_name), ("  more at", &signer.program_url)] {
        text.iter().for_each(|it| page.row(label, escaped(it)));
    }
    signer.signing_time.iter().for_each(|it| page.row("  says signed", it));
    page.row("  digest", format_args!("{}, {}", signer.digest_algorithm, words_of_digest(&signer.message_digest)));
    page.row("", claims_of(Some(&signer.content_type), &signer.key_purpose, "code signing"));
    page.row("  by", format_args!("{}, {}", signer.signature_algorithm, signer.signature.text()));
    chain_of(signer, page);
    signer.warnings.iter().for_each(|it| page.warning(it));
    signer.time_stamps.iter().for_each(|it| stamp_of(it, page));
    if let Some(error) = &signer.error {
        page.warning(error);
    }
}

/// What is said of the type of the content, if it has to be said, and of what the key is for.
fn claims_of(content_type: Option<&Checked>, key_purpose: &Checked, purpose: &str) -> String {
    let words = |it: &Checked| it.text().replace("wrong", "WRONG");
    let of_type = content_type.map_or(String::new(), |it| format!("type of the content {}; ", words(it)));
    format!("{of_type}a key for {purpose}: {}", words(key_purpose))
}

fn chain_of(signer: &Told, page: &mut Page) {
    let end = match signer.is_chain_whole {
        true => "up to one that is by its own word",
        false => "whose issuer is not found in the signature",
    };
    match signer.chain.get(1..).unwrap_or_default() {
        [] if signer.is_chain_whole => {
            let checked = signer.chain_signatures.text();
            page.row("  chain", format_args!("the certificate is by its own word; its signature {checked}"));
        }
        [] => page.row("  chain", "the certificate of the issuer is not found in the signature"),
        issuers => {
            let through: Vec<String> = issuers.iter().map(|it| escaped(it)).collect();
            let checked = signer.chain_signatures.text();
            page.row("  chain", format_args!("{}, {end}; signatures {checked}", through.join("; ")));
        }
    }
    page.row("  trust", trust_of(&signer.trust, &signer.trust_error));
}

fn trust_of(trust: &Checked, why: &Option<String>) -> String {
    trust.text() + &why.as_deref().map_or(String::new(), |why| format!(", {}", escaped(why)))
}

fn stamp_of(stamp: &Stamp, page: &mut Page) {
    let time = stamp.time.as_deref().unwrap_or("a time that is none");
    let subject = stamp.subject.as_deref().map_or("a certificate not found in the signature".to_string(), escaped);
    page.row("  time stamp", format_args!("{time}, {}, by {subject}", stamp.kind));
    page.row("", format_args!("digest of the signature {}", words_of_digest(&stamp.digest)));
    page.row("", format_args!("digest of the stamp {}", words_of_digest(&stamp.message_digest)));
    page.row("", claims_of(stamp.content_type.as_ref(), &stamp.key_purpose, "time stamps"));
    let trust = trust_of(&stamp.trust, &stamp.trust_error);
    page.row("", format_args!("signature {}; trust {trust}", stamp.signature.text()));
    stamp.warnings.iter().for_each(|it| page.warning(it));
    if let Some(error) = &stamp.error {
        page.warning(error);
    }
}
