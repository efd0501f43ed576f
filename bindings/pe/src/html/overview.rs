//! What is asked first, on top of the page: what the image is, its version, whether it has a signature, its checksum, its PDB and hashes,
//! and how it is hardened.

use super::markup::Html;
use crate::escape::escaped;
use crate::facts::hardening::{NO, YES};
use crate::facts::{Facts, Part};
use crate::summary::{built, checksum_of};

/// A label, what it says, and the class of that.
type Row = (&'static str, String, &'static str);

fn version_of(facts: &Facts) -> Vec<Row> {
    let Some(version) = &facts.version else { return Vec::new() };
    let text = |name: &str| {
        version.strings.as_ref().and_then(|it| it.get(name)).filter(|it| !it.is_empty()).map(|it| escaped(it))
    };
    let number = version.fixed.present().map(|it| it.file_version.clone());
    let rows = [
        ("product", text("ProductName")),
        ("description", text("FileDescription")),
        ("company", text("CompanyName")),
        ("version", text("FileVersion").or(number)),
        ("rights", version.manifest.present().and_then(|it| it.requested_level.as_deref()).map(escaped)),
    ];
    rows.into_iter().filter_map(|(label, value)| Some((label, value?, ""))).collect()
}

fn signature_of(facts: &Facts) -> Option<Row> {
    let is_signed = facts.hardening.as_ref()?.signed;
    let entries = facts.certificates.as_ref().map_or(&[][..], Part::entries);
    let signer = entries.iter().find_map(|it| it.signer.as_ref()).map(|it| format!(" by {}", escaped(&it.to_string())));
    let refused = || entries.iter().find(|it| it.signer_error.is_some()).and_then(|it| it.said_of_signer());
    let signer = signer.or_else(|| refused().map(|it| format!(", {it}"))).unwrap_or_default();
    Some(match (is_signed, entries.len()) {
        (Some(true), 1) => ("signature", format!("an entry{signer}, not verified"), ""),
        (Some(true), count) => ("signature", format!("{count} entries of certificates{signer}, not verified"), ""),
        (Some(false), _) => ("signature", "no entry".to_string(), ""),
        (None, _) => ("signature", "not known: the certificates are refused".to_string(), ""),
    })
}

fn rows_of(facts: &Facts) -> Vec<Row> {
    let mut rows = version_of(facts);
    rows.extend(signature_of(facts));
    let Some(headers) = &facts.headers else { return rows };
    rows.push(("built", built(headers), ""));
    let class = if headers.checksum_state == Some("wrong") { "wrong" } else { "" };
    rows.extend(checksum_of(headers).map(|it| ("checksum", it, class)));
    rows.extend(headers.overlay.as_ref().and_then(|it| Some(("overlay", it.said()?, ""))));
    let pdb = facts.debug.as_ref().and_then(|it| it.pdb.present());
    rows.extend(pdb.map(|it| ("PDB", format!("{}, key {}", it.name, it.key), "")));
    rows.extend(facts.hashes.as_ref().map(|it| ("SHA-256", it.sha256_hex.clone(), "")));
    rows.extend(facts.hashes.as_ref().and_then(|it| Some(("imphash", it.shown_imphash()?, ""))));
    rows
}

/// Each name, and whether the image asks for it.
fn hardening_of(facts: &Facts, html: &mut Html<'_>) {
    let Some(hardening) = &facts.hardening else { return };
    html.markup(
        "<h2 id=hardening>Hardening, as the image asks for it; no signature is verified</h2><ul class=hardening>",
    );
    for (name, value) in hardening.rows() {
        html.markup(match value {
            YES => "<li class=yes>",
            NO => "<li class=no>",
            _ => "<li class=none>",
        });
        html.text(name).markup(" <b>").text(value).markup("</b></li>");
    }
    html.markup("</ul>");
    for refused in hardening.said_of_unknown() {
        html.markup("<p>").text(refused).markup("</p>");
    }
}

pub fn of(facts: &Facts, html: &mut Html<'_>) {
    let rows = rows_of(facts);
    if rows.is_empty() {
        return;
    }
    html.markup("<section class=list aria-label=Overview><dl>");
    for (label, value, class) in rows {
        html.markup("<dt>").text(label).markup(if class == "wrong" { "</dt><dd class=wrong>" } else { "</dt><dd>" });
        html.text(value).markup("</dd>");
    }
    html.markup("</dl>");
    hardening_of(facts, html);
    html.markup("</section>");
}
