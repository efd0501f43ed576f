//! The map of the file as a drawing: one lane of what covers the file, one of what lies in it, and one of the entropy of
//! its bytes. Every region leads to its row in the table below the drawing.

use super::markup::Html;
use crate::facts::entropy::ByteCounts;
use crate::facts::regions::{Kind, Region};
use crate::tables::{number, text, Column, Table};
use pe_c::Image;
use std::fmt::Write;

/// How many regions are drawn; all of them have rows.
const DRAWN: usize = 1_000;
/// The parts of the file whose entropy is drawn.
const STEPS: u64 = 256;
/// Hundredths of a percent of the width that a region takes at least, to be seen.
const LEAST: u64 = 30;
/// Hundredths of a percent of the width above which a region has its name in it.
const NAMED: u64 = 500;
/// The whole width, in hundredths of a percent.
const WIDTH: u64 = 10_000;

const COLUMNS: &[Column] =
    &[text("region"), text("name"), number("start"), number("end"), number("bytes"), number("bytes missing")];

/// The regions as rows, with file offsets.
pub fn table(regions: &[Region]) -> Table {
    let rows = regions.iter().map(|it| {
        let missing = if it.missing == 0 { String::new() } else { it.missing.to_string() };
        vec![
            it.kind.name().to_string(),
            it.name.clone(),
            format!("{:#x}", it.range.start),
            format!("{:#x}", it.range.end),
            (it.range.end - it.range.start).to_string(),
            missing,
        ]
    });
    Table::new(COLUMNS, rows)
}

/// The class of a region's colour.
fn class_of(kind: Kind) -> &'static str {
    match kind {
        Kind::Headers => "headers",
        Kind::Code => "code",
        Kind::WritableCode => "writable-code",
        Kind::Writable => "writable",
        Kind::ReadOnly => "readonly",
        Kind::Certificates => "certificates",
        Kind::Gap => "gap",
        Kind::Trailing => "trailing",
        Kind::Directory => "directory",
        Kind::DebugRecord => "record",
    }
}

/// A part of the width, as a percentage.
fn percent(part: u64, whole: u64) -> u64 {
    (u128::from(part) * u128::from(WIDTH) / u128::from(whole.max(1))) as u64
}

fn length_of(hundredths: u64) -> String {
    format!("{}.{:02}%", hundredths / 100, hundredths % 100)
}

pub fn of(regions: &[Region], image: &Image<'_>, html: &mut Html<'_>) {
    let length = image.bytes().len() as u64;
    html.markup("<section class=map aria-labelledby=map><h2 id=map>Map of the file</h2>");
    html.markup("<svg class=lanes width=\"100%\" height=168 role=group aria-label=\"Map of the file by offsets\">");
    html.markup("<text x=0 y=10 class=lane>headers, sections, certificates</text>");
    lane(regions, true, length, html);
    html.markup("<text x=0 y=66 class=lane>directories, debug records</text>");
    lane(regions, false, length, html);
    entropy(image, html);
    axis(length, html);
    html.markup("</svg>");
    legend(regions, html);
    html.markup("</section>");
}

/// Draws the regions that cover the file, or those that lie in it; the longest if they are too many.
fn lane(regions: &[Region], is_cover: bool, length: u64, html: &mut Html<'_>) {
    let mut drawn: Vec<(usize, &Region)> =
        regions.iter().enumerate().filter(|(_, it)| it.kind.is_cover() == is_cover).collect();
    drawn.sort_by_key(|(_, it)| it.range.start.wrapping_sub(it.range.end));
    drawn.truncate(DRAWN);
    // What is smaller is drawn over what is larger; the order of focus is that of the file.
    drawn.sort_by_key(|(index, it)| (it.range.start, *index));
    for (index, region) in drawn {
        let start = percent(region.range.start, length).min(WIDTH - LEAST);
        let width = percent(region.range.end - region.range.start, length).max(LEAST);
        html.markup("<a href=\"#regions-").text(index).markup("\"><svg x=\"").text(length_of(start));
        html.markup("\" width=\"").text(length_of(width)).markup(if is_cover {
            "\" y=16 height=32"
        } else {
            "\" y=72 height=14"
        });
        html.markup("><title>").text(title_of(region)).markup("</title><rect width=\"100%\" height=\"100%\" class=");
        html.markup(class_of(region.kind)).markup("></rect>");
        if is_cover && width >= NAMED {
            let name = if region.name.is_empty() { region.kind.name() } else { &region.name };
            // A gap has the colour of the page.
            html.markup(if region.kind == Kind::Gap { "<text x=5 y=20 class=on-gap>" } else { "<text x=5 y=20>" });
            html.text(name).markup("</text>");
        }
        html.markup("</svg></a>");
    }
}

fn title_of(region: &Region) -> String {
    let mut title = region.kind.name().to_string();
    if !region.name.is_empty() {
        title += ": ";
        title += &region.name;
    }
    let length = region.range.end - region.range.start;
    // Writing to a string does not fail.
    let _ = write!(title, ", {:#x} to {:#x}, {length} bytes", region.range.start, region.range.end);
    title
}

/// The entropy of equal parts of the file, as an area.
fn entropy(image: &Image<'_>, html: &mut Html<'_>) {
    let mut counts = ByteCounts::of(image.bytes());
    let length = image.bytes().len() as u64;
    let steps = STEPS.min(length.max(1));
    let mut path = String::from("M0 8");
    for step in 0..steps {
        let part = length * step / steps..length * (step + 1) / steps;
        let bits = counts.entropy_of(part).unwrap_or_default();
        // Writing to a string does not fail.
        let _ = write!(path, "V{:.2}H{}", 8.0 - bits, step + 1);
    }
    html.markup("<text x=0 y=104 class=lane>entropy, 0 to 8 bits a byte</text>");
    html.markup("<svg y=110 width=\"100%\" height=40 viewBox=\"0 0 ");
    html.text(steps).markup(" 8\" preserveAspectRatio=none class=entropy><rect width=\"100%\" height=\"100%\"></rect>");
    html.markup("<path d=\"").text(path).markup("V8Z\"></path></svg>");
}

/// File offsets below the lanes.
fn axis(length: u64, html: &mut Html<'_>) {
    for quarter in 0..=4 {
        let anchor = ["start", "middle", "middle", "middle", "end"][quarter as usize];
        // A narrow page has no room for five numbers.
        html.markup(if quarter % 2 == 1 { "<text class=\"lane minor\"" } else { "<text class=lane" });
        html.markup(" y=164 x=\"").text(25 * quarter).markup("%\" text-anchor=").markup(anchor);
        html.markup(">").text(format_args!("{:#x}", length * quarter / 4)).markup("</text>");
    }
}

fn legend(regions: &[Region], html: &mut Html<'_>) {
    html.markup("<ul class=legend>");
    for kind in Kind::ALL {
        if regions.iter().any(|it| it.kind == kind) {
            html.markup("<li><svg width=12 height=12 aria-hidden=true><rect width=12 height=12 class=");
            html.markup(class_of(kind)).markup("></rect></svg> ").markup(kind.name()).markup("</li>");
        }
    }
    html.markup("</ul>");
}
