//! Records as JSON, by the feature `serde`. What is expected is by hand, of what the images are made of.

mod made;

use made::*;
use pe_c::{Dump, End, Error, Frame, Image, Mode, Registers, StepError, Way};
use serde_json::{json, to_value};

#[test]
fn records_of_directories() {
    let bytes = with_imports();
    let image = Image::parse(&bytes, Mode::Strict).unwrap();
    let imports: Vec<_> = image.imports().unwrap().map(Result::unwrap).collect();
    let slot = json!({"library": "KERNEL32.dll", "index": 0, "hint_rva": null,
                      "import": {"name": null, "ordinal": 17, "rva": 0x8008}});
    assert_eq!(to_value(imports[1]).unwrap(), slot);
    let bytes = with_exports();
    let image = Image::parse(&bytes, Mode::Strict).unwrap();
    let export = image.exports().unwrap().next().unwrap().unwrap();
    let wanted = json!({"name": "first", "rva": 0x9_0000, "offset": null, "index": export.index, "forwarder": null});
    assert_eq!(to_value(export).unwrap(), wanted);
    let section = to_value(image.sections()[0]).unwrap();
    assert_eq!((&section["name"], &section["virtual_address"]), (&json!(".rdata"), &json!(0x1000)));
    assert_eq!(to_value(image.info()).unwrap()["directories"].as_array().unwrap().len(), 16);
}

#[test]
fn names_contents_and_errors() {
    let bytes = with_debug();
    let key = Image::parse(&bytes, Mode::Strict).unwrap().symbol_key().unwrap();
    let wanted = json!({"guid": "497B72F6-390A-44FC-878E-5A2D63B6CC4B", "age": 1, "name": "a.pdb"});
    assert_eq!(to_value(key).unwrap(), wanted);
    let odd = key.map(|it| pe_c::SymbolKey::new(it.guid, 2, b"\xFF.pdb"));
    assert_eq!(to_value(odd).unwrap()["name"], "\u{FFFD}.pdb");
    let bytes = with_certificates();
    let image = Image::parse(&bytes, Mode::Strict).unwrap();
    let certificate = image.certificates().next().unwrap().unwrap();
    let body = certificate.body.iter().map(|it| format!("{it:02x}")).collect::<String>();
    assert_eq!(to_value(certificate).unwrap()["body"], body);
    assert_eq!(to_value(Error::SHORT).unwrap(), "truncated");
}

#[test]
fn frames_and_dumps() {
    let frame = Frame::new(Registers { rip: 7, ..Registers::default() }, Way::Top);
    let value = to_value(frame).unwrap();
    assert_eq!(
        (&value["way"], &value["has_called"], &value["registers"]["rip"]),
        (&json!("Top"), &json!(false), &json!(7))
    );
    let end = End::Step(StepError::Missing(16));
    assert_eq!(to_value(end).unwrap(), json!({"Step": {"Missing": 16}}));
    let bytes = dump();
    let thread = Dump::parse(&bytes).unwrap().threads().unwrap().unwrap().next().unwrap();
    assert_eq!(to_value(thread).unwrap()["thread_id"], thread.thread_id);
}
