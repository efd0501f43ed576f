//! Paths of a symbol server. The two keys and what they lead to are the samples of Microsoft's conventions of such keys
//! (github.com/dotnet/symstore, docs/specs/SSQP_Key_Conventions.md), which write them in lower case.

use pe_c::sys::ImageInfo;
use pe_c::{Pdb20, SymbolKey};

/// A CodeView record with the sample's GUID and age and this name.
fn record(age: u32, name: &[u8]) -> Vec<u8> {
    let guid = (0x497B_72F6u32.to_le_bytes(), 0x390Au16.to_le_bytes(), 0x44FCu16.to_le_bytes());
    let last = [0x87, 0x8E, 0x5A, 0x2D, 0x63, 0xB6, 0xCC, 0x4B];
    [b"RSDS", &guid.0[..], &guid.1, &guid.2, &last, &age.to_le_bytes(), name, b"\0"].concat()
}

fn pdb_path(age: u32, name: &[u8]) -> Option<String> {
    let record = record(age, name);
    let key = SymbolKey::of_record(&record).unwrap().unwrap();
    key.path().map(|it| it.to_string())
}

fn image(time_date_stamp: u32, size_of_image: u32) -> ImageInfo {
    ImageInfo { width: 64, time_date_stamp, size_of_image, ..ImageInfo::default() }
}

fn image_path(name: &str) -> Option<String> {
    image(0x542D_574E, 0xC_2000).symbol_path(name).map(|it| it.to_string())
}

#[test]
fn samples_of_the_conventions() {
    let pdb = pdb_path(1, b"Foo.pdb").unwrap();
    assert_eq!(pdb.to_lowercase(), "foo.pdb/497b72f6390a44fc878e5a2d63b6cc4b1/foo.pdb");
    assert_eq!(pdb, "Foo.pdb/497B72F6390A44FC878E5A2D63B6CC4B1/Foo.pdb");
    assert_eq!(image_path("Foo.exe").unwrap().to_lowercase(), "foo.exe/542d574ec2000/foo.exe");
    assert_eq!(image_path("Foo.exe").unwrap(), "Foo.exe/542D574Ec2000/Foo.exe");
}

/// The age and the size have no leading zeros; the time stamp has eight digits.
#[test]
fn numbers_of_other_widths() {
    assert_eq!(pdb_path(0, b"a").unwrap(), "a/497B72F6390A44FC878E5A2D63B6CC4B0/a");
    assert_eq!(pdb_path(0xAB_CDEF, b"a").unwrap(), "a/497B72F6390A44FC878E5A2D63B6CC4BABCDEF/a");
    assert_eq!(image(0xAB, 0x1F_E000).symbol_path("a").unwrap().to_string(), "a/000000AB1fe000/a");
    assert_eq!(image(0, 0).symbol_path("a").unwrap().to_string(), "a/000000000/a");
    assert_eq!(ImageInfo { width: 0, ..image(1, 0x1000) }.symbol_path("a"), None);
}

/// Before PDB 7.0 the identifier is that of Microsoft's symbol server, `%08X` of the time stamp and `%X` of the age. The
/// stamps are of 1 January 1997 and of 1970.
#[test]
fn keys_before_pdb_7() {
    let record =
        |signature, age, name_bytes| record!(Pdb20::default(); signature: signature, age: age, name_bytes: name_bytes);
    let text = |it: Pdb20| it.path().map(|it| it.to_string());
    let first = record(0x32C9_A900, 0x1F, b"C:\\nt\\kernel32.PDB\0\0".as_slice());
    assert_eq!(text(first).unwrap(), "kernel32.PDB/32C9A9001F/kernel32.PDB");
    assert_eq!((first.to_string().as_str(), first.path().unwrap().name()), ("32C9A9001F", "kernel32.PDB"));
    assert_eq!(text(record(0xAB, 0, b"a\0")).unwrap(), "a/000000AB0/a");
    assert_eq!(text(record(0, u32::MAX, b"a")).unwrap(), "a/00000000FFFFFFFF/a");
    for name in [b"..\0".as_slice(), b"a\xFF\0", b"a*\0", b"\0a", b""] {
        assert_eq!(text(record(1, 1, name)), None, "{name:?}");
    }
}

#[test]
fn guids_are_written_as_windows_writes_them() {
    let record = record(1, b"a.pdb");
    let key = SymbolKey::of_record(&record).unwrap().unwrap();
    assert_eq!(key.guid.to_string(), "{497B72F6-390A-44FC-878E-5A2D63B6CC4B}");
    assert_eq!(key.to_string(), "497B72F6390A44FC878E5A2D63B6CC4B1");
}

/// A path leads to one folder below the server's, whatever the name is.
#[test]
fn names_are_one_component() {
    for (name, last) in [
        ("C:\\build\\a.pdb", Some("a.pdb")),
        ("../../x", Some("x")),
        ("..\\x", Some("x")),
        ("/a\\b/c.pdb", Some("c.pdb")),
        ("Größe 1.pdb", Some("Größe 1.pdb")),
        ("..a", Some("..a")),
        ("", None),
        ("a\\", None),
        (".", None),
        ("C:\\..", None),
        (".. ", None),
        ("...", None),
        ("C:a.pdb", None),
        ("a.pdb:b", None),
        ("a\nb", None),
        ("a*", None),
    ] {
        let record = record(1, name.as_bytes());
        let key = SymbolKey::of_record(&record).unwrap().unwrap();
        assert_eq!(key.path().map(|it| it.name()), last, "{name:?}");
        assert_eq!(image(1, 1).symbol_path(name).map(|it| it.name()), last, "{name:?}");
    }
    assert_eq!(pdb_path(1, b"a\xFF.pdb"), None);
    assert_eq!(pdb_path(1, b"a.pdb\0/../x").unwrap(), "a.pdb/497B72F6390A44FC878E5A2D63B6CC4B1/a.pdb");
}
