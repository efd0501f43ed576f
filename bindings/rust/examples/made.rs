//! Writes the images of the tests to a folder, for other programs: `made FOLDER`. A TE image, an object, a PDB and minidumps have names of
//! their own, since most programs take images alone.

#[path = "../tests/made/mod.rs"]
mod made;

fn main() -> std::io::Result<()> {
    let folder = std::env::args().nth(1).unwrap_or_else(|| ".".to_owned());
    std::fs::create_dir_all(&folder)?;
    for (name, bytes) in made::all().into_iter().chain(made::others()) {
        std::fs::write(format!("{folder}/{name}.bin"), bytes)?;
    }
    std::fs::write(format!("{folder}/editable.exe"), made::editable())?;
    std::fs::write(format!("{folder}/te_image.te"), made::te_image())?;
    std::fs::write(format!("{folder}/x64.dmp"), made::full_dump(made::X64))?;
    std::fs::write(format!("{folder}/arm64.dmp"), made::full_dump(made::ARM64))?;
    std::fs::write(format!("{folder}/t.pdb"), made::pdb())?;
    std::fs::write(format!("{folder}/inlined.pdb"), made::pdb_inlined())?;
    std::fs::write(format!("{folder}/object.obj"), made::object())
}
