//! Prints what the Authenticode digest of an image covers, or attaches a signature to the image.
//!
//!     cargo run --example signing digest FILE
//!     cargo run --example signing attach FILE PKCS7 OUT

use pe_c::{Error, Image, Mode, Placement};

/// Passes what the Authenticode digest of an image covers to a hash function, piece by piece.
pub fn hash_image(bytes: &[u8], mut update: impl FnMut(&[u8])) -> Result<(), Error> {
    let digest = Image::parse(bytes, Mode::Permissive)?.digest_ranges()?;
    digest.slices().for_each(&mut update);
    update(&[0; 7][..digest.zeros()]);
    Ok(())
}

/// The image with a signature, PKCS #7 signed data in DER, in place of those that it has.
pub fn signed(bytes: &[u8], signature: &[u8]) -> Result<Vec<u8>, Error> {
    let length = u32::try_from(8 + signature.len()).map_err(|_| Error::SIGN_TOO_LARGE)?;
    // WIN_CERTIFICATE: its length, WIN_CERT_REVISION_2_0, WIN_CERT_TYPE_PKCS_SIGNED_DATA, its body.
    let mut certificate = length.to_le_bytes().to_vec();
    certificate.extend([0, 2, 2, 0]);
    certificate.extend(signature);
    Image::parse(bytes, Mode::Permissive)?.attach(&certificate, Placement::InPlace)
}

fn main() -> Result<(), Box<dyn std::error::Error>> {
    let words: Vec<String> = std::env::args().skip(1).collect();
    let words: Vec<&str> = words.iter().map(String::as_str).collect();
    match words[..] {
        ["digest", file] => {
            let bytes = std::fs::read(file)?;
            let mut covered = 0;
            hash_image(&bytes, |piece| covered += piece.len())?;
            let image = Image::parse(&bytes, Mode::Permissive)?;
            let (digest, sum) = (image.digest_ranges()?, image.checksum()?);
            digest.ranges().for_each(|range| println!("range {:#x} {:#x}", range.start, range.end));
            println!("zeros {}\ncovered {covered}\nchecksum {:#x} at {:#x}", digest.zeros(), sum.value, sum.offset);
        }
        ["attach", file, signature, out] => {
            let signed = signed(&std::fs::read(file)?, &std::fs::read(signature)?)?;
            // A file that is there stays: FILE, too.
            std::io::Write::write_all(&mut std::fs::File::create_new(out)?, &signed)?;
        }
        _ => {
            eprintln!("usage: signing digest FILE | signing attach FILE PKCS7 OUT");
            std::process::exit(2);
        }
    }
    Ok(())
}
