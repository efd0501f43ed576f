//! Signatures: one that osslsigncode made, by what `openssl asn1parse`, `openssl x509` and `osslsigncode verify` print of it.

use crate::made;
use crate::made::signature;
use pe_c::{Error, Image, KnownOid, Mode, Name, Signature, Signer, Time, X509};

fn time(text: &str) -> impl Fn(Time) -> bool + '_ {
    move |time| time.to_string() == text
}

/// Its one signer.
fn signer<'a>(signature: &Signature<'a>) -> Signer<'a> {
    let mut signers = signature.signers();
    let signer = signers.next().expect("a signer").expect("whole");
    assert!(signers.next().is_none());
    signer
}

#[test]
fn what_is_signed() {
    let bytes = signature();
    assert_eq!(bytes.len(), 1920);
    let signature = Signature::parse(&bytes).unwrap();
    assert_eq!(signature.content_type(), KnownOid::SPC_INDIRECT_DATA);
    assert_eq!(signature.content_type().to_string(), "1.3.6.1.4.1.311.2.1.4");
    assert_eq!(signature.content(), bytes.get(59..166));
    assert_eq!(signature.digested(), bytes.get(61..166));
    let data = signature.indirect_data().unwrap().unwrap();
    assert_eq!(data.value_type(), KnownOid::SPC_PE_IMAGE_DATA);
    assert_eq!(data.value(), &bytes[75..115]);
    assert_eq!(data.digest_algorithm().oid(), KnownOid::SHA256);
    assert_eq!(data.digest_algorithm().oid().to_string(), "2.16.840.1.101.3.4.2.1");
    assert_eq!(data.digest_algorithm().parameters(), [5, 0]);
    assert_eq!(data.digest(), &bytes[134..166]);
    assert!(signature.time_stamp().unwrap().is_none());
    let algorithms: Vec<_> = signature.digest_algorithms().map(|it| it.unwrap().oid().known()).collect();
    assert_eq!(algorithms, [Some(KnownOid::SHA256)]);
}

#[test]
fn of_an_image() {
    let bytes = made::with_signature();
    let image = Image::parse(&bytes, Mode::Strict).unwrap();
    let certificates: Vec<_> = image.certificates().map(Result::unwrap).collect();
    let signature = certificates[0].signature().unwrap().unwrap();
    assert_eq!(signature.content().map(<[u8]>::len), Some(107));
    // One of another kind is none, and one that holds no signature is an error.
    let bytes = made::with_certificates();
    let image = Image::parse(&bytes, Mode::Strict).unwrap();
    let kinds: Vec<_> = image.certificates().map(|it| it.unwrap().signature().map(|it| it.is_some())).collect();
    assert!(kinds[0].is_err());
    assert_eq!(kinds[1], Ok(false));
}

#[test]
fn who_signed() {
    let bytes = signature();
    let signature = Signature::parse(&bytes).unwrap();
    let signer = signer(&signature);
    assert_eq!(signer.issuer().to_string(), "CN=R");
    assert_eq!(signer.serial(), [4, 3]);
    assert!(signer.key_identifier().is_none());
    assert_eq!(signer.digest_algorithm().oid(), KnownOid::SHA256);
    assert_eq!(signer.signature_algorithm().oid(), KnownOid::ECDSA_SHA256);
    assert_eq!(signer.signature(), &bytes[770..841]);
    assert_eq!(signer.signed_bytes(), Some((0x31, &bytes[567..756])));
    assert_eq!(signer.message_digest().unwrap(), bytes.get(673..705));
    assert_eq!(signer.content_type().unwrap().map(|it| it.to_string()).as_deref(), Some("1.3.6.1.4.1.311.2.1.4"));
    assert!(time("2026-11-27T01:00:04Z")(signer.signing_time().unwrap().unwrap()));
    let opus = signer.opus_info().unwrap().unwrap();
    assert_eq!(opus.program_name().as_deref(), Some("Probe"));
    assert_eq!(opus.url().as_deref(), Some("https://example.org/"));
    assert_eq!(signer.counter_signatures().count(), 0);
    assert_eq!(signer.nested_signatures().count(), 0);
}

#[test]
fn certificates() {
    let bytes = signature();
    let signature = Signature::parse(&bytes).unwrap();
    let certificates: Vec<X509<'_>> = signature.certificates().map(Result::unwrap).collect();
    assert_eq!(certificates.len(), 1);
    let certificate = certificates[0];
    assert_eq!(signature.certificate_of(&signer(&signature)).map(|it| it.der()), Some(certificate.der()));
    assert_eq!(certificate.der(), &bytes[170..520]);
    assert_eq!(certificate.subject().to_string(), "CN=A,OU=Two+O=Probe,C=DE");
    assert_eq!(certificate.subject().get(KnownOid::COMMON_NAME).as_deref(), Some("A"));
    assert_eq!(certificate.issuer().to_string(), "CN=R");
    assert_eq!(certificate.serial(), [4, 3]);
    assert!(time("2026-11-27T01:00:04Z")(certificate.not_before().unwrap()));
    assert!(time("2051-07-19T01:00:04Z")(certificate.not_after().unwrap()));
    assert_eq!(certificate.to_be_signed(), &bytes[174..434]);
    assert_eq!(certificate.public_key(), &bytes[302..393]);
    assert_eq!(certificate.signature(), &bytes[449..520]);
    assert_eq!(certificate.key_usage().unwrap(), Some(0x80));
    let extensions: Vec<_> = certificate.extensions().map(Result::unwrap).collect();
    assert_eq!(extensions.len(), 2);
    assert_eq!(extensions[1].kind(), KnownOid::EXTENDED_KEY_USAGE);
    assert!(extensions[0].is_critical() && !extensions[1].is_critical());
    // `X509v3 Extended Key Usage: Code Signing`; the certificate has no key identifiers.
    let purposes: Vec<_> = certificate.key_purposes().unwrap().unwrap().map(|it| it.unwrap().to_string()).collect();
    assert_eq!(purposes, ["1.3.6.1.5.5.7.3.3"]);
    assert_eq!((certificate.key_identifier().unwrap(), certificate.issuer_key_identifier().unwrap()), (None, None));
}

#[test]
fn when_it_was_stamped() {
    let bytes = signature();
    let outer = Signature::parse(&bytes).unwrap();
    let signer = signer(&outer);
    let stamps: Vec<_> = signer.time_stamps().map(Result::unwrap).collect();
    assert_eq!(stamps.len(), 1);
    assert_eq!(stamps[0].content_type(), KnownOid::TST_INFO);
    let stamp = stamps[0].time_stamp().unwrap().unwrap();
    // 1700000000, as `date -d` says.
    assert!(time("2023-11-14T22:13:20Z")(stamp.time().unwrap()));
    assert_eq!(stamp.time().unwrap().unix(), 1_700_000_000);
    assert_eq!(stamp.digest_algorithm().oid(), KnownOid::SHA256);
    assert_eq!(stamp.digest(), &bytes[958..990]);
    assert_eq!(stamp.nonce(), &bytes[1032..1041]);
    assert_eq!(stamps[0].signers().count(), 1);
}

#[test]
fn refused() {
    let mut bytes = signature();
    // The type of the content is another.
    bytes[14] = 1;
    let error = Signature::parse(&bytes).unwrap_err();
    assert_eq!((error.error, error.offset), (Error::SIGNATURE_CONTENT_TYPE, 4));
    let mut bytes = signature();
    bytes[0] = 0x31;
    let error = Signature::parse(&bytes).unwrap_err();
    assert_eq!((error.error, error.value, error.expected), (Error::SIGNATURE_TAG, 0x31, 0x30));
    assert_eq!(error.to_string(), "element of a signature has another tag at offset 0x0: tag 0x31, not 0x30");
    let error = Signature::parse(&bytes[..1]).unwrap_err();
    assert_eq!((error.error, error.left), (Error::SIGNATURE_TRUNCATED, 1));
    assert!(error.to_string().ends_with(" at offset 0x0: 1 byte left"), "{error}");
    let error = Signature::parse(&[]).unwrap_err();
    assert!(error.to_string().ends_with(" at offset 0x0: 0 bytes left"), "{error}");
    let error = Signature::parse(&[0x30, 1]).unwrap_err();
    assert!(error.to_string().ends_with(": content of 1 byte, 0 left"), "{error}");
    let error = Signature::parse(&[0x30, 2, 0]).unwrap_err();
    assert!(error.to_string().ends_with(": content of 2 bytes, 1 left"), "{error}");
}

/// An element of DER.
fn der(tag: u8, content: &[u8]) -> Vec<u8> {
    let length = content.len().to_be_bytes();
    let first = length.iter().position(|byte| *byte != 0).unwrap_or(7);
    let head = match content.len() {
        0..=127 => vec![tag, content.len() as u8],
        _ => [&[tag, 0x80 + (8 - first) as u8], &length[first..]].concat(),
    };
    [head, content.to_vec()].concat()
}

/// An attribute of a name: the octets of its kind, the tag of its value, and the value.
type Attribute<'a> = (&'a [u8], u8, &'a [u8]);

/// A name: of each relative distinguished name the octets of the kinds, the tags and the values of its attributes.
fn name(rdns: &[&[Attribute<'_>]]) -> Vec<u8> {
    let attribute = |(kind, tag, value): &Attribute<'_>| der(0x30, &[der(6, kind), der(*tag, value)].concat());
    let rdn = |attributes: &&[Attribute<'_>]| der(0x31, &attributes.iter().flat_map(attribute).collect::<Vec<_>>());
    der(0x30, &rdns.iter().flat_map(rdn).collect::<Vec<_>>())
}

/// The examples of RFC 4514, 4, but for that of a kind that it names otherwise; then what its section 2.4 escapes.
#[test]
fn texts_of_names() {
    const CN: &[u8] = &[0x55, 4, 3];
    const OU: &[u8] = &[0x55, 4, 11];
    const DC: &[u8] = &[0x09, 0x92, 0x26, 0x89, 0x93, 0xF2, 0x2C, 0x64, 1, 25];
    const UID: &[u8] = &[0x09, 0x92, 0x26, 0x89, 0x93, 0xF2, 0x2C, 0x64, 1, 1];
    let net: &[(&[u8], u8, &[u8])] = &[(DC, 0x16, b"net")];
    let example: &[(&[u8], u8, &[u8])] = &[(DC, 0x16, b"example")];
    let one = |kind: &[u8], tag: u8, value: &[u8]| Name::from_der(&name(&[&[(kind, tag, value)]])).to_string();
    assert_eq!(
        Name::from_der(&name(&[net, example, &[(UID, 0x13, b"jsmith")]])).to_string(),
        "UID=jsmith,DC=example,DC=net"
    );
    assert_eq!(
        Name::from_der(&name(&[net, example, &[(OU, 0x13, b"Sales"), (CN, 0x13, b"J.  Smith")]])).to_string(),
        "OU=Sales+CN=J.  Smith,DC=example,DC=net"
    );
    assert_eq!(
        Name::from_der(&name(&[net, example, &[(CN, 0x0C, b"James \"Jim\" Smith, III")]])).to_string(),
        "CN=James \\\"Jim\\\" Smith\\, III,DC=example,DC=net"
    );
    assert_eq!(
        Name::from_der(&name(&[net, example, &[(CN, 0x0C, b"Before\rAfter")]])).to_string(),
        "CN=Before\\0DAfter,DC=example,DC=net"
    );
    let other = &[0x2B, 6, 1, 4, 1, 0x8B, 0x3A, 0];
    assert_eq!(one(other, 4, b"Hi"), "1.3.6.1.4.1.1466.0=#04024869");
    assert_eq!(one(CN, 0x0C, &[0x4C, 0x75, 0xC4, 0x8D, 0x69, 0xC4, 0x87]), "CN=Lu\u{10D}i\u{107}");
    assert_eq!(one(CN, 0x0C, b" a#b "), "CN=\\ a#b\\ ");
    assert_eq!(one(CN, 0x0C, b"#a<;>=\\\0"), "CN=\\#a\\<\\;\\>=\\\\\\00");
    // A BMPString, and Latin-1.
    assert_eq!(one(CN, 0x1E, &[0, 0x41, 0x01, 0x0D]), "CN=A\u{10D}");
    assert_eq!(one(CN, 0x14, &[0xE9]), "CN=\u{E9}");
    // A value of 200 octets that is no string.
    assert!(one(CN, 4, &[1; 200]).starts_with("CN=#0481C80101"));
    assert_eq!(Name::from_der(&[]).to_string(), "");
    assert_eq!(Name::from_der(&der(0x31, &[])).to_string(), "<damaged>");
    // A relative distinguished name without an attribute is refused.
    assert_eq!(Name::from_der(&der(0x30, &[0x31, 0])).attributes().next().unwrap().unwrap_err().offset, 4);
}

/// Signed data with these elements as its certificates.
fn with_certificates(certificates: &[u8]) -> Vec<u8> {
    with_parts(certificates, &[])
}

/// Signed data with these elements as its certificates, and these as its signers.
fn with_parts(certificates: &[u8], signers: &[u8]) -> Vec<u8> {
    let content = der(0x30, &der(6, &[0x2A, 0x86, 0x48, 0x86, 0xF7, 0x0D, 1, 7, 1]));
    let parts = [der(2, &[1]), der(0x31, &[]), content, der(0xA0, certificates), der(0x31, signers)].concat();
    let kind = der(6, &[0x2A, 0x86, 0x48, 0x86, 0xF7, 0x0D, 1, 7, 2]);
    der(0x30, &[kind, der(0xA0, &der(0x30, &parts))].concat())
}

/// Lists cost what their bytes cost: a million empty elements, and elements in elements 10,000 deep.
#[test]
fn wide_and_deep() {
    let bytes = with_certificates(&[0x30, 0].repeat(1_000_000));
    let signature = Signature::parse(&bytes).unwrap();
    assert!(signature.content().is_none() && signature.digested().is_none());
    assert_eq!(signature.content_type(), KnownOid::DATA);
    assert_eq!(signature.certificates().filter(Result::is_err).count(), 1_000_000);
    let mut deep = Vec::new();
    for _ in 0..10_000 {
        deep = der(0x30, &deep);
    }
    let bytes = with_certificates(&deep);
    let error = Signature::parse(&bytes).unwrap().certificates().next().unwrap().unwrap_err();
    assert_eq!(error.error, Error::SIGNATURE_MISSING);
    // A length of 2^63 is refused.
    let long = [&[0x30, 0x88, 0x80][..], &[0; 20]].concat();
    let error = Signature::parse(&long).unwrap_err();
    assert_eq!((error.error, error.value), (Error::SIGNATURE_LENGTH_OCTETS, 8));
    // So is one that is indefinite.
    let error = Signature::parse(&[0x30, 0x80, 0, 0]).unwrap_err();
    assert_eq!((error.error, error.offset), (Error::SIGNATURE_INDEFINITE_LENGTH, 0));
}

/// A certificate that is refused does not cost the others.
#[test]
fn one_damaged_certificate() {
    let whole = &signature()[170..520];
    let bytes = with_certificates(&[&[0x30, 0], whole, &[0x31, 0], whole].concat());
    let signature = Signature::parse(&bytes).unwrap();
    let found: Vec<_> = signature.certificates().map(|it| it.map(|it| it.serial().to_vec()).ok()).collect();
    assert_eq!(found, [None, Some(vec![4, 3]), None, Some(vec![4, 3])]);
}

/// Attributes of one kind among others, one of them damaged, which is an error of its own.
#[test]
fn attributes_of_a_kind() {
    let attribute = |kind: &[u8], value: u8| der(0x30, &[der(6, kind), der(0x31, &der(4, &[value]))].concat());
    let (stamp, other) = ([0x2B, 6, 1, 4, 1, 0x82, 0x37, 3, 3, 1], [0x55, 4, 3]);
    let damaged = der(0x30, &der(6, &stamp));
    let unsigned =
        [attribute(&other, 1), attribute(&stamp, 2), damaged, attribute(&other, 3), attribute(&stamp, 4)].concat();
    let algorithm = der(0x30, &der(6, &other));
    let named = der(0x30, &[der(0x30, &[]), der(2, &[1])].concat());
    let signer = [der(2, &[1]), named, algorithm.clone(), algorithm, der(4, &[]), der(0xA1, &unsigned)].concat();
    let bytes = with_parts(&[], &der(0x30, &signer));
    let signer = Signature::parse(&bytes).unwrap().signers().next().unwrap().unwrap();
    let mut walk = signer.unsigned_attributes();
    let mut value = || {
        let found = walk.find_kind(KnownOid::TIME_STAMP_TOKEN).map_err(|error| error.error)?;
        Ok(found.map(|it| it.values().next().unwrap().unwrap().to_vec()))
    };
    assert_eq!([value(), value()], [Ok(Some(vec![4, 1, 2])), Err(Error::SIGNATURE_MISSING)]);
    assert_eq!([value(), value()], [Ok(Some(vec![4, 1, 4])), Ok(None)]);
    // Each of them is read as a signature, which it is not.
    let errors: Vec<_> = signer.time_stamps().map(|it| it.unwrap_err().error).collect();
    assert_eq!(errors, [Error::SIGNATURE_TAG, Error::SIGNATURE_MISSING, Error::SIGNATURE_TAG]);
    assert!(signer.nested_signatures().map(|it| it.unwrap_err().error).eq([Error::SIGNATURE_MISSING]));
}

/// The octets of some object identifiers, and their numbers with dots, as `openssl asn1parse -genstr OID:..` has them.
#[test]
fn object_identifiers() {
    let mut numbers: Vec<u32> = KnownOid::ALL.iter().map(|it| it.number()).collect();
    numbers.sort_unstable();
    numbers.dedup();
    assert_eq!(numbers.len(), KnownOid::ALL.len());
    assert_eq!(KnownOid::SHA384.name(), "SHA384");
    assert_eq!(KnownOid::SHA384.number(), 204);
    let octets = [0x88, 0x37];
    let text = Name::from_der(&name(&[&[(&octets, 4, b"")]])).to_string();
    // The first number is at most 2, and the second of 2 has no limit.
    assert_eq!(text, "2.999=#0400");
    let octets = [0x55, 0x80 | 1];
    assert_eq!(Name::from_der(&name(&[&[(&octets, 4, b"")]])).to_string(), "2.5.?=#0400");
}
