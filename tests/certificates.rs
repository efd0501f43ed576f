//! Attribute certificates: read, listed and written.

use crate::images::{image, reason_in, short, short_in};
use pe_core::{Error, Reason};
use pe_records::{
    AttributeCertificate, AttributeCertificateRevision, AttributeCertificateType,
    enumerate_certificates,
};
use std::alloc::Global;
use std::test::Fail;

#[test]
fn numbers(rt: HostRuntime) -> Result<(), Fail> {
    for (number, want) in [
        (0x0100, AttributeCertificateRevision::Revision1_0),
        (0x0200, AttributeCertificateRevision::Revision2_0),
    ] {
        let revision = AttributeCertificateRevision::try_from(number)?;
        assert_eq!(rt; revision, want);
        assert_eq!(rt; revision as u16, number);
    }
    for (number, want) in [
        (1, AttributeCertificateType::X509),
        (2, AttributeCertificateType::PkcsSignedData),
        (3, AttributeCertificateType::Reserved1),
        (4, AttributeCertificateType::TsStackSigned),
    ] {
        let kind = AttributeCertificateType::try_from(number)?;
        assert_eq!(rt; kind, want);
        assert_eq!(rt; kind as u16, number);
    }
    // shows: pe_records/src/certificate_table.rt try_from CertificateRevision
    for number in [0, 1, 0x00FF, 0x0101, 0x0300, 0xFFFF] {
        let refused = AttributeCertificateRevision::try_from(number);
        assert_matches!(rt; refused =>
            Err(Error::Malformed(Reason::CertificateRevision(n))) if n == number);
    }
    // shows: pe_records/src/certificate_table.rt try_from CertificateType
    for number in [0, 5, 0x0100, 0xFFFF] {
        let refused = AttributeCertificateType::try_from(number);
        assert_matches!(rt; refused =>
            Err(Error::Malformed(Reason::CertificateType(n))) if n == number);
    }
    Ok(())
}

#[test]
fn refuses_in_order(rt: HostRuntime) -> Result<(), Fail> {
    // shows: pe_records/src/certificate_table.rt parse CertificateSize
    let cases: [(&[u8], Reason); 4] = [
        (
            &[8, 0, 0, 0, 0, 3, 2, 0],
            Reason::CertificateRevision(0x0300),
        ),
        (
            &[8, 0, 0, 0, 0, 3, 5, 0],
            Reason::CertificateRevision(0x0300),
        ),
        (&[8, 0, 0, 0, 0, 2, 5, 0], Reason::CertificateType(5)),
        (&[10, 0, 0, 0, 0, 3, 5, 0, 1], Reason::CertificateSize(10)),
    ];
    for (bytes, want) in cases {
        let mut offset = 0;
        let refused = AttributeCertificate::parse(bytes, &mut offset).err();
        assert!(rt; matches!(refused, Some(Error::Malformed(reason)) if reason == want));
        assert_eq!(rt; offset, 8);
    }
    for start in [1, 8, 9, usize::MAX] {
        let mut offset = start;
        let refused = AttributeCertificate::parse(&[8, 0, 0, 0, 0, 2, 2, 0], &mut offset).err();
        assert!(rt; matches!(refused, Some(Error::Short { at, needed: 8 }) if at == start));
        assert_eq!(rt; offset, start);
    }
    Ok(())
}

fn signed(length: u32, certificate: &[u8]) -> AttributeCertificate<'_> {
    AttributeCertificate {
        length,
        revision: AttributeCertificateRevision::Revision2_0,
        certificate_type: AttributeCertificateType::PkcsSignedData,
        certificate,
    }
}

#[test]
fn writes_where_it_fits(rt: HostRuntime) -> Result<(), Fail> {
    let certificate = signed(17, &[1, 2, 3, 4, 5, 6, 7, 8, 9]);
    for length in 0..40 {
        let mut out = image(rt.alloc(), length, &[(0, &[7; 39])])?;
        let refused = certificate.write_into(&mut out, 16).err();
        assert!(rt;
            matches!(
                refused,
                Some(Error::Malformed(Reason::WriteFit { end: 40, length: n })) if n == length
            ),
            "{length} bytes"
        );
        assert!(rt; out.iter().all(|byte| *byte == 7), "{length} bytes");
    }
    let mut out = image(rt.alloc(), 40, &[])?;
    assert_eq!(rt; certificate.write_into(&mut out, 16)?, 40);
    let far = certificate.write_into(&mut out, usize::MAX).err();
    assert_matches!(rt; reason_in(far) => Some(Reason::WriteFit { end: u64::MAX, length: 40 }));
    Ok(())
}

/// The end of a signed image of 0x410 bytes.
fn signed_image(alloc: Global) -> Result<Vec<u8>, Fail> {
    let certificate = [9, 0, 0, 0, 0, 2, 2, 0, 0xAA];
    Ok(image(alloc, 0x410, &[(0x400, &certificate)])?)
}

#[test]
fn lists_tables(rt: HostRuntime) -> Result<(), Fail> {
    let bytes = signed_image(rt.alloc())?;
    // The second table ends before the body does.
    for size in [0x10, 8, 1] {
        let listed = enumerate_certificates(rt.alloc(), &bytes, 0x400, size)?;
        assert_eq!(rt; listed.len(), 1);
        for certificate in &listed {
            assert_eq!(rt; certificate.certificate, [0xAA].as_slice());
        }
    }
    for address in [0, 0x400, 0x410] {
        assert!(rt; enumerate_certificates(rt.alloc(), &bytes, address, 0)?.is_empty());
    }
    Ok(())
}

#[test]
fn refuses_tables(rt: HostRuntime) -> Result<(), Fail> {
    let bytes = signed_image(rt.alloc())?;
    // shows: pe_records/src/certificate_table.rt certificates_of_table CertificateTable
    for (address, size, end) in [
        (0x400, 0x11, 0x411),
        (0x411, 0, 0x411),
        (usize::MAX, 1, u64::MAX),
        (0, usize::MAX, u64::MAX),
    ] {
        let refused = enumerate_certificates(rt.alloc(), &bytes, address, size).err();
        assert_matches!(rt; refused =>
            Some(Error::Malformed(Reason::CertificateTable(n))) if n == end);
    }
    // Zeros are no certificate, and the last seven bytes are too few for one.
    let refused = enumerate_certificates(rt.alloc(), &bytes, 0x3F8, 8).err();
    assert_eq!(rt; reason_in(refused), Some(Reason::CertificateRevision(0)));
    let refused = enumerate_certificates(rt.alloc(), &bytes, 0x409, 7).err();
    assert_eq!(rt; short_in(refused), short(0x409, 8));
    Ok(())
}
