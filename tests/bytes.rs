//! Numbers and slices.

use pe_core::{
    Error, Reason, read_u8, read_u16, read_u32, read_u64, require_bytes, require_room, set_slice,
    set_u8, set_u16, set_u32, set_u64, slice_at, u8_at, u16_at, u32_at, u64_at,
};
use std::test::Fail;

const BYTES: [u8; 9] = [1, 2, 3, 4, 5, 6, 7, 8, 9];

#[test]
fn reads_little_endian(rt: HostRuntime) -> Result<(), Fail> {
    assert_eq!(rt; u8_at(&BYTES, 8)?, 9);
    assert_eq!(rt; u16_at(&BYTES, 7)?, 0x0908);
    assert_eq!(rt; u32_at(&BYTES, 5)?, 0x0908_0706);
    assert_eq!(rt; u64_at(&BYTES, 1)?, 0x0908_0706_0504_0302);
    assert_eq!(rt; slice_at(&BYTES, 2, 3)?, [3, 4, 5].as_slice());
    assert_eq!(rt; read_u8(&BYTES, 0), 1);
    assert_eq!(rt; read_u16(&BYTES, 0), 0x0201);
    assert_eq!(rt; read_u32(&BYTES, 0), 0x0403_0201);
    assert_eq!(rt; read_u64(&BYTES, 0), 0x0807_0605_0403_0201);
    Ok(())
}

#[test]
fn reads_no_bytes_at_the_very_end(rt: HostRuntime) -> Result<(), Fail> {
    assert!(rt; slice_at(&BYTES, 9, 0)?.is_empty());
    require_bytes(&BYTES, 9, 0)?;
    for refusal in [
        require_bytes(&BYTES, 10, 0).err(),
        u8_at(&BYTES, 9).err(),
        u16_at(&BYTES, 8).err(),
        u32_at(&BYTES, 6).err(),
        u64_at(&BYTES, 2).err(),
        slice_at(&BYTES, usize::MAX, usize::MAX).err(),
    ] {
        assert!(rt; matches!(refusal, Some(Error::Short { .. })));
    }
    Ok(())
}

#[test]
fn writes_little_endian(rt: HostRuntime) -> Result<(), Fail> {
    let mut buffer = [0x55u8; 10];
    set_u8(&mut buffer, 9, 1);
    assert_eq!(rt;
        buffer,
        [0x55, 0x55, 0x55, 0x55, 0x55, 0x55, 0x55, 0x55, 0x55, 1]
    );
    set_u16(&mut buffer, 0, 0x0203);
    assert_eq!(rt; buffer, [3, 2, 0x55, 0x55, 0x55, 0x55, 0x55, 0x55, 0x55, 1]);
    set_u32(&mut buffer, 4, 0x0405_0607);
    assert_eq!(rt; buffer, [3, 2, 0x55, 0x55, 7, 6, 5, 4, 0x55, 1]);
    set_u64(&mut buffer, 1, 0x1112_1314_1516_1718);
    assert_eq!(rt;
        buffer,
        [3, 0x18, 0x17, 0x16, 0x15, 0x14, 0x13, 0x12, 0x11, 1]
    );
    set_slice(&mut buffer, 10, &[]);
    set_slice(&mut buffer, 7, &[9, 8]);
    assert_eq!(rt; buffer, [3, 0x18, 0x17, 0x16, 0x15, 0x14, 0x13, 9, 8, 1]);
    require_room(&buffer, 10, 0)?;
    require_room(&buffer, 7, 3)?;
    Ok(())
}

#[test]
fn refuses_writes_past_the_end(rt: HostRuntime) {
    let buffer = [0x55u8; 4];
    for (offset, n) in [(4, 1), (3, 2), (1, 4), (0, 8), (5, 0), (usize::MAX, 1)] {
        let refusal = require_room(&buffer, offset, n).err();
        assert_matches!(rt; refusal => Some(Error::Malformed(Reason::WriteFit { length: 4, .. })));
    }
}
