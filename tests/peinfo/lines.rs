//! What is printed of the images that are made by hand.

pub const HEADERS_LINE: &[u8] = b"image 64 entry 00001020 base 0000000140000000\n";

pub const DEBUG_LINES: &[u8] = b"image 64 entry 00001000 base 0000000140000000\n\
debug 16 0 00000000 00000000\n";

pub const CERTIFICATE_LINES: &[u8] = b"image 64 entry 00001000 base 0000000140000000\n\
debug 16 0 00000000 00000000\n\
certificate 9 0200 0002\n";

pub const FUNCTION_LINES: &[u8] = b"image 64 entry 00001000 base 0000000140000000\n\
debug 16 0 00000000 00000000\n\
certificate 9 0200 0002\n\
function 00001000 00001010 00001020\n\
function 00001020 00001040 00001001\n";

pub const ARM64_FUNCTION_LINES: &[u8] = b"image 64 entry 00001000 base 0000000140000000\n\
debug 16 0 00000000 00000000\n\
certificate 9 0200 0002\n\
function64 00001000 00001010\n\
function64 00001020 00001020\n\
function64 00001040 00001001\n";

pub const CUT_LINES: &[u8] = b"image 64 entry 00001000 base 0000000140000000\n\
debug 16 0 00000000 00000000\n\
debug 0 0 00000000 00000000\n\
debug 0 0 00000000 00000000\n\
debug 0 0 00000000 00000000\n\
debug 0 0 00000000 00000000\n\
debug 0 0 00000000 00000000\n\
debug 0 0 00000000 00000000\n\
debug 0 0 00000000 00000000\n\
debug 0 0 00000000 00000000\n\
debug 0 0 00000000 00000000\n\
debug 0 0 00000000 00000000\n\
debug 0 0 00000000 00000000\n\
debug 0 0 00000000 00000000\n\
debug 0 0 00000000 00000000\n\
debug 0 0 00000000 00000000\n\
debug 0 0 00000000 00000000\n\
debug cut\n";

pub const ZERO_LINE: &[u8] = b"image 32 entry 00000000 base 0000000000000000\n";
