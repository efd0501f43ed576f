//! Whether a call was refused as it has to be, where its errors have no `==`.

use std::fmt::{self, Debug, Write};

/// The start of a text.
#[derive(Drop)]
struct Start {
    bytes: [u8; 160],
    length: usize,
}

impl Write for Start {
    fn write_str(&mut self, text: &str) -> fmt::Result {
        for byte in text.as_bytes() {
            if self.length == self.bytes.len() {
                return Err(fmt::Error);
            }
            self.bytes[self.length] = *byte;
            self.length += 1;
        }
        Ok(())
    }
}

/// What `{:?}` shows of an error: its variant and all its numbers. `None` if that is longer.
fn shown<E: Debug>(error: &E) -> Option<[u8; 160]> {
    let mut start = Start {
        bytes: [0; 160],
        length: 0,
    };
    write!(start, "{error:?}").ok()?;
    Some(start.bytes)
}

/// Whether a call was refused for this.
pub(crate) fn refused<T: Drop, E: Debug + Drop>(returned: Result<T, E>, error: E) -> bool {
    match returned {
        Ok(_) => false,
        Err(own) => match (shown(&own), shown(&error)) {
            (Some(own), Some(wanted)) => own == wanted,
            _ => false,
        },
    }
}
