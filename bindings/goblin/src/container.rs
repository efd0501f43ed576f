//! The width of a binary, and the order of its bytes.

pub use scroll::Endian;

/// The width of this machine's addresses.
pub const CONTAINER: Container = if usize::BITS == 64 { Container::Big } else { Container::Little };

/// The width of the addresses of a binary; as a default that of this machine.
#[derive(Clone, Copy, Debug, PartialEq, Eq)]
pub enum Container {
    /// 32 bits.
    Little,
    /// 64 bits.
    Big,
}

impl Container {
    /// Whether addresses have 64 bits.
    pub fn is_big(self) -> bool {
        self == Container::Big
    }
}

impl Default for Container {
    fn default() -> Self {
        CONTAINER
    }
}

/// What a read of a binary depends on; as a default this machine's.
#[derive(Clone, Copy, Debug, Default, PartialEq)]
pub struct Ctx {
    /// The width of addresses.
    pub container: Container,
    /// The order of bytes.
    pub le: Endian,
}

impl Ctx {
    /// Both.
    pub fn new(container: Container, le: Endian) -> Self {
        Ctx { container, le }
    }

    /// Whether addresses have 64 bits.
    pub fn is_big(self) -> bool {
        self.container.is_big()
    }

    /// Whether the lowest byte of a number comes first.
    pub fn is_little_endian(self) -> bool {
        self.le.is_little()
    }

    /// The bytes of an address.
    pub fn size(self) -> usize {
        if self.is_big() {
            8
        } else {
            4
        }
    }
}

impl From<Container> for Ctx {
    fn from(container: Container) -> Self {
        Ctx { container, ..Default::default() }
    }
}

impl From<Endian> for Ctx {
    fn from(le: Endian) -> Self {
        Ctx { le, ..Default::default() }
    }
}
