//! Document 01, "The trace form": the widths of the fields, shared by the reader and the writer.

/// The bytes of the header's 48 bits.
pub const HEADER_LENGTH: usize = 6;

pub const KIND_WIDTH: u32 = 4;
pub const DOMAIN_WIDTH: u32 = 3;
pub const CONTEXT_WIDTH: u32 = 4;
pub const PAGE_WIDTH: u32 = 5;
pub const FRAME_WIDTH: u32 = 6;
pub const OFF_WIDTH: u32 = 12;
pub const LEN_WIDTH: u32 = 12;
pub const TRAP_KIND_WIDTH: u32 = 1;
pub const MASK_WIDTH: u32 = 8;

pub const PAGE_SIZE_WIDTH: u32 = 8;
pub const SIGNATURES_WIDTH: u32 = 16;
pub const RESERVED_WIDTH: u32 = 6;

/// The widths of a kind's fields, after the kind itself. The kind is 0 to 13.
pub fn widths(kind: u8) -> &'static [u32] {
    match kind {
        0 | 6 => &[DOMAIN_WIDTH, CONTEXT_WIDTH],
        1 => &[DOMAIN_WIDTH],
        2 => &[DOMAIN_WIDTH, PAGE_WIDTH, FRAME_WIDTH],
        3 => &[DOMAIN_WIDTH, PAGE_WIDTH],
        4 | 5 => &[FRAME_WIDTH, OFF_WIDTH, LEN_WIDTH],
        7 => &[CONTEXT_WIDTH, CONTEXT_WIDTH],
        8 => &[CONTEXT_WIDTH],
        9 | 10 => &[CONTEXT_WIDTH, PAGE_WIDTH],
        11 | 12 => &[CONTEXT_WIDTH, PAGE_WIDTH, OFF_WIDTH, LEN_WIDTH],
        _ => &[CONTEXT_WIDTH, TRAP_KIND_WIDTH, MASK_WIDTH],
    }
}

/// The whole bytes of a kind and its fields, without its data.
pub fn head_length(kind: u8) -> usize {
    let bits = KIND_WIDTH + widths(kind).iter().sum::<u32>();
    bits.div_ceil(8) as usize
}

/// Fields taken from, or put into, at most eight bytes, most significant bit first.
#[derive(Clone, Copy)]
pub struct Bits {
    number: u64,
    left: u32,
}

impl Bits {
    /// The bits of some bytes, to be taken.
    pub fn of(bytes: &[u8]) -> Bits {
        let number = bytes.iter().fold(0, |number, byte| number << 8 | u64::from(*byte));
        Bits { number, left: 8 * bytes.len() as u32 }
    }

    /// No bits yet, with room for a number of bytes.
    pub fn room(bytes: usize) -> Bits {
        Bits { number: 0, left: 8 * bytes as u32 }
    }

    /// Takes the next field.
    pub fn take(&mut self, width: u32) -> u16 {
        self.left -= width;
        (self.number >> self.left & ((1 << width) - 1)) as u16
    }

    /// Whether the bits not yet taken are all zero.
    pub fn rest_is_zero(&self) -> bool {
        self.number & ((1 << self.left) - 1) == 0
    }

    /// Puts the next field; its number fits the width.
    pub fn put(&mut self, number: u16, width: u32) {
        self.left -= width;
        self.number |= u64::from(number) << self.left;
    }

    /// Writes the bits as whole bytes, those not put being zero.
    pub fn write(&self, out: &mut [u8]) {
        let bytes = self.number.to_be_bytes();
        out.copy_from_slice(&bytes[8 - out.len()..]);
    }
}
