//! Document 01, "What is answered": the numbers, and the answer of one event.

/// Done.
pub const DONE: u8 = 0;
/// Reader: kind 14 or 15; core: an interrupt with a mask other than 0.
pub const KIND: u8 = 1;
/// A number beyond the setup (writer: beyond its field).
pub const NUMBER: u8 = 2;
/// Len 0, off + len over P, or a wrong data length.
pub const LENGTH: u8 = 3;
/// Domain, context or page in the wrong condition.
pub const CONDITION: u8 = 4;
/// Page not mapped.
pub const UNMAPPED: u8 = 5;
/// More signatures needed than are left.
pub const SIGNATURES: u8 = 6;
/// The acting or resumed domain is Stopped.
pub const STOPPED: u8 = 7;
/// Unveiling failed now.
pub const UNVEILING: u8 = 8;
/// Reader: cut short, or a padding or reserved bit set.
pub const CUT: u8 = 9;
/// Setup out of range, wrong lent length, unsound state.
pub const SETUP: u8 = 10;
/// Answer or output buffer too short.
pub const ROOM: u8 = 11;

/// The answer to one event.
#[derive(Clone, Copy, Debug, PartialEq, Eq)]
pub struct Answer {
    pub number: u8,
    pub seals: u8,
    pub unveils: u8,
    pub used: u16,
}
