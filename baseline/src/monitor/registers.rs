//! Registers as bytes, big-endian, and which of them a trap shows.

use crate::event::{REGISTERS_LENGTH, REGISTER_LENGTH};
use crate::records::{Registers, TrapKind};

/// The registers that the trap shows, the others zero. The mask's most significant bit is register 0.
pub(super) fn shown(registers: &Registers, kind: TrapKind, mask: u8) -> Registers {
    let mut given = [0; 8];
    for (i, register) in registers.iter().enumerate() {
        if kind == TrapKind::Call && mask & (0x80 >> i) != 0 {
            given[i] = *register;
        }
    }
    given
}

/// The big-endian number of eight bytes.
pub(super) fn register_of(bytes: &[u8]) -> u64 {
    bytes.iter().fold(0, |number, byte| number << 8 | u64::from(*byte))
}

/// The eight registers of 64 bytes.
pub(super) fn registers_of(data: &[u8]) -> Registers {
    let mut registers = [0; 8];
    for (register, bytes) in registers.iter_mut().zip(data.chunks_exact(REGISTER_LENGTH)) {
        *register = register_of(bytes);
    }
    registers
}

/// Writes the eight registers to the front of the answer buffer.
pub(super) fn give_registers(registers: &Registers, answer: &mut [u8]) {
    for (bytes, register) in answer[..REGISTERS_LENGTH].chunks_exact_mut(REGISTER_LENGTH).zip(registers) {
        bytes.copy_from_slice(&register.to_be_bytes());
    }
}
