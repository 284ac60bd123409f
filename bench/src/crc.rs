//! Check bytes (CRC_B), bit by bit and by a table.

pub const START: u16 = 0xFFFF;

const POLYNOMIAL: u16 = 0x8408;

/// The eight bits of a byte enter the register, lowest first.
///
/// The polynomial is masked by the low bit and not put behind an `if`: LLVM knows a loop with that `if` for a CRC
/// and makes a table of it, so that nothing here would be bit by bit.
pub const fn fold_bits(reg: u16, byte: u8) -> u16 {
    let mut reg = reg ^ byte as u16;
    let mut bit = 0;
    while bit < 8 {
        reg = (reg >> 1) ^ (POLYNOMIAL & (reg & 1).wrapping_neg());
        bit += 1;
    }
    reg
}

/// What a byte does to a register of zeros.
static TABLE: [u16; 256] = {
    let mut table = [0; 256];
    let mut byte = 0;
    while byte < 256 {
        table[byte] = fold_bits(0, byte as u8);
        byte += 1;
    }
    table
};

/// A byte enters the register by one look into the table.
pub fn fold_table(reg: u16, byte: u8) -> u16 {
    let [low, high] = reg.to_le_bytes();
    TABLE[usize::from(low ^ byte)] ^ u16::from(high)
}
