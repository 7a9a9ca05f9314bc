//! CRC_32 with one table, a byte a step. It is what Build uses, and what the library is timed beside: bit by bit is no
//! measure of speed.

const POLYNOMIAL: u32 = 0x04C1_1DB7;

/// What the register's high byte, shifted out, adds to the register.
static TABLE: [u32; 256] = table();

const fn table() -> [u32; 256] {
    let mut table = [0; 256];
    let mut byte = 0;
    while byte < 256 {
        let mut register = (byte as u32) << 24;
        let mut bit = 0;
        while bit < 8 {
            let high = register >> 31;
            register = register << 1 ^ high * POLYNOMIAL;
            bit += 1;
        }
        table[byte] = register;
        byte += 1;
    }
    table
}

pub fn crc32_by_table(bytes: &[u8]) -> u32 {
    bytes.iter().fold(0xFFFF_FFFF, |register, &byte| register << 8 ^ TABLE[(register >> 24 ^ u32::from(byte)) as usize])
}
