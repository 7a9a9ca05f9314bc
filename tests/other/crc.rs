//! CRC_32: 01, "The file of sections". Bit by bit, as the paper has it.

const FIRST: u32 = 0xFFFF_FFFF;
const POLYNOMIAL: u32 = 0x04C1_1DB7;

pub fn crc32(bytes: &[u8]) -> u32 {
    let mut register = FIRST;
    for byte in bytes {
        for bit in (0..8).rev() {
            let out = register >> 31 ^ u32::from(byte >> bit & 1);
            register <<= 1;
            if out == 1 {
                register ^= POLYNOMIAL;
            }
        }
    }
    register
}
