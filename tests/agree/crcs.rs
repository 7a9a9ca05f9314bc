//! CRC_32: the library's is compared with the other implementation's.

use crate::guarded::Guarded;
use crate::other;
use crate::random::Random;

pub const SEED: u64 = 138_183;

pub type Crc = fn(&[u8]) -> u32;

/// How many inputs were compared, or where the two differ.
pub fn run(subject: Crc) -> Result<usize, String> {
    let random = &mut Random::new(SEED);
    // CRC-32/MPEG-2's published check value.
    let check = b"123456789".to_vec();
    let known = [(check, 0x0376_E6E7), (vec![], 0xFFFF_FFFF)];
    for (bytes, wanted) in &known {
        alike(subject, bytes)?;
        if subject(bytes) != *wanted {
            return Err(format!("CRC_32 of {bytes:02X?} is not {wanted:08X}"));
        }
    }
    let mut inputs: Vec<Vec<u8>> = (0x00..=0xFF).map(|byte| vec![byte]).collect();
    for length in 0..=300 {
        inputs.extend([vec![0x00; length], vec![0xFF; length], bytes(random, length), bytes(random, length)]);
    }
    for length in [4_095, 4_096, 4_097, 65_536, 1 << 20] {
        inputs.push(bytes(random, length));
    }
    for _ in 0..200 {
        let length = random.below(20_000);
        inputs.push(bytes(random, length));
    }
    for input in &inputs {
        alike(subject, input)?;
        let section = [&input[..], &subject(input).to_be_bytes()].concat();
        if subject(&section) != 0 {
            return Err(format!("CRC_32 over {} bytes and their CRC_32 is not 0", input.len()));
        }
    }
    Ok(known.len() + inputs.len())
}

fn bytes(random: &mut Random, length: usize) -> Vec<u8> {
    (0..length).map(|_| random.byte()).collect()
}

fn alike(subject: Crc, bytes: &[u8]) -> Result<(), String> {
    let lent = Guarded::new(bytes, 0);
    let as_lent = lent.clone();
    let (got, wanted) = (subject(lent.inside()), other::crc32(bytes));
    if got == wanted && lent == as_lent {
        return Ok(());
    }
    let start = &bytes[..bytes.len().min(32)];
    Err(format!(
        "CRC_32 of {} bytes, first {start:02X?}, seed {SEED}: {got:08X}, and the other implementation {wanted:08X}",
        bytes.len(),
    ))
}
