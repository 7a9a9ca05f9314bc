//! Previous files that are cut anywhere, that have a bit flipped, and bytes of any kind: Read's number and offset, and
//! the output stays.

use super::case::Case;
use super::comparison::Comparison;
use super::previous_files::PREVIOUS;
use crate::other::Previous;
use crate::random::Random;
use crate::read::{close, Given, CRC};
use crate::tally::{each_kind, Kind};

const CUT: &str = "cut anywhere";
const BITS: &str = "with a bit flipped";
const ANY: &str = "of any bytes";

pub fn kinds() -> Vec<Kind> {
    each_kind(PREVIOUS, [CUT, BITS, ANY])
}

pub fn run(comparison: &mut Comparison) -> Result<(), String> {
    let random = &mut comparison.groups.begin("damaged files");
    cut_anywhere(comparison, random)?;
    flipped(comparison, random)?;
    any_bytes(comparison, random)
}

/// Before each byte: 25 between two sections and for no bytes, and 20 inside of a section.
fn cut_anywhere(comparison: &mut Comparison, random: &mut Random) -> Result<(), String> {
    let given = Given::short(comparison.caller, random, &[(0, 3), (2, 2), (32, 1)]);
    let file = given.built().expect("a few events are packable");
    let bytes = file.bytes();
    for place in 0..file.sections.len() {
        let offset = file.offset(place);
        for end in offset..file.offset(place + 1) {
            let number = if end == offset { 25 } else { 20 };
            let previous = Previous { file: &bytes[..end], base_day: given.base_day };
            comparison.answers((number, offset), Case::of(previous, &given, 500))?;
            comparison.tally.kind((PREVIOUS, CUT));
        }
    }
    Ok(())
}

/// Every bit, as it is and with CRC_32 made anew: some leave a file that is accepted.
fn flipped(comparison: &mut Comparison, random: &mut Random) -> Result<(), String> {
    let given = Given::short(comparison.caller, random, &[(1, 2), (33, 3)]);
    let file = given.built().expect("a few events are packable");
    for (place, section) in file.sections.iter().enumerate() {
        for bit in 0..8 * section.len() {
            let flip = |section: &mut Vec<u8>| section[bit / 8] ^= 1 << (bit % 8);
            let raw = file.with_raw(place, flip);
            let is_covered = bit / 8 < section.len() - CRC && !(12..24).contains(&bit);
            let closed = is_covered.then(|| {
                file.with_raw(place, |section| {
                    flip(section);
                    close(section);
                })
            });
            for file in [Some(raw), closed].into_iter().flatten() {
                let bytes = file.bytes();
                comparison.alike(Case::of(Previous { file: &bytes, base_day: given.base_day }, &given, 500))?;
                comparison.tally.kind((PREVIOUS, BITS));
            }
        }
    }
    Ok(())
}

fn any_bytes(comparison: &mut Comparison, random: &mut Random) -> Result<(), String> {
    let given = Given::short(comparison.caller, random, &[(0, 2)]);
    for length in (0..200).chain([4_096, 70_000]) {
        let mut bytes: Vec<_> = (0..length).map(|_| random.byte()).collect();
        for likely in [false, true] {
            if likely {
                let front = length.min(3);
                bytes[..front].copy_from_slice(&[0x50, 0xF0, 0x0F + random.below(60) as u8][..front]);
            }
            comparison.alike(Case::of(Previous { file: &bytes, base_day: 49_273 }, &given, 500))?;
            comparison.tally.kind((PREVIOUS, ANY));
        }
    }
    Ok(())
}
