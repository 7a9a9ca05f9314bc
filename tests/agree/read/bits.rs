//! Every single bit of some files flipped: as it is, which CRC_32 shows, and with CRC_32 made anew.

use super::comparison::Comparison;
use super::file::{close, File, CRC};
use super::given::Given;

pub fn run(comparison: &mut Comparison) -> Result<(), String> {
    let random = &mut comparison.groups.begin("bits");
    for segments in [&[][..], &[(0, 2)], &[(1, 3), (3, 1)], &[(0, 1), (33, 4), (66, 5)]] {
        let given = Given::short(comparison.caller, random, segments);
        let file = given.built().expect("a few events are packable");
        for place in 0..file.sections.len() {
            for bit in 0..8 * file.sections[place].len() {
                flipped(comparison, &file, place, bit)?;
            }
        }
    }
    Ok(())
}

fn flipped(comparison: &mut Comparison, file: &File, place: usize, bit: usize) -> Result<(), String> {
    let flip = |section: &mut Vec<u8>| section[bit / 8] ^= 1 << (bit % 8);
    let bytes = file.with_raw(place, flip).bytes();
    if comparison.alike(&bytes, file.base_day)?.number == 0 {
        let fault = format!("check accepted a file with bit {bit} of section {place} flipped");
        return Err(comparison.describe(&fault, &bytes, file.base_day, None));
    }
    let is_length = (12..24).contains(&bit);
    if bit / 8 < file.sections[place].len() - CRC && !is_length {
        let closed = file.with_raw(place, |section| {
            flip(section);
            close(section);
        });
        comparison.alike(&closed.bytes(), file.base_day)?;
    }
    Ok(())
}
