//! Sections that are cut, and table_ids, lengths and CRC_32s that are wrong: 20 and 21.

use super::comparison::Comparison;
use super::file::{set_twelve_bits, File, CRC, FRONT, SECTION_LENGTH, TABLE_ID};
use super::given::Given;
use super::layout::rival;
use crate::build::seal;
use crate::other::TABLE_IDS;
use crate::random::Random;

/// Bytes of a file that has few tables and segments without events.
const SHORT: usize = 1_500;

pub fn run(comparison: &mut Comparison) -> Result<(), String> {
    let random = &mut comparison.groups.begin("frames");
    for segments in [&[][..], &[(0, 1)], &[(0, 3), (2, 2)], &[(1, 2), (33, 4)]] {
        let given = Given::short(comparison.caller, random, segments);
        let file = short_rival(random, &given);
        cut_anywhere(comparison, &file)?;
        bytes_behind(comparison, random, &file)?;
        for place in some_places(random, &file) {
            table_ids(comparison, &file, place)?;
            lengths(comparison, random, &file, place)?;
            wrong_crcs(comparison, &file, place)?;
        }
    }
    Ok(())
}

/// A rival's file that is short enough to be cut before each of its bytes.
fn short_rival(random: &mut Random, given: &Given) -> File {
    loop {
        let file = rival(random, given);
        if file.bytes().len() <= SHORT {
            return file;
        }
    }
}

/// The first section, the last and one between.
fn some_places(random: &mut Random, file: &File) -> Vec<usize> {
    let mut places = vec![0, random.below(file.last() + 1), file.last()];
    places.dedup();
    places
}

/// The file cut before each of its bytes: 25 between two sections, and 20 inside of one.
fn cut_anywhere(comparison: &mut Comparison, file: &File) -> Result<(), String> {
    let bytes = file.bytes();
    for place in 0..file.sections.len() {
        let offset = file.offset(place);
        comparison.answers((25, offset), &bytes[..offset], file.base_day)?;
        for end in offset + 1..file.offset(place + 1) {
            comparison.answers((20, offset), &bytes[..end], file.base_day)?;
        }
    }
    Ok(())
}

/// Bytes behind the last section that are no section.
fn bytes_behind(comparison: &mut Comparison, random: &mut Random, file: &File) -> Result<(), String> {
    let bytes = file.bytes();
    for byte in 0x00..=0xFF {
        comparison.answers((20, bytes.len()), &[&bytes[..], &[byte]].concat(), file.base_day)?;
    }
    for length in 2..20 {
        let junk: Vec<_> = [0x50, 0xF0, 0x0F].into_iter().chain((0..length).map(|_| random.byte())).collect();
        let cut = &junk[..length.min(17)];
        comparison.answers((20, bytes.len()), &[&bytes[..], cut].concat(), file.base_day)?;
    }
    Ok(())
}

fn table_ids(comparison: &mut Comparison, file: &File, place: usize) -> Result<(), String> {
    for table_id in (0x00..=0xFF).filter(|table_id| !TABLE_IDS.contains(table_id)) {
        comparison.refused(20, place, &file.with(place, |section| section[TABLE_ID] = table_id))?;
        comparison.refused(20, place, &file.with_raw(place, |section| section[TABLE_ID] = table_id))?;
    }
    Ok(())
}

/// Each section_length that is too short, with as many bytes and a CRC_32 that is right; and each other one, which
/// leaves a section cut or CRC_32 wrong.
fn lengths(comparison: &mut Comparison, random: &mut Random, file: &File, place: usize) -> Result<(), String> {
    for length in 0..FRONT + CRC - 3 {
        let short = file.with_raw(place, |section| {
            section.truncate(3 + length);
            set_twelve_bits(section, SECTION_LENGTH, length);
            if length >= CRC {
                seal(section, 0);
            }
        });
        comparison.refused(20, place, &short)?;
        comparison.refused(
            20,
            place,
            &file.with_raw(place, |section| set_twelve_bits(section, SECTION_LENGTH, length)),
        )?;
    }
    let own = file.sections[place].len() - 3;
    let any = 15 + random.below(4_081);
    let most = *comparison.caller.sizes().section_lengths().end();
    let long = [any, 255, 256, most - 1, most, most + 1, 4_092, 4_093, 4_094, 4_095];
    for length in (15..80).chain(long).filter(|length| *length != own) {
        let wrong = file.with_raw(place, |section| set_twelve_bits(section, SECTION_LENGTH, length));
        let is_framed = length <= most && file.offset(place) + 3 + length <= file.bytes().len();
        comparison.refused(if is_framed { 21 } else { 20 }, place, &wrong)?;
    }
    Ok(())
}

/// Each single bit of the CRC_32, none, all bits inverted, and the CRC_32 of the bytes behind section_length.
fn wrong_crcs(comparison: &mut Comparison, file: &File, place: usize) -> Result<(), String> {
    let at = file.sections[place].len() - CRC;
    for bit in 0..8 * CRC {
        let wrong = file.with_raw(place, |section| section[at + bit / 8] ^= 1 << (bit % 8));
        comparison.refused(21, place, &wrong)?;
    }
    let none = file.with_raw(place, |section| section[at..].fill(0));
    let inverted = file.with_raw(place, |section| section[at..].iter_mut().for_each(|byte| *byte ^= 0xFF));
    let of_others = file.with_raw(place, |section| seal(section, 3));
    [none, inverted, of_others].iter().try_for_each(|wrong| comparison.refused(21, place, wrong))
}
