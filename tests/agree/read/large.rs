//! Large files: the most events with the longest chains, refusals far behind the start, and 100 MB of anything.

use super::comparison::{Comparison, RECORDS_MAX};
use super::event_fields::{put, DURATION};
use super::file::{File, LAST_SECTION_NUMBER, TABLE_ID, VERSION};
use super::given::Given;
use super::layout::rival;
use crate::lineup::Lineup;
use crate::other::Caller;
use crate::random::Random;

const MB: usize = 1 << 20;
const HUGE: usize = 100 * MB;

pub fn run(comparison: &mut Comparison) -> Result<(), String> {
    let random = &mut comparison.groups.begin("large");
    let given = longest(comparison.caller, random);
    let file = rival(random, &given);
    comparison.accepted(&file)?;
    let (reading, records) = comparison.read(&file.bytes(), file.base_day, RECORDS_MAX)?;
    if !given.is_carried(&records[..6 * reading.count], &file.bytes()) {
        return Err(comparison.describe("Read returned other events", &file.bytes(), file.base_day, None));
    }
    far_refusals(comparison, random, &file)?;
    huge(comparison, random, &file)
}

/// The caller's most events, four in each segment from the first on, with chains as long as its sections hold or half.
fn longest(caller: Caller, random: &mut Random) -> Given {
    let sizes = caller.sizes();
    let mut lineup = Lineup::new();
    for index in 0..sizes.events / 4 {
        let lengths = [(); 4].map(|_| sizes.chain_max() / random.pick(&[1, 1, 1, 2]));
        lineup.segment(random, index, &lengths);
    }
    Given::new(caller, random, lineup)
}

/// Refusals of sections that stand more and more bytes behind the start.
fn far_refusals(comparison: &mut Comparison, random: &mut Random, file: &File) -> Result<(), String> {
    let farthest = file.offset(file.last());
    for bit in [16, 17, 18, 20, 22].into_iter().filter(|bit| farthest >= 1 << bit) {
        let place = (0..file.sections.len()).find(|place| file.offset(*place) >= 1 << bit).expect("a long file");
        let changes: [(u32, fn(&mut Vec<u8>)); 4] = [
            (20, |section| section[TABLE_ID] = 0x60),
            (22, |section| section[VERSION] ^= 0x01),
            (23, |section| section[LAST_SECTION_NUMBER] ^= 0x40),
            (24, |section| put(section, 14 + DURATION, &[0; 3])),
        ];
        let (number, change) = random.pick(&changes);
        comparison.refused(number, place, &file.with(place, change))?;
        comparison.refused(21, place, &file.with_raw(place, |section| section[100] ^= 1))?;
        let bytes = file.bytes();
        comparison.answers((25, file.offset(place)), &bytes[..file.offset(place)], file.base_day)?;
        comparison.answers((20, file.offset(place)), &bytes[..file.offset(place) + 17], file.base_day)?;
    }
    let twice = file.bytes().repeat(2);
    comparison.answers((23, twice.len() / 2), &twice, file.base_day)
}

/// 100 MB of any bytes, and of zeros behind a file.
fn huge(comparison: &mut Comparison, random: &mut Random, file: &File) -> Result<(), String> {
    let block: Vec<_> = (0..MB).map(|_| random.byte()).collect();
    comparison.alike(&block.repeat(HUGE / MB), file.base_day)?;
    let mut bytes = file.bytes();
    let end = bytes.len();
    bytes.resize(HUGE, 0);
    comparison.answers((20, end), &bytes, file.base_day)
}
