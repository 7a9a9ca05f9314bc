//! Sections that are not the next one, and section numbers that do not fit each other: 23.

use super::comparison::Comparison;
use super::file::{File, LAST_SECTION_NUMBER, SECTION_NUMBER, SEGMENT_LAST_SECTION_NUMBER, TABLE_ID, VERSION};
use super::given::Given;
use super::layout::{rival, Layout};

/// Segments of so many events each.
const FILES: [&[(usize, usize)]; 7] = [
    &[],
    &[(0, 1)],
    &[(0, 5)],
    &[(0, 3), (1, 2)],
    &[(1, 9), (3, 4)],
    &[(0, 2), (33, 4), (64, 3)],
    &[(31, 20), (32, 1), (511, 12)],
];

pub fn run(comparison: &mut Comparison) -> Result<(), String> {
    let random = &mut comparison.groups.begin("numbering");
    // Segments of several sections, with a segment behind them and without, and a table behind.
    let given = Given::short(comparison.caller, random, &[(0, 5), (1, 3), (32, 2)]);
    let cuts = [(0, vec![2, 2, 1]), (1, vec![1, 2]), (32, vec![1, 1])];
    let file = Layout::of(cuts.into()).file(&given);
    for place in 0..file.sections.len() {
        in_place(comparison, &file, place)?;
    }
    for segments in FILES.repeat(2) {
        let given = Given::short(comparison.caller, random, segments);
        let file = rival(random, &given);
        let sections = file.sections.len();
        let places: Vec<_> = (0..sections).filter(|_| random.below(sections) < 3).collect();
        for place in places {
            in_place(comparison, &file, place)?;
        }
        comparison.answers((23, file.bytes().len()), &file.bytes().repeat(2), file.base_day)?;
    }
    every_triple(comparison)
}

fn in_place(comparison: &mut Comparison, file: &File, place: usize) -> Result<(), String> {
    numbers(comparison, file, place)?;
    out_of_place(comparison, file, place)
}

/// Every other table_id and section number: the place of a section is never free. An earlier table's id is 22 if the
/// table has another version. Every other G and L, which some segments and tables leave free until a later section, or
/// the end, disagrees.
fn numbers(comparison: &mut Comparison, file: &File, place: usize) -> Result<(), String> {
    let own = &file.sections[place];
    for table_id in (0x50..=0x5F).filter(|table_id| *table_id != own[TABLE_ID]) {
        let is_other = |earlier: &Vec<u8>| earlier[TABLE_ID] == table_id && earlier[VERSION] != own[VERSION];
        let number = if file.sections[..place].iter().any(is_other) { 22 } else { 23 };
        comparison.refused(number, place, &file.with(place, |section| section[TABLE_ID] = table_id))?;
    }
    for number in (0..=0xFF).filter(|number| *number != own[SECTION_NUMBER]) {
        comparison.refused(23, place, &file.with(place, |section| section[SECTION_NUMBER] = number))?;
    }
    for field in [SEGMENT_LAST_SECTION_NUMBER, LAST_SECTION_NUMBER] {
        for number in (0..=0xFF).filter(|number| *number != own[field]) {
            let changed = file.with(place, |section| section[field] = number);
            let reading = comparison.alike(&changed.bytes(), file.base_day)?;
            if reading.number == 0 {
                let fault = "check accepted a G or L that is not the file's";
                return Err(comparison.describe(fault, &changed.bytes(), file.base_day, None));
            }
        }
    }
    Ok(())
}

/// The section missing, doubled, in the place of the next, and first.
fn out_of_place(comparison: &mut Comparison, file: &File, place: usize) -> Result<(), String> {
    let mut missing = file.clone();
    missing.sections.remove(place);
    if place < file.last() {
        comparison.refused(23, place, &missing)?;
        let mut swapped = file.clone();
        swapped.sections.swap(place, place + 1);
        comparison.refused(23, place, &swapped)?;
    } else {
        comparison.answers((25, missing.bytes().len()), &missing.bytes(), file.base_day)?;
    }
    let mut doubled = file.clone();
    doubled.sections.insert(place, file.sections[place].clone());
    comparison.refused(23, place + 1, &doubled)?;
    if place > 0 {
        let later = File { sections: file.sections[place..].to_vec(), base_day: file.base_day };
        comparison.refused(23, 0, &later)?;
    }
    Ok(())
}

/// Files of a section without events whose G and L are any of the first and last ones, and a section behind it.
fn every_triple(comparison: &mut Comparison) -> Result<(), String> {
    let random = &mut comparison.groups.begin("numbers");
    let given = Given::short(comparison.caller, random, &[(1, 2)]);
    let file = rival(random, &given);
    let numbers = [0, 1, 6, 7, 8, 9, 14, 15, 16, 17, 247, 248, 249, 254, 255];
    for last in numbers {
        for segment_last in numbers {
            for next in numbers {
                let mut changed = file.with(0, |section| set(section, 0, segment_last, last));
                changed.sections.truncate(2);
                let changed = changed.with(1, |section| set(section, next, segment_last.max(next), last));
                comparison.alike(&changed.bytes(), file.base_day)?;
            }
        }
    }
    Ok(())
}

fn set(section: &mut [u8], number: u8, segment_last: u8, last: u8) {
    section[SECTION_NUMBER] = number;
    section[SEGMENT_LAST_SECTION_NUMBER] = segment_last;
    section[LAST_SECTION_NUMBER] = last;
}
