//! Versions by table (02, W-208): 22 for a section that has another version than an earlier section of its table,
//! wherever that stands; tables alone may differ, and Read gives each its own.

use super::comparison::Comparison;
use super::file::{File, SECTION_NUMBER, TABLE_ID, VERSION};
use super::given::Given;
use super::layout::{rival, Layout};
use crate::random::Random;
use crate::tally::{each_kind, Kind};

const OTHER: &str = "another version";
const SAME: &str = "the same version";

/// Where the section stands: behind an earlier one of its table, or not.
const IN_SEGMENT: &str = "in a later section of a segment";
const NEXT_SEGMENT: &str = "in the next segment";
const LATER_SEGMENT: &str = "in a later segment";
const ONWARDS: &str = "from a section on";
const NEXT_TABLE: &str = "in the next table";
const COMES_BACK: &str = "in a table that comes back";
const SKIPS: &str = "in a table that is not the next";

/// Segments of so many events each, by segment index.
const FILES: [&[(usize, usize)]; 6] = [
    &[(0, 1)],
    &[(0, 5), (1, 3)],
    &[(1, 4), (5, 2)],
    &[(0, 3), (31, 2), (32, 4), (33, 3)],
    &[(2, 4), (64, 6), (67, 1)],
    &[(0, 2), (511, 3)],
];

pub fn kinds() -> Vec<Kind> {
    let mut all = each_kind(OTHER, [IN_SEGMENT, NEXT_SEGMENT, LATER_SEGMENT, ONWARDS, NEXT_TABLE, COMES_BACK, SKIPS]);
    all.extend(each_kind(SAME, [NEXT_TABLE, COMES_BACK, SKIPS]));
    all
}

pub fn run(comparison: &mut Comparison) -> Result<(), String> {
    let random = &mut comparison.groups.begin("versions");
    for segments in FILES.repeat(3) {
        let given = Given::short(comparison.caller, random, segments);
        let file = rival(random, &given);
        for place in some_places(random, &file) {
            in_table(comparison, random, &file, place)?;
            comes_back(comparison, random, &file, place)?;
        }
    }
    every_version(comparison, random)?;
    of_all_tables(comparison, random)
}

/// The first sections, some others and the last.
fn some_places(random: &mut Random, file: &File) -> Vec<usize> {
    let sections = file.sections.len();
    (0..sections).filter(|place| *place < 3 || *place == file.last() || random.below(sections) < 6).collect()
}

/// Another version in one section, and in each of its table from it on.
fn in_table(comparison: &mut Comparison, random: &mut Random, file: &File, place: usize) -> Result<(), String> {
    let bit = random.bit(1, 5) as u8;
    let table_id = file.sections[place][TABLE_ID];
    let is_first = place == 0 || file.sections[place - 1][TABLE_ID] != table_id;
    let is_last = place == file.last() || file.sections[place + 1][TABLE_ID] != table_id;
    let one = file.with(place, |section| section[VERSION] ^= bit);
    let onwards = file.with_from(place, |section| {
        if section[TABLE_ID] == table_id {
            section[VERSION] ^= bit;
        }
    });
    if !is_first {
        comparison.refused(22, place, &one)?;
        comparison.tally.kind((OTHER, behind(file, place)));
        comparison.refused(22, place, &onwards)?;
        comparison.tally.kind((OTHER, ONWARDS));
        return Ok(());
    }
    // A table's first section decides what its others have.
    accepted_with_versions(comparison, &onwards)?;
    if is_last {
        accepted_with_versions(comparison, &one)
    } else {
        comparison.refused(22, place + 1, &one)?;
        comparison.tally.kind((OTHER, behind(file, place + 1)));
        Ok(())
    }
}

/// How a section stands behind the one before it, of the same table.
fn behind(file: &File, place: usize) -> &'static str {
    let [before, own] = [place - 1, place].map(|place| file.sections[place][SECTION_NUMBER] / 8);
    match own {
        _ if own == before => IN_SEGMENT,
        1 => NEXT_SEGMENT,
        _ => LATER_SEGMENT,
    }
}

/// Before the section, and behind the file, a section of some tables, which is not in its place: 22 if the table was
/// there with another version, and 23 otherwise.
fn comes_back(comparison: &mut Comparison, random: &mut Random, file: &File, place: usize) -> Result<(), String> {
    for before in [place, file.sections.len()] {
        let here = file.sections.get(before).map(|section| section[TABLE_ID]);
        let any = 0x50 + random.below(16) as u8;
        for table_id in [0x50, 0x51, 0x52, any].into_iter().filter(|table_id| Some(*table_id) != here) {
            let earlier = file.sections[..before].iter().find(|earlier| earlier[TABLE_ID] == table_id);
            let bit = random.bit(1, 5) as u8;
            for (version, bits) in [(SAME, 0), (OTHER, bit)] {
                let mut changed = file.clone();
                changed.sections.insert(before, earlier.unwrap_or(&file.sections[place]).clone());
                let changed = changed.with(before, |section| {
                    section[TABLE_ID] = table_id;
                    section[VERSION] ^= bits;
                });
                let (number, table) = match earlier {
                    Some(_) => (if version == OTHER { 22 } else { 23 }, COMES_BACK),
                    None => (23, SKIPS),
                };
                comparison.refused(number, before, &changed)?;
                comparison.tally.kind((version, table));
            }
        }
    }
    Ok(())
}

/// Each version in the first table of two, and in the second.
fn every_version(comparison: &mut Comparison, random: &mut Random) -> Result<(), String> {
    let mut given = Given::short(comparison.caller, random, &[(0, 3), (32, 4), (33, 2)]);
    for version in 0..32 {
        for table in [0, 1] {
            given.identity.versions[table] = version;
            let file = rival(random, &given);
            accepted_with_versions(comparison, &file)?;
            let is_same = given.identity.versions[0] == given.identity.versions[1];
            comparison.tally.kind((if is_same { SAME } else { OTHER }, NEXT_TABLE));
        }
    }
    Ok(())
}

/// So many tables with a version each, of which some differ.
fn of_all_tables(comparison: &mut Comparison, random: &mut Random) -> Result<(), String> {
    for tables in 1..=16 {
        for segments in [1, 3] {
            let given = Given::short(comparison.caller, random, &[(0, 2)]);
            let cuts = [(0, vec![1, 1])].into();
            let file = Layout { cuts, segments: vec![segments; tables] }.file(&given);
            accepted_with_versions(comparison, &file)?;
        }
    }
    Ok(())
}

/// The file is accepted, and the versions are those that its sections have, and 0 of tables that it has not.
fn accepted_with_versions(comparison: &mut Comparison, file: &File) -> Result<(), String> {
    comparison.accepted(file)?;
    let mut wanted = [0; 16];
    for section in &file.sections {
        wanted[usize::from(section[TABLE_ID] - 0x50)] = section[VERSION] >> 1 & 31;
    }
    let versions = comparison.alike(&file.bytes(), file.base_day)?.identity.versions;
    if versions == wanted {
        return Ok(());
    }
    let fault = format!("check returned versions {versions:?}, and the file has {wanted:?}");
    Err(comparison.describe(&fault, &file.bytes(), file.base_day, None))
}
