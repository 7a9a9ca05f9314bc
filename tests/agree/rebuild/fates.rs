//! What becomes of each table, by a comparison apart from both implementations: 02, W-208.

use crate::read::{File, CRC, TABLE_ID, VERSION};

#[derive(Clone, Copy, Debug, PartialEq)]
pub enum Fate {
    /// Neither file has it.
    Absent,
    /// It keeps its version.
    Kept,
    /// It takes the old one plus 1 modulo 32.
    Raised,
    /// It was not there before.
    New,
    /// It was there before, and is no more.
    Gone,
}

/// Of each table, by the previous file and the one that Build writes, under whatever versions.
pub type Fates = [Fate; 16];

pub fn fates(previous: &File, built: &File) -> Fates {
    std::array::from_fn(|table| match (table_aside(previous, table), table_aside(built, table)) {
        (None, None) => Fate::Absent,
        (None, Some(_)) => Fate::New,
        (Some(_), None) => Fate::Gone,
        (Some(before), Some(now)) if before == now => Fate::Kept,
        (Some(_), Some(_)) => Fate::Raised,
    })
}

/// The bytes of a table, "version and CRC aside", if the file has it.
fn table_aside(file: &File, table: usize) -> Option<Vec<u8>> {
    let sections = file.sections.iter().filter(|section| usize::from(section[TABLE_ID]) == 0x50 + table);
    let aside = |section: &Vec<u8>| [&section[..VERSION], &section[VERSION + 1..section.len() - CRC]].concat();
    let bytes = sections.map(aside).collect::<Vec<_>>();
    (!bytes.is_empty()).then(|| bytes.concat())
}

/// The versions that the rebuilt file has, 0 for tables that it has not.
pub fn versions(previous: &File, fates: Fates) -> [u8; 16] {
    std::array::from_fn(|table| match fates[table] {
        Fate::Kept => version(previous, table),
        Fate::Raised => (version(previous, table) + 1) % 32,
        Fate::New | Fate::Gone | Fate::Absent => 0,
    })
}

/// The version of a table that the file has.
pub fn version(file: &File, table: usize) -> u8 {
    let section = file.sections.iter().find(|section| usize::from(section[TABLE_ID]) == 0x50 + table);
    section.expect("a section of the table")[VERSION] >> 1 & 31
}
