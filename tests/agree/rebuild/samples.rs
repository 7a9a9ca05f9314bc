//! Rebuilt files in raw numbers: 02, W-208.

use super::case::Case;
use super::comparison::Comparison;
use crate::lists::List;
use crate::other::{crc32, Previous};
use crate::pools::Pools;

/// A second of programme at midnight of the base day, 49,273, another four days later, and a third eight days later.
const FIRST: [u8; 12] = [0x00, 0x01, 0xC0, 0x79, 0x00, 0x00, 0x00, 0x00, 0x00, 0x01, 0x00, 0x00];
const SECOND: [u8; 12] = [0x00, 0x02, 0xC0, 0x7D, 0x00, 0x00, 0x00, 0x00, 0x00, 0x01, 0x00, 0x00];
const LONGER: [u8; 12] = [0x00, 0x02, 0xC0, 0x7D, 0x00, 0x00, 0x00, 0x00, 0x00, 0x02, 0x00, 0x00];
const THIRD: [u8; 12] = [0x00, 0x03, 0xC0, 0x81, 0x00, 0x00, 0x00, 0x00, 0x00, 0x01, 0x00, 0x00];

const RECORDS: [u32; 18] = [1, 0, 1, 0, 0, 0, 2, 345_600, 1, 0, 0, 0, 3, 691_200, 1, 0, 0, 0];

pub fn run(comparison: &mut Comparison) -> Result<(), String> {
    let random = &mut comparison.groups.begin("samples");
    let pools = Pools::of_chains(random, 0, 0);
    let longer = [RECORDS[..8].to_vec(), vec![2, 0, 0, 0]].concat();
    // Version 3 in table 0x50, and 31 in table 0x51.
    let two = [table(0x50, 3, 0x51, &FIRST), table(0x51, 31, 0x51, &SECOND)].concat();
    let rows = [
        ("the same list", two.clone(), RECORDS[..12].to_vec(), two.clone()),
        (
            "an event of 0x51 that is longer: 31 rises to 0",
            two.clone(),
            longer,
            [table(0x50, 3, 0x51, &FIRST), table(0x51, 0, 0x51, &LONGER)].concat(),
        ),
        (
            "a new last table: all rise, for last_table_id",
            two.clone(),
            RECORDS.to_vec(),
            [table(0x50, 4, 0x52, &FIRST), table(0x51, 0, 0x52, &SECOND), table(0x52, 0, 0x52, &THIRD)].concat(),
        ),
        ("no last table any more", two, RECORDS[..6].to_vec(), table(0x50, 4, 0x50, &FIRST)),
        (
            "another packing of 0x50: an empty segment behind its event",
            [long_table(3, 0x51), table(0x51, 31, 0x51, &SECOND)].concat(),
            RECORDS[..12].to_vec(),
            [table(0x50, 4, 0x51, &FIRST), table(0x51, 31, 0x51, &SECOND)].concat(),
        ),
        (
            "no event that stays: a new table has version 0",
            section(&[0x50, 0xF0, 0x0F, 0x00, 0x01, 0xFF, 0x00, 0x00, 0x00, 0x02, 0x00, 0x03, 0x00, 0x50]),
            RECORDS[..12].to_vec(),
            [table(0x50, 0, 0x51, &FIRST), table(0x51, 0, 0x51, &SECOND)].concat(),
        ),
    ];
    for (name, previous, numbers, wanted) in rows {
        let list = List { count: numbers.len() / 6, numbers };
        let previous = Previous { file: &previous, base_day: 49_273 };
        let case = Case { previous, pools: &pools, list: &list, base_day: 49_273, room: wanted.len() };
        let (built, file) = comparison.alike(case)?;
        if built.number != 0 || file != wanted {
            return Err(format!("Rebuild, {name}: answered {built:?} and left {file:02X?}, and not {wanted:02X?}"));
        }
    }
    Ok(())
}

/// A table with this version, of one section with one event.
fn table(table_id: u8, version: u8, last_table_id: u8, event: &[u8]) -> Vec<u8> {
    let version = 0xC1 + 2 * version;
    let front = [table_id, 0xF0, 0x1B, 0x00, 0x01, version, 0x00, 0x00, 0x00, 0x02, 0x00, 0x03, 0x00, last_table_id];
    section(&[&front, event].concat())
}

/// Table 0x50 with an empty segment behind its event.
fn long_table(version: u8, last_table_id: u8) -> Vec<u8> {
    let version = 0xC1 + 2 * version;
    let first = [0x50, 0xF0, 0x1B, 0x00, 0x01, version, 0x00, 0x08, 0x00, 0x02, 0x00, 0x03, 0x00, last_table_id];
    let empty = [0x50, 0xF0, 0x0F, 0x00, 0x01, version, 0x08, 0x08, 0x00, 0x02, 0x00, 0x03, 0x08, last_table_id];
    [section(&[&first, &FIRST[..]].concat()), section(&empty)].concat()
}

/// The bytes with their CRC_32.
fn section(bytes: &[u8]) -> Vec<u8> {
    [bytes, &crc32(bytes).to_be_bytes()].concat()
}
