//! Fixed bits and last_table_ids that are wrong, and services, streams, networks and last_table_ids that change: 22.

use super::comparison::Comparison;
use super::file::{File, LAST_TABLE_ID, ORIGINAL_NETWORK_ID, SECTION_LENGTH, SERVICE_ID, TRANSPORT_STREAM_ID, VERSION};
use super::given::Given;
use super::layout::rival;

/// Each bit that is fixed: its byte, and its value there.
const FIXED: [(usize, u8); 7] = [
    (SECTION_LENGTH, 0x80),
    (SECTION_LENGTH, 0x40),
    (SECTION_LENGTH, 0x20),
    (SECTION_LENGTH, 0x10),
    (VERSION, 0x80),
    (VERSION, 0x40),
    (VERSION, 0x01),
];

pub fn run(comparison: &mut Comparison) -> Result<(), String> {
    let random = &mut comparison.groups.begin("headers");
    for segments in [&[(0, 1)][..], &[(1, 3)], &[(0, 3), (2, 2)], &[(1, 2), (33, 4), (64, 1)]] {
        let given = Given::short(comparison.caller, random, segments);
        let file = rival(random, &given);
        for place in 0..file.sections.len().min(6) {
            fixed_bits(comparison, &file, place)?;
            triplet_bits(comparison, &file, place)?;
            last_table_ids(comparison, &file, place)?;
        }
        all_alike(comparison, &file)?;
    }
    Ok(())
}

/// Each fixed bit, and all of them, with CRC_32 right and wrong.
fn fixed_bits(comparison: &mut Comparison, file: &File, place: usize) -> Result<(), String> {
    for (byte, bit) in FIXED.into_iter().chain([(SECTION_LENGTH, 0xF0), (VERSION, 0xC1)]) {
        comparison.refused(22, place, &file.with(place, |section| section[byte] ^= bit))?;
        comparison.refused(21, place, &file.with_raw(place, |section| section[byte] ^= bit))?;
        comparison.refused(22, 0, &file.with_from(0, |section| section[byte] ^= bit))?;
    }
    Ok(())
}

/// Each bit of service, stream and network in one section: the first one decides what the others have.
fn triplet_bits(comparison: &mut Comparison, file: &File, place: usize) -> Result<(), String> {
    for (byte, bit) in triplet() {
        let changed = file.with(place, |section| section[byte] ^= bit);
        match place {
            0 if file.last() == 0 => comparison.accepted(&changed)?,
            0 => comparison.refused(22, 1, &changed)?,
            _ => comparison.refused(22, place, &changed)?,
        }
        let onwards = file.with_from(place, |section| section[byte] ^= bit);
        match place {
            0 => comparison.accepted(&onwards)?,
            _ => comparison.refused(22, place, &onwards)?,
        }
    }
    Ok(())
}

/// Each bit of service, stream and network: its byte, and its value there.
fn triplet() -> Vec<(usize, u8)> {
    let ids = [SERVICE_ID, TRANSPORT_STREAM_ID, ORIGINAL_NETWORK_ID];
    ids.into_iter().flat_map(|id| (0..16).map(move |bit| (id + bit / 8, 1 << (bit % 8)))).collect()
}

/// Every other last_table_id in one section, and in all of them.
fn last_table_ids(comparison: &mut Comparison, file: &File, place: usize) -> Result<(), String> {
    let own = file.sections[0][LAST_TABLE_ID];
    for last_table_id in (0x00..=0xFF).filter(|last_table_id| *last_table_id != own) {
        let changed = file.with(place, |section| section[LAST_TABLE_ID] = last_table_id);
        let in_range = (0x50..=0x5F).contains(&last_table_id);
        match place {
            0 if !in_range => comparison.refused(22, 0, &changed)?,
            0 if file.last() > 0 => comparison.refused(22, 1, &changed)?,
            0 => comparison.answers((25, file.bytes().len()), &changed.bytes(), file.base_day)?,
            _ => comparison.refused(22, place, &changed)?,
        }
    }
    Ok(())
}

/// Every last_table_id, in every section alike: 22 out of range, 23 if a table is past it, and 25 if tables are
/// missing.
fn all_alike(comparison: &mut Comparison, file: &File) -> Result<(), String> {
    let own = file.sections[0][LAST_TABLE_ID];
    for last_table_id in 0x00..=0xFF {
        let changed = file.with_from(0, |section| section[LAST_TABLE_ID] = last_table_id);
        let past = file.sections.iter().position(|section| section[0] > last_table_id);
        match (last_table_id, past) {
            (0x00..=0x4F | 0x60..=0xFF, _) => comparison.refused(22, 0, &changed)?,
            (_, Some(place)) => comparison.refused(23, place, &changed)?,
            (_, None) if last_table_id == own => comparison.accepted(&changed)?,
            _ => comparison.answers((25, file.bytes().len()), &changed.bytes(), file.base_day)?,
        }
    }
    Ok(())
}
