//! Rebuild: 02, W-208.

use super::build::{put, written, Built};
use super::caller::Caller;
use super::read::{check, Reading};
use super::received::{section_length, TABLE_IDS};
use super::schedule::{Lent, PAPERS};
use super::section::{set_version, CRC_BYTES, VERSION_AT};
use std::collections::BTreeMap;

const VERSIONS: u8 = 32;

/// The previous file, with its base day.
#[derive(Clone, Copy)]
pub struct Previous<'a> {
    pub file: &'a [u8],
    pub base_day: u32,
}

/// What Rebuild goes by: which tables are equal, and the versions of others.
#[derive(Clone, Copy)]
pub struct RebuildMethod {
    /// Whether the table's sections, before and now, are equal, "version and CRC aside".
    pub are_equal: fn(&[&[u8]], &[&[u8]]) -> bool,
    /// The version of a table that is not equal, by its old one.
    pub raised: fn(u8) -> u8,
    /// The version of a table that was not there before.
    pub first: u8,
}

/// The sections of each table of a file, by table_id.
type Tables<'a> = BTreeMap<u8, Vec<&'a [u8]>>;

/// "A table whose bytes, version and CRC aside, are equal keeps its version; another takes the old one plus 1 modulo
/// 32; a table not there before takes 0."
pub const REBUILD_PAPERS: RebuildMethod =
    RebuildMethod { are_equal: all_alike, raised: |version| (version + 1) % VERSIONS, first: 0 };

/// "builds under the previous service, stream and network"
pub fn rebuild(caller: Caller, previous: Previous, lent: &Lent, base_day: u32, output: &mut [u8]) -> Built {
    rebuild_by(REBUILD_PAPERS, caller, previous, lent, base_day, output)
}

/// Rebuild by another method than the papers': the self-check's faults have their own.
pub fn rebuild_by(
    method: RebuildMethod,
    caller: Caller,
    previous: Previous,
    lent: &Lent,
    base_day: u32,
    output: &mut [u8],
) -> Built {
    // "The previous file is read first, and its refusal number and offset are returned if Read refuses it"
    let Reading { number, value, identity, .. } = check(caller, previous.file, previous.base_day);
    if number != 0 {
        return Built { number, value };
    }
    // "Build's refusals follow." The versions that Read gave are not above 31.
    let mut file = match written(PAPERS, caller, lent, base_day, identity) {
        Ok(file) => file,
        Err(refusal) => return refusal,
    };
    let versions = versions(method, identity.versions, &tables(previous.file), &tables(&file));
    let mut rest = &mut file[..];
    while !rest.is_empty() {
        let (section, behind) = rest.split_at_mut(section_length(rest));
        let table = table(section[0]);
        if versions[table] != identity.versions[table] {
            set_version(section, versions[table]);
        }
        rest = behind;
    }
    put(&file, output)
}

/// The versions of the tables that there are now, by the old ones.
fn versions(method: RebuildMethod, old: [u8; 16], before: &Tables, now: &Tables) -> [u8; 16] {
    let mut versions = old;
    for (table_id, now) in now {
        let version = &mut versions[table(*table_id)];
        *version = match before.get(table_id) {
            Some(before) if (method.are_equal)(before, now) => *version,
            Some(_) => (method.raised)(*version),
            None => method.first,
        };
    }
    versions
}

/// A table_id's place among the sixteen.
fn table(table_id: u8) -> usize {
    usize::from(table_id - TABLE_IDS.start())
}

fn tables(file: &[u8]) -> Tables<'_> {
    let mut tables = Tables::new();
    let mut rest = file;
    while !rest.is_empty() {
        let (section, behind) = rest.split_at(section_length(rest));
        tables.entry(section[0]).or_default().push(section);
        rest = behind;
    }
    tables
}

/// Whether there are as many sections, each equal to the one in its place.
fn all_alike(before: &[&[u8]], now: &[&[u8]]) -> bool {
    before.len() == now.len() && before.iter().zip(now).all(|(before, now)| is_alike(before, now))
}

/// Whether two sections have the same bytes but for the version and CRC_32. The bits around the version are fixed.
fn is_alike(before: &[u8], now: &[u8]) -> bool {
    let aside = |section: &[u8]| section.len() - CRC_BYTES;
    before[..VERSION_AT] == now[..VERSION_AT]
        && before[VERSION_AT + 1..aside(before)] == now[VERSION_AT + 1..aside(now)]
}
