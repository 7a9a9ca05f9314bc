//! Files that are built under versions, rebuilt and changed, for what versions.rs, version_rules.rs, version_changes.rs
//! and version_details.rs show.

use crate::chirdaluko::{build, check, crc32, rebuild, Caller, Identity, Pools, Previous, RebuildRefusal, Record};
use crate::chirdaluko::{RECORD, TABLES};
use crate::edit_details::NO_POOLS;
use crate::inputs::numbers;
use crate::schedule::{BASE_DAY, IDENTITY};
use crate::sections;

/// Bytes that hold every file here.
pub const ROOM: usize = 65_536;

/// Sixteen versions, of which these are the first; the others are 0.
pub fn versions(first: &[u8]) -> [u8; TABLES] {
    let mut versions = [0; TABLES];
    versions[..first.len()].copy_from_slice(first);
    versions
}

/// The worked identity with these versions.
pub fn identity(first: &[u8]) -> Identity {
    Identity { versions: versions(first), ..IDENTITY }
}

/// Build's file of events without descriptors under these versions.
pub fn built(caller: Caller, records: &[Record], first: &[u8]) -> Vec<u8> {
    let mut out = vec![0; ROOM];
    let length = build(caller, &numbers(records), records.len(), NO_POOLS, BASE_DAY, identity(first), &mut out);
    out.truncate(length.expect("a file"));
    out
}

/// The worked base day's file as the previous one.
pub fn on_air(file: &[u8]) -> Previous<'_> {
    Previous { file, base_day: BASE_DAY }
}

/// What rebuild writes of a list, or its refusal.
pub fn rebuilt_with(
    caller: Caller,
    previous: Previous,
    list: &[u32],
    pools: Pools,
    base_day: u32,
) -> Result<Vec<u8>, RebuildRefusal> {
    let mut out = vec![0; ROOM];
    let length = rebuild(caller, previous, list, list.len() / RECORD, pools, base_day, &mut out)?;
    out.truncate(length);
    Ok(out)
}

/// The same for events without descriptors under the worked base day, of a previous file that is accepted.
pub fn rebuilt(caller: Caller, previous: &[u8], records: &[Record]) -> Vec<u8> {
    rebuilt_with(caller, on_air(previous), &numbers(records), NO_POOLS, BASE_DAY).expect("a rebuilt file")
}

/// The versions that check returns, those of tables that the file has. A table that it has not has 0.
pub fn versions_of(caller: Caller, file: &[u8], base_day: u32) -> Vec<u8> {
    let versions = check(caller, file, base_day).expect("a file that is accepted").identity.versions;
    let (present, absent) = versions.split_at(tables(file));
    assert!(absent.iter().all(|&version| version == 0));
    present.to_vec()
}

/// How many tables a file has, by last_table_id of its first section.
pub fn tables(file: &[u8]) -> usize {
    usize::from(file[13]) - 0x50 + 1
}

/// The file with the version of each section that is chosen, and its CRC_32 made right.
pub fn with_version(file: &[u8], version: u8, is_chosen: impl Fn(&[u8]) -> bool) -> Vec<u8> {
    let changed = |section: &[u8]| {
        let mut section = section.to_vec();
        if is_chosen(&section) {
            section[5] = 0xC1 | version << 1;
            seal(&mut section);
        }
        section
    };
    sections::of(file).into_iter().flat_map(|(_, section)| changed(section)).collect()
}

pub fn seal(section: &mut [u8]) {
    let (front, crc) = section.split_at_mut(section.len() - 4);
    crc.copy_from_slice(&crc32(front).to_be_bytes());
}
