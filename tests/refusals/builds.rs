//! Build's refusals, and what Plan says in their place.

use crate::chirdaluko::{build, plan, BuildRefusal, Caller, Identity, Planned, Pools, Record, TABLES};
use crate::inputs::{chain, event, events_in_section, numbers, row, tagged, TAGGED};
use crate::rebuilds;
use crate::{Rows, ALL, NEED, SEGMENT, ZERO};

const SEGMENT_SECONDS: u32 = 10_800;
const LEGAL: [u8; TABLES] = [31; TABLES];

pub fn run(rows: &mut Rows) {
    let (one, twice) = ([event(1, 100)], [event(1, 100), event(1, 200)]);
    versions(rows, &twice);
    refused(rows, &twice, 65_472, LEGAL, BuildRefusal::Unsound, ZERO);
    refused(rows, &one, 65_472, LEGAL, BuildRefusal::OutputShort { needed: 30 }, NEED);
    planned(rows.caller, &one, [1, 0, 0, 0, 0]);
    planned(rows.caller, &twice, [254; 5]);
    overlap(rows);
    event_limit(rows);
    unpackable(rows);
    forbidden_tag(rows);
}

/// Each of the sixteen versions above the most, where the list has events of table 0x50 alone.
fn versions(rows: &mut Rows, twice: &[Record]) {
    for table in 0..TABLES {
        for version in [32, 255] {
            let mut versions = LEGAL;
            versions[table] = version;
            refused(rows, twice, 65_473, versions, BuildRefusal::BaseDay, ZERO);
            refused(rows, twice, 65_472, versions, BuildRefusal::Version, ZERO);
        }
    }
}

/// Two events that touch; then a second more of the first, and of the second.
fn overlap(rows: &mut Rows) {
    let (touching, earlier) = ([event(1, 100), event(2, 160)], [event(1, 100), event(2, 159)]);
    let longer = [Record { duration: 61, ..touching[0] }, touching[1]];
    refused(rows, &touching, 65_472, LEGAL, BuildRefusal::OutputShort { needed: 42 }, NEED);
    planned(rows.caller, &touching, [1, 0, 0, 0, 0]);
    for overlapping in [earlier, longer] {
        refused(rows, &overlapping, 65_472, LEGAL, BuildRefusal::Unsound, ZERO);
        planned(rows.caller, &overlapping, [254; 5]);
    }
}

/// As many events as the caller may have, in segment 0; then one more.
fn event_limit(rows: &mut Rows) {
    let caller = rows.caller;
    let most = caller.events_max();
    let records = row(most + 1);
    let sections = most.div_ceil(events_in_section(caller));
    let needed = 18 * sections + 12 * most;
    refused(rows, &records[..most], 65_472, LEGAL, BuildRefusal::OutputShort { needed }, NEED);
    planned(caller, &records[..most], [sections as u8, 0, 0, 0, 0]);
    refused(rows, &records, 65_472, LEGAL, BuildRefusal::Unsound, ZERO);
    planned(caller, &records, [254; 5]);
}

/// Segment 1 holds its event in one section; 2 and 4 have each an event that no section holds; 3 would need a ninth
/// section.
fn unpackable(rows: &mut Rows) {
    let caller = rows.caller;
    let chain_max = caller.chain_max() as u32;
    let held = |id, start| Record { marks: Record::SERIES_POOL, chain_length: chain_max, ..event(id, start) };
    let large = |id, start| Record { chain_length: chain_max + 1, ..event(id, start) };
    let at = |segment| SEGMENT_SECONDS * segment;
    let mut records = vec![held(1, at(1)), large(2, at(2))];
    records.extend((0..9).map(|place| held(10 + place, at(3) + 60 * place)));
    records.push(large(3, at(4)));
    refused(rows, &records, 65_472, LEGAL, BuildRefusal::Unpackable { segment: 2 }, SEGMENT);
    planned(caller, &records, [1, 1, 255, 255, 255]);
    records.remove(1);
    refused(rows, &records, 65_472, LEGAL, BuildRefusal::Unpackable { segment: 3 }, SEGMENT);
    planned(caller, &records, [1, 1, 1, 255, 255]);
    records.remove(1);
    planned(caller, &records, [1, 1, 1, 8, 255]);
}

/// The parts behind the day pool's large chain: with tag 0xFE a chain, with tag 0xFF none.
fn forbidden_tag(rows: &mut Rows) {
    let caller = rows.caller;
    let behind = caller.chain_max() as u32 + 1;
    let part = |offset| Record { offset, chain_length: TAGGED, ..event(1, 100) };
    let (legal, forbidden) = ([part(behind)], [part(behind + TAGGED)]);
    refused(rows, &legal, 65_472, LEGAL, BuildRefusal::OutputShort { needed: 37 }, NEED);
    planned(caller, &legal, [1, 0, 0, 0, 0]);
    refused(rows, &forbidden, 65_472, LEGAL, BuildRefusal::Unsound, ZERO);
    planned(caller, &forbidden, [254; 5]);
}

/// The day pool has a chain that no section holds by one byte, and which without its last byte is none, and behind it
/// the parts with tags 0xFE and 0xFF; the series pool is the longest chain that a section holds.
fn with_pools<T>(caller: Caller, records: &[Record], call: impl FnOnce(&[u32], Pools) -> T) -> T {
    let day = [&chain(caller.chain_max() + 1)[..], &tagged(0xFE), &tagged(0xFF)].concat();
    call(&numbers(records), Pools { day: &day, series: &chain(caller.chain_max()) })
}

/// The output has 29 bytes, and each stays. Rebuild, which takes no versions, says the same, 2 aside.
fn refused(
    rows: &mut Rows,
    records: &[Record],
    base_day: u32,
    versions: [u8; TABLES],
    refusal: BuildRefusal,
    returned: &'static str,
) {
    let caller = rows.caller;
    let identity = Identity { service_id: 1, transport_stream_id: 2, original_network_id: 3, versions };
    let mut out = [0xA5; 29];
    with_pools(caller, records, |list, pools| {
        let said = build(caller, list, records.len(), pools, base_day, identity, &mut out);
        assert_eq!(said, Err(refusal));
        assert_eq!(out, [0xA5; 29]);
        rows.add("Build", refusal.number(), returned, ALL);
        if refusal != BuildRefusal::Version {
            rebuilds::refused(rows, list, pools, base_day, refusal, returned);
        }
    });
}

/// The counts of table 0x50's first segments; behind them there is nothing, or the list is unsound.
fn planned(caller: Caller, records: &[Record], first: [u8; 5]) {
    let mut counts = [0xA5; 512];
    with_pools(caller, records, |list, pools| plan(caller, list, records.len(), pools, &mut counts));
    assert_eq!(counts[..5], first);
    let behind = if first[0] == 254 { Planned::Unsound } else { Planned::Outside };
    assert!(counts[5..].iter().all(|&count| Planned::of(count) == behind));
    assert!(counts.iter().all(|&count| Planned::of(count).number() == count));
}
