//! 01, "Samples with the cuts marked": those that a file shows, and the same for the cable caller of 02, W-206.

use super::comparison::Comparison;
use super::request::Request;
use super::sections::Cut;
use crate::lineup::{Lineup, SEGMENT_SECONDS};
use crate::lists::List;
use crate::other::{Caller, Identity, Triplet};
use crate::pools::Pools;
use crate::random::Random;

const TRIPLET: Triplet = Triplet { service_id: 1, transport_stream_id: 2, original_network_id: 3 };

/// Events, by start and chain length, and the cuts of their file or the segment that is unpackable.
type Sample = (Vec<(u32, usize)>, Result<Vec<Cut>, usize>);

pub fn run(comparison: &mut Comparison) -> Result<(), String> {
    let random = &mut comparison.groups.begin("samples");
    known_bytes(comparison, random)?;
    for row in by_start().into_iter().chain(by_size(comparison.caller)) {
        sample(comparison, random, row)?;
    }
    Ok(())
}

/// Events without descriptors: which segment a start is in.
fn by_start() -> Vec<Sample> {
    let tables = (0x50..0x5F).map(|table| (table, 0, 0)).collect::<Vec<_>>();
    vec![
        (vec![], Ok(vec![(0x50, 0, 0)])),
        (vec![(10_799, 0)], Ok(vec![(0x50, 0, 1)])),
        (vec![(10_800, 0)], Ok(vec![(0x50, 0, 0), (0x50, 8, 1)])),
        (vec![(345_599, 0)], Ok(last_of(0x50))),
        (vec![(345_600, 0)], Ok(vec![(0x50, 0, 0), (0x51, 0, 1)])),
        (vec![(5_529_599, 0)], Ok([tables, last_of(0x5F)].concat())),
        (vec![(45_900, 0)], Ok(vec![(0x50, 0, 0), (0x50, 8, 0), (0x50, 16, 0), (0x50, 24, 0), (0x50, 32, 1)])),
    ]
}

/// What the caller's sections hold: the longest chain and one byte more; two chains that fill a section together and
/// one byte more; events without descriptors that fill a section and one more; eight sections and a ninth.
fn by_size(caller: Caller) -> Vec<Sample> {
    let (chain, two_chains, events) = match caller {
        Caller::Broadcast => ([4_066, 4_067], [4_054, 4_055], [339, 340]),
        Caller::Cable => ([994, 995], [982, 983], [83, 84]),
    };
    let two = |together: usize| vec![(300, 500), (700, together - 500)];
    let each = |events: usize, length| (0..events as u32).map(|place| (SEGMENT_SECONDS + place, length)).collect();
    let eight = [vec![(0x50, 0, 0)], (8..16).map(|number| (0x50, number, 1)).collect()].concat();
    vec![
        (vec![(0, chain[0])], Ok(vec![(0x50, 0, 1)])),
        (vec![(0, chain[1])], Err(0)),
        (vec![(5_529_599, chain[1])], Err(511)),
        (two(two_chains[0]), Ok(vec![(0x50, 0, 2)])),
        (two(two_chains[1]), Ok(vec![(0x50, 0, 1), (0x50, 1, 1)])),
        (each(events[0], 0), Ok(vec![(0x50, 0, 0), (0x50, 8, events[0])])),
        (each(events[1], 0), Ok(vec![(0x50, 0, 0), (0x50, 8, events[0]), (0x50, 9, 1)])),
        (each(8, chain[0]), Ok(eight)),
        (each(9, chain[0]), Err(1)),
    ]
}

/// The table's 32 sections with an event in the last alone.
fn last_of(table: u8) -> Vec<Cut> {
    (0..32).map(|segment| (table, 8 * segment, usize::from(segment == 31))).collect()
}

fn sample(comparison: &mut Comparison, random: &mut Random, (events, wanted): Sample) -> Result<(), String> {
    let mut lineup = Lineup::new();
    events.iter().for_each(|(start, length)| lineup.event(random, *start, *length));
    let (pools, list) = lineup.lend(random);
    let cuts = comparison.cuts(random, &pools, &list)?;
    match wanted {
        Err(index) => comparison.answers((10, index), &pools, &list, Request::legal(random, 0)),
        Ok(wanted) if cuts.as_ref() == Some(&wanted) => Ok(()),
        Ok(wanted) => Err(format!("the file of {events:?} is cut as {cuts:?}, and not as {wanted:?}")),
    }
}

/// The 18 bytes of no events; an event of EN 300 468's date in its place, an off-air one with free_CA_mode and the last
/// day that there is; and two tables with a version each.
fn known_bytes(comparison: &mut Comparison, random: &mut Random) -> Result<(), String> {
    let pools = Pools::of_chains(random, 0, 4);
    let chain = pools.series.bytes().to_vec();
    let mut no_events = vec![0x50, 0xF0, 0x0F, 0x00, 0x01, 0xC1, 0x00, 0x00, 0x00, 0x02, 0x00, 0x03, 0x00, 0x50];
    no_events.extend([0x78, 0xAE, 0x5B, 0xF0]);
    let dated = [0x01, 0x02, 0xC0, 0x79, 0x12, 0x45, 0x00, 0x01, 0x45, 0x30, 0x00, 0x00];
    let latest = [&[0xFF, 0xFF, 0xFF, 0xFF, 0x23, 0x59, 0x59, 0x99, 0x59, 0x59, 0xB0, 0x04], &chain[..]].concat();
    // An event in the next table alone leaves this one a section, whose last_section_number is 0.
    let table_before = no_events[..13].iter().copied().chain([0x51]).collect();
    let mut two_versions = vec![0x50, 0xF0, 0x0F, 0x00, 0x01, 0xC3, 0x00, 0x00, 0x00, 0x02, 0x00, 0x03, 0x00, 0x51];
    two_versions.extend([0x9C, 0xAF, 0x0F, 0x3C]);
    two_versions.extend([0x51, 0xF0, 0x1B, 0x00, 0x01, 0xC5, 0x00, 0x00, 0x00, 0x02, 0x00, 0x03, 0x00, 0x51]);
    two_versions.extend([0x00, 0x01, 0xC0, 0x7D, 0x00, 0x00, 0x00, 0x00, 0x00, 0x01, 0x00, 0x00]);
    two_versions.extend([0xB8, 0x29, 0xF4, 0x92]);
    let mut versions = [0; 16];
    versions[..2].copy_from_slice(&[1, 2]);
    let rows = [
        (vec![], 49_273, [0; 16], 0, no_events),
        (vec![1, 345_600, 1, 0, 0, 0], 49_273, [0; 16], 0, table_before),
        (vec![258, 45_900, 6_330, 2, 0, 0], 49_273, [0; 16], 4 * 18 + 14, dated.to_vec()),
        (vec![65_535, 5_529_599, 359_999, 7, 0, 4], 65_472, [0; 16], 15 * 18 + 31 * 18 + 14, latest),
        (vec![1, 345_600, 1, 0, 0, 0], 49_273, versions, 0, two_versions),
    ];
    for (numbers, base_day, versions, offset, bytes) in rows {
        let list = List { count: numbers.len() / 6, numbers };
        let request = Request { base_day, identity: Identity { triplet: TRIPLET, versions }, room: 1_000 };
        let (_, file) = comparison.alike(&pools, &list, request)?;
        if file[offset..offset + bytes.len()] != bytes {
            let fault = format!("Build left other bytes at {offset} of the output than {bytes:02X?}");
            return Err(comparison.describe(&fault, &pools, &list, request));
        }
    }
    Ok(())
}
