//! Files that others make: cuts anywhere, longer tables, more tables. Read accepts them, and Build's file of the same
//! events is at least as good in every segment: demand 3.

use super::comparison::{Comparison, RECORDS_MAX};
use super::given::Given;
use super::layout::{rival, Layout};
use crate::build::{sections, with_neighbours, Section};
use crate::lineup::Lineup;
use crate::other::{Built, Lent, EVENT_FRONT};
use crate::random::Random;

const SEGMENTS: usize = 512;
const SECTIONS_MAX: usize = 8;

/// How many events each section of a segment has, from the first on.
type Held = Vec<usize>;

pub fn run(comparison: &mut Comparison) -> Result<(), String> {
    let random = &mut comparison.groups.begin("rivals");
    for _ in 0..300 {
        let given = Given::some(comparison.caller, random);
        carried(comparison, random, &given)?;
    }
    let sizes = comparison.caller.sizes();
    let longest = sizes.chain_max();
    let empty = sizes.room() / EVENT_FRONT + 60;
    let segments = [vec![0; 9], vec![longest / 4; 20], vec![longest; 8], vec![0; empty], vec![longest / 14; 60]];
    for index in [0, 31, 32, 511] {
        for lengths in &segments {
            let (pools, list) = with_neighbours(comparison.caller, random, index, lengths);
            let given = Given::of(comparison.caller, random, pools, list);
            carried(comparison, random, &given)?;
        }
    }
    for events_each in [4, sizes.events] {
        let segments: Vec<_> = (0..sizes.events / events_each).map(|index| (index, events_each)).collect();
        let given = Given::short(comparison.caller, random, &segments);
        carried(comparison, random, &given)?;
    }
    no_events(comparison, random)
}

/// No events, in tables of every length.
fn no_events(comparison: &mut Comparison, random: &mut Random) -> Result<(), String> {
    for tables in 1..=16 {
        for segments in [1, 2, 31, 32] {
            let given = Given::new(comparison.caller, random, Lineup::new());
            let layout = Layout { cuts: Default::default(), segments: vec![segments; tables] };
            comparison.accepted(&layout.file(&given))?;
        }
    }
    Ok(())
}

/// A rival's file of these events: Read returns them, and Build makes its own of what was read.
fn carried(comparison: &mut Comparison, random: &mut Random, given: &Given) -> Result<(), String> {
    let file = rival(random, given);
    let bytes = file.bytes();
    comparison.accepted(&file)?;
    let (reading, records) = comparison.read(&bytes, given.base_day, RECORDS_MAX)?;
    let records = &records[..6 * reading.count];
    let fault = if !given.is_carried(records, &bytes) || reading.identity != given.identity_in(&file) {
        "Read returned other events, or another identity, than the file's".to_string()
    } else {
        let lent = Lent { list: records, count: reading.count, day: &bytes, series: &[] };
        let mut output = vec![0; bytes.len()];
        // Build's file is never the longer one.
        let built = (comparison.subject.build)(given.caller, &lent, given.base_day, reading.identity, &mut output);
        match built {
            Built { number: 0, value } => match better(&held(&bytes)?, &held(&output[..value])?) {
                None => return Ok(()),
                Some(index) => format!("in segment {index} the rival's file is better than Build's"),
            },
            refused => format!("Build of what Read returned answered {refused:?}"),
        }
    };
    Err(comparison.describe(&fault, &bytes, given.base_day, None))
}

/// What each segment's sections hold.
fn held(file: &[u8]) -> Result<Vec<Held>, String> {
    let mut held = vec![Held::new(); SEGMENTS];
    for (table_id, section_number, events) in sections(file)?.iter().map(Section::cut) {
        held[32 * usize::from(table_id - 0x50) + usize::from(section_number / 8)].push(events);
    }
    Ok(held)
}

/// The first segment in which the rival has fewer sections, or more events in its first k sections for some k.
fn better(rival: &[Held], built: &[Held]) -> Option<usize> {
    let first = |held: &Held, k: usize| held.iter().take(k).sum::<usize>();
    let is_better = |index: &usize| {
        let (rival, built) = (&rival[*index], &built[*index]);
        rival.len() < built.len() || (1..=SECTIONS_MAX).any(|k| first(rival, k) > first(built, k))
    };
    (0..SEGMENTS).find(is_better)
}

/// Whether a file with fewer sections than Build's, or with later cuts, shows, for the self-check.
pub fn better_files_show() -> bool {
    let segment = |held: &[usize]| [vec![held.to_vec()], vec![Held::new(); SEGMENTS - 1]].concat();
    let shows = |rival: &[usize], built: &[usize]| better(&segment(rival), &segment(built)) == Some(0);
    !shows(&[2, 1], &[2, 1]) && !shows(&[1, 1, 1], &[2, 1]) && shows(&[2, 1], &[1, 2]) && shows(&[3], &[2, 1])
}
