//! Overlap (02, W-204) in a file: 24 for the section of the later event, wherever the earlier one stands. Events that
//! touch, and a last one that ends past the window, are accepted.

use super::comparison::Comparison;
use super::event_fields::{set_duration, start};
use super::file::{File, SECTION_NUMBER, TABLE_ID};
use super::given::Given;
use super::layout::{rival, Layout};
use crate::lineup::{Lineup, SEGMENT_SECONDS};
use crate::lists::{DURATION_MAX, START_END};
use crate::other::Caller;
use crate::overlapping::{self, KINDS, PAST_WINDOW, TOUCHING};
use crate::random::Random;
use crate::tally::{each_kind, Kind};

const BY_A_SECOND: &str = "by a second";
const BY_MANY: &str = "by many";

/// Where the two events stand.
const IN_SECTION: &str = "inside a section";
const SECTIONS: &str = "across sections of a segment";
const SEGMENT_EDGE: &str = "across a segment's edge";
const TABLE_EDGE: &str = "across a table's edge";
const EMPTY_SECTIONS: &str = "across empty sections";
const EMPTY_TO_TABLE: &str = "across empty sections and a table's edge";
const EMPTY_TABLE: &str = "across a table without events";
const WHERE: [&str; 7] = [IN_SECTION, SECTIONS, SEGMENT_EDGE, TABLE_EDGE, EMPTY_SECTIONS, EMPTY_TO_TABLE, EMPTY_TABLE];

/// Segments of so many events each, by segment index.
const FILES: [&[(usize, usize)]; 6] =
    [&[(0, 4), (1, 3)], &[(0, 2), (2, 2), (5, 1)], &[(31, 2), (32, 3)], &[(30, 2), (34, 2)], &[(9, 7)], &[(511, 3)]];

const SEGMENTS_IN_TABLE: u32 = 32;

pub fn kinds() -> Vec<Kind> {
    let mut all = each_kind("Read", KINDS.map(|(kind, _)| kind).into_iter().chain([PAST_WINDOW]));
    for by in [TOUCHING, BY_A_SECOND, BY_MANY] {
        all.extend(each_kind(by, WHERE));
    }
    all
}

pub fn run(comparison: &mut Comparison) -> Result<(), String> {
    let random = &mut comparison.groups.begin("overlaps");
    let caller = comparison.caller;
    for segments in FILES.repeat(8) {
        let given = Given::short(caller, random, segments);
        // Whole segments in a section, and cuts anywhere.
        let whole = segments.iter().map(|(index, events)| (*index, vec![*events])).collect();
        pairs(comparison, random, &Layout::of(whole).file(&given))?;
        let cut_anywhere = rival(random, &given);
        pairs(comparison, random, &cut_anywhere)?;
        of_each_kind(comparison, random, given)?;
    }
    for _ in 0..4 {
        let given = over_a_table(caller, random);
        let file = rival(random, &given);
        pairs(comparison, random, &file)?;
    }
    past_window(comparison, random)
}

/// An event in the last segment of the first table, and one in the first segment of the third.
fn over_a_table(caller: Caller, random: &mut Random) -> Given {
    let mut lineup = Lineup::new();
    for (table, seconds) in [(1, -5_000), (2, 0)] {
        let edge = i64::from(SEGMENTS_IN_TABLE * SEGMENT_SECONDS * table);
        let start = edge + seconds + random.below(5_000) as i64;
        lineup.event(random, start as u32, 0);
    }
    Given::new(caller, random, lineup)
}

/// Each two events one behind the other: the first touches the second, or goes on for a second more, or for many.
fn pairs(comparison: &mut Comparison, random: &mut Random, file: &File) -> Result<(), String> {
    for two in file.all_events().windows(2) {
        let [(place, event), (later, next)] = [two[0], two[1]];
        let distance = (start(&file.sections[later], next) - start(&file.sections[place], event)) as u32;
        let many = random.pick(&[2, 60, 86_400, DURATION_MAX.saturating_sub(distance)]);
        for (by, seconds) in [(TOUCHING, 0), (BY_A_SECOND, 1), (BY_MANY, many.max(2))] {
            if distance + seconds <= DURATION_MAX {
                let changed = file.with(place, |section| set_duration(section, event, distance + seconds));
                match seconds {
                    0 => comparison.accepted(&changed)?,
                    _ => comparison.refused(24, later, &changed)?,
                }
                comparison.tally.kind((by, between(file, place, later)));
            }
        }
    }
    Ok(())
}

/// What is between the events of two sections that have none between them.
fn between(file: &File, place: usize, later: usize) -> &'static str {
    let [section, next] = [&file.sections[place], &file.sections[later]];
    let tables = next[TABLE_ID] - section[TABLE_ID];
    let same_segment = tables == 0 && section[SECTION_NUMBER] / 8 == next[SECTION_NUMBER] / 8;
    match (tables, later - place) {
        (_, 0) => IN_SECTION,
        _ if same_segment => SECTIONS,
        (0, 1) => SEGMENT_EDGE,
        (0, _) => EMPTY_SECTIONS,
        (1, 1) => TABLE_EDGE,
        (1, _) => EMPTY_TO_TABLE,
        _ => EMPTY_TABLE,
    }
}

/// An event more that overlaps, of every kind, in files with cuts anywhere.
fn of_each_kind(comparison: &mut Comparison, random: &mut Random, mut given: Given) -> Result<(), String> {
    let place = random.below(given.list.count);
    for (kind, list) in overlapping::lists(random, &given.pools, &given.list, place) {
        let overlaps = |place: &usize| list.times(place - 1).end() > list.times(*place).start;
        let later = (1..list.count).find(overlaps).expect("an overlap");
        given.list = list;
        let file = rival(random, &given);
        comparison.refused(24, file.all_events()[later].0, &file)?;
        comparison.tally.kind(("Read", kind));
    }
    Ok(())
}

/// A last event that ends past the window.
fn past_window(comparison: &mut Comparison, random: &mut Random) -> Result<(), String> {
    for start in [START_END - 1, START_END - SEGMENT_SECONDS] {
        let mut lineup = Lineup::new();
        lineup.event(random, start, 0);
        let given = Given::new(comparison.caller, random, lineup);
        let file = rival(random, &given);
        let (place, event) = file.all_events()[0];
        for end in [START_END, START_END + 1, start + DURATION_MAX] {
            comparison.accepted(&file.with(place, |section| set_duration(section, event, end - start)))?;
            comparison.tally.kind(("Read", PAST_WINDOW));
        }
    }
    Ok(())
}
