//! Which starts are asked for, in which lists, and what fits, so that a run that misses a kind fails.

use super::asked::Asked;
use super::case::SEGMENT_SECONDS;
use crate::lists::{NUMBERS, START_END};
use crate::other::EVENT_FRONT;
use crate::tally::{each_kind, Kind, Tally};

const ASKED: &str = "chain_room at a start";
const ANSWERED: &str = "chain_room's answer";

const STARTS: [(&str, fn(&Asked) -> bool); 28] = [
    ("no events", |asked| asked.case.list.count == 0),
    ("no events in the segment", |asked| asked.is_alone() && asked.case.list.count > 0),
    ("before the segment's events", |asked| asked.before == 0 && asked.behind > 0 && asked.fits()),
    ("between the segment's events", |asked| asked.before > 0 && asked.behind > 0 && asked.fits()),
    ("behind the segment's events", |asked| asked.before > 0 && asked.behind == 0 && asked.fits()),
    ("in the first second of a segment", |asked| asked.second() == 0 && asked.fits()),
    ("in the last second of a segment", |asked| asked.second() == SEGMENT_SECONDS - 1 && asked.fits()),
    ("just behind an event", |asked| asked.fits() && asked.has(|start| start + 1 == asked.case.start)),
    ("just before an event", |asked| asked.fits() && asked.has(|start| start == asked.case.start + 1)),
    ("in a programme that began in the segment", |asked| asked.runs(true) && asked.fits()),
    ("in a programme that began before the segment", |asked| asked.runs(false) && asked.fits()),
    ("taken", |asked| asked.case.is_taken()),
    ("taken, in the first second of a segment", |asked| asked.case.is_taken() && asked.second() == 0),
    ("taken, in a full segment", |asked| asked.case.is_taken() && asked.sections() == 8),
    ("start 0", |asked| asked.case.start == 0),
    ("start 5,529,599", |asked| asked.case.start == START_END - 1 && asked.fits()),
    ("start 5,529,599, taken", |asked| asked.case.start == START_END - 1 && asked.case.is_taken()),
    ("start 5,529,600", |asked| asked.case.start == START_END),
    ("past the last segment", |asked| asked.case.start > START_END),
    ("the highest number", |asked| asked.case.start == u32::MAX),
    ("start of a record behind the count", |asked| asked.is_behind_count() && asked.fits()),
    ("a list of the caller's most events", |asked| asked.is_most() && asked.fits()),
    ("the caller's most events in the segment", |asked| {
        asked.is_most() && asked.before + asked.behind == asked.case.list.count
    }),
    ("the segment before is unpackable", |asked| asked.is_unpackable(-1) && asked.fits()),
    ("the next segment is unpackable", |asked| asked.is_unpackable(1) && asked.fits()),
    ("a segment far off is unpackable", |asked| asked.fits() && asked.is_unpackable_far_off()),
    ("eight sections or more on both sides", |asked| {
        asked.fits() && [-1, 1].into_iter().all(|beside| asked.entry(beside).is_some_and(|sections| sections >= 8))
    }),
    ("a part of a record behind the list", |asked| asked.case.list.numbers.len() % NUMBERS != 0),
];

const ANSWERS: [(&str, fn(&Asked) -> bool); 14] = [
    ("none: taken", |asked| asked.length.is_none() && asked.case.is_taken()),
    ("none: past the last segment", |asked| asked.length.is_none() && asked.case.start >= START_END),
    ("none: a segment of eight sections", |asked| asked.is_too_full() && asked.sections() == 8),
    ("none: a ninth section already", |asked| {
        asked.is_too_full() && asked.is_unpackable(0) && asked.longest <= asked.caller.sizes().chain_max()
    }),
    ("none: an event that no section holds already", |asked| {
        asked.is_too_full() && asked.longest > asked.caller.sizes().chain_max()
    }),
    ("0", |asked| asked.length == Some(0)),
    ("2", |asked| asked.length == Some(2)),
    ("3", |asked| asked.length == Some(3)),
    ("less than the longest, in a segment of seven sections", |asked| asked.is_less() && asked.sections() == 7),
    ("less than the longest, in a segment of eight sections", |asked| asked.is_less() && asked.sections() == 8),
    // Beside the least event that there is, so the most that is not the longest.
    ("12 bytes less than the longest", |asked| asked.length == Some(asked.caller.sizes().chain_max() - EVENT_FRONT)),
    ("the longest, in a segment of events", |asked| asked.is_longest() && !asked.is_alone()),
    ("the longest, in a segment of six sections", |asked| asked.is_longest() && asked.sections() == 6),
    ("the longest, in a segment of seven sections", |asked| asked.is_longest() && asked.sections() == 7),
];

pub fn all() -> Vec<Kind> {
    [each_kind(ASKED, STARTS.map(|(kind, _)| kind)), each_kind(ANSWERED, ANSWERS.map(|(kind, _)| kind))].concat()
}

/// A sound list was asked for this.
pub fn count(tally: &mut Tally, asked: &Asked) {
    tally.came_up(ASKED, &STARTS.map(|(kind, is_of)| (kind, is_of(asked))));
    tally.came_up(ANSWERED, &ANSWERS.map(|(kind, is_of)| (kind, is_of(asked))));
}
