//! What lists are rolled, so that a run that misses a kind fails.

use super::case::Case;
use super::outcome::DAY_SECONDS;
use crate::lists::{DURATION, DURATION_MAX, ID, LENGTH, MARKS, NUMBERS, START, START_END};
use crate::other::Caller;
use crate::tally::{each_kind, Kind, Tally};

const LIST: &str = "roll of a list";
const EVENT: &str = "roll of an event";
const STAYING: &str = "roll of an event that stays";

/// A list that is rolled: how many events the caller has at most, it has, and stay; what is behind it; its base day.
struct Rolling<'a> {
    most: usize,
    count: usize,
    staying: usize,
    behind: &'a [u32],
    base_day: u32,
}

const LISTS: [(&str, fn(&Rolling) -> bool); 16] = [
    ("no events", |list| list.count == 0),
    ("the caller's most events, none leaves", |list| list.count == list.most && list.staying == list.count),
    ("the caller's most events, some leave", |list| list.count == list.most && (1..list.count).contains(&list.staying)),
    ("the caller's most events, all leave", |list| list.count == list.most && list.staying == 0),
    ("none leaves", |list| list.count > 0 && list.staying == list.count),
    ("one leaves", |list| list.count > 2 && list.staying == list.count - 1),
    ("some leave", |list| list.staying > 1 && list.staying + 1 < list.count),
    ("one stays", |list| list.count > 2 && list.staying == 1),
    ("all leave", |list| list.count > 0 && list.staying == 0),
    ("nothing behind", |list| list.count > 0 && list.behind.is_empty()),
    ("zeros behind", |list| !list.behind.is_empty() && list.behind.iter().all(|number| *number == 0)),
    ("a record or more behind", |list| list.behind.len() >= NUMBERS && list.behind.iter().any(|number| *number != 0)),
    ("a part of a record behind", |list| list.behind.len() % NUMBERS != 0),
    ("base day 0", |list| list.base_day == 0),
    ("any base day", |list| (1..65_471).contains(&list.base_day)),
    ("base day 65,471", |list| list.base_day == 65_471),
];

const EVENTS: [(&str, fn(&[u32]) -> bool); 10] = [
    ("start 0", |event| event[START] == 0),
    ("start 86,399", |event| event[START] == 86_399),
    ("start 86,400", |event| event[START] == 86_400),
    ("start 86,401", |event| event[START] == 86_401),
    ("start 5,529,599", |event| event[START] == START_END - 1),
    ("over at midnight", |event| leaves(event) && event[START] + event[DURATION] == DAY_SECONDS),
    ("over a second after midnight", |event| leaves(event) && event[START] + event[DURATION] == DAY_SECONDS + 1),
    ("over a day after midnight", |event| leaves(event) && event[START] + event[DURATION] > 2 * DAY_SECONDS),
    ("over past the window", |event| event[START] + event[DURATION] > START_END),
    ("on for 99:59:59", |event| event[DURATION] == DURATION_MAX),
];

/// The place of a name is the marks.
const WITH_MARKS: [&str; 8] = ["marks 0", "marks 1", "marks 2", "marks 3", "marks 4", "marks 5", "marks 6", "marks 7"];

const OTHERS: [(&str, fn(&[u32]) -> bool); 4] = [
    ("id 0", |event| event[ID] == 0),
    ("id 65,535", |event| event[ID] == 65_535),
    ("descriptors", |event| event[LENGTH] > 0),
    ("no descriptors", |event| event[LENGTH] == 0),
];

fn leaves(event: &[u32]) -> bool {
    event[START] < DAY_SECONDS
}

pub fn all() -> Vec<Kind> {
    let staying = WITH_MARKS.into_iter().chain(OTHERS.map(|(kind, _)| kind));
    let lists = each_kind(LIST, LISTS.map(|(kind, _)| kind));
    [lists, each_kind(EVENT, EVENTS.map(|(kind, _)| kind)), each_kind(STAYING, staying)].concat()
}

/// The list, of which so many events stay, is sound and was rolled.
pub fn count(tally: &mut Tally, caller: Caller, case: Case, staying: usize) {
    let (records, behind) = case.list.numbers.split_at(NUMBERS * case.list.count);
    let most = caller.sizes().events;
    let list = Rolling { most, count: case.list.count, staying, behind, base_day: case.base_day };
    tally.came_up(LIST, &LISTS.map(|(kind, is_of)| (kind, is_of(&list))));
    let events: Vec<_> = records.chunks(NUMBERS).collect();
    tally.came_up(EVENT, &EVENTS.map(|(kind, is_of)| (kind, events.iter().any(|event| is_of(event)))));
    let stays: Vec<_> = events.into_iter().filter(|event| !leaves(event)).collect();
    tally.came_up(STAYING, &OTHERS.map(|(kind, is_of)| (kind, stays.iter().any(|event| is_of(event)))));
    let mut marks = [false; WITH_MARKS.len()];
    stays.iter().for_each(|event| marks[event[MARKS] as usize] = true);
    (0..WITH_MARKS.len()).filter(|k| marks[*k]).for_each(|k| tally.kind((STAYING, WITH_MARKS[k])));
}
