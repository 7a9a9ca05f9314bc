//! The place of a start: a line for each of some starts in the worked list, and details.

use crate::chirdaluko::{edit, place, Caller, Place, RECORD};
use crate::details::Detail;
use crate::edit_details::NO_POOLS;
use crate::inputs::{event, numbers, put, shift};

pub const ALL: [Detail; 3] = [
    ("PUT inserts its record at the place that `eit_place` gives for its start.", put_place),
    (
        "MOVE to an earlier start does so, too; \
         to a later one, or its own, the place is one less, since the record leaves its old place.",
        move_place,
    ),
    (
        "`eit_place` takes as many records as both the count and the buffer have, sound or not, \
         and what stands behind the first later start changes nothing.",
        any_list,
    ),
];

/// A line for each start: its place, the records looked at, and where that is.
pub fn rows(list: &[u32], count: usize) -> Vec<String> {
    let line = |start: &str, place: &str, looked: &str, what: &str| format!("{start:<8}{place:<7}{looked:<11}{what}");
    let mut lines = vec![line("start", "place", "looked at", "so it stands")];
    for start in [0, 45_900, 60_000, 68_400, 369_000, 400_000] {
        let Place { place, looked } = place(list, count, start);
        let what = match place {
            0 => "before all".to_string(),
            _ if list[RECORD * (place - 1) + 1] == start => format!("behind record {}, whose start it is", place - 1),
            _ if place == count => "behind all".to_string(),
            _ => format!("between records {} and {place}", place - 1),
        };
        lines.push(line(&start.to_string(), &place.to_string(), &looked.to_string(), &what));
    }
    lines
}

/// The starts of three events of a minute, and others before, between and behind them that are free for one more.
const STARTS: [u32; 3] = [600, 1_200, 1_800];
const OTHERS: [u32; 8] = [0, 540, 660, 1_140, 1_260, 1_740, 1_860, 5_529_599];

/// The three events, with room for one more.
fn three() -> Vec<u32> {
    let mut list = numbers(&[event(0, STARTS[0]), event(1, STARTS[1]), event(2, STARTS[2])]);
    list.resize(4 * RECORD, 0);
    list
}

/// Where the event with this id stands once Edit has carried out the command.
fn place_after(caller: Caller, command: &[u8], id: u32) -> Option<usize> {
    let mut list = three();
    edit(caller, &mut list, STARTS.len(), NO_POOLS, command).expect("an edit that is carried out");
    list.chunks(RECORD).position(|record| record[0] == id && record[2] > 0)
}

fn put_place(caller: Caller) -> bool {
    OTHERS.iter().all(|&start| {
        let Place { place, .. } = place(&three(), STARTS.len(), start);
        place_after(caller, &put(event(9, start)), 9) == Some(place)
    })
}

fn move_place(caller: Caller) -> bool {
    (0..STARTS.len()).all(|id| {
        OTHERS.iter().chain([&STARTS[id]]).all(|&start| {
            let Place { place, .. } = place(&three(), STARTS.len(), start);
            let left = if start < STARTS[id] { place } else { place - 1 };
            place_after(caller, &shift(id as u16, start), id as u32) == Some(left)
        })
    })
}

fn any_list(_: Caller) -> bool {
    let list = numbers(&[event(0, 60), event(0, 180), event(0, 120)]);
    let other = numbers(&[event(0, 60), event(0, 180), event(9, 0)]);
    let found = Place { place: 1, looked: 2 };
    place(&list, 3, 100) == found
        && place(&other, 3, 100) == found
        && place(&list[..17], 3, 100) == found
        && place(&list[..11], usize::MAX, 100) == Place { place: 1, looked: 1 }
        && place(&list, 1, 100) == Place { place: 1, looked: 1 }
        && place(&list, usize::MAX, 180) == Place { place: 3, looked: 3 }
}
