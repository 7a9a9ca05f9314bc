//! Faults of what overlaps by Edit: each stands in for the library, and must show.

use crate::other::{EditMethod, Event, Follows, List, EDIT_PAPERS};
use crate::wrong_follows;

pub const METHODS: [(&str, EditMethod); 23] = [
    ("takes a list in which events overlap", with_follows(wrong_follows::by_starts)),
    ("takes a list in which events overlap by a second", with_follows(wrong_follows::by_a_second_too_few)),
    ("takes no list in which events touch", with_follows(wrong_follows::without_touching)),
    ("takes each event of a list for one of the longest", with_follows(wrong_follows::by_the_longest_duration)),
    // PUT.
    ("puts an event that overlaps another", with_put(|_, _| false)),
    (
        "puts an event that overlaps by a second",
        with_put(|list, event| by(wrong_follows::by_a_second_too_few, list, event)),
    ),
    ("puts no event that touches another", with_put(|list, event| by(wrong_follows::without_touching, list, event))),
    ("puts by the event before alone", with_put(into_the_one_before)),
    ("puts by the event behind alone", with_put(into_the_next)),
    ("puts by the first event alone", with_put(|list, event| list.events().take(1).any(|first| overlap(first, event)))),
    ("puts an event with the start of another", with_put(but_for_equal_starts)),
    ("puts no event that ends past the window", with_put(|list, event| list.overlaps(event) || is_past(event))),
    // MOVE.
    ("moves an event over another", with_move(|_, _, _| false)),
    (
        "moves an event over another by a second",
        with_move(|others, _, moved| by(wrong_follows::by_a_second_too_few, others, moved)),
    ),
    ("moves no event up to another", with_move(|others, _, moved| by(wrong_follows::without_touching, others, moved))),
    ("moves by the event before alone", with_move(|others, _, moved| into_the_one_before(others, moved))),
    ("moves by the event behind alone", with_move(|others, _, moved| into_the_next(others, moved))),
    ("moves an event onto the start of another", with_move(|others, _, moved| but_for_equal_starts(others, moved))),
    (
        "compares a moved event with itself",
        with_move(|others, own, moved| others.overlaps(moved) || overlap(own, moved)),
    ),
    (
        "compares a moved event with itself, unless it stays",
        with_move(|others, own, moved| others.overlaps(moved) || own.start != moved.start && overlap(own, moved)),
    ),
    (
        "moves as if events took a second",
        with_move(|others, _, moved| others.overlaps(&Event { duration: 1, ..*moved })),
    ),
    (
        "moves with the duration of the event before",
        with_move(|others, _, moved| {
            let before = others.events().take_while(|other| other.start <= moved.start).last();
            others.overlaps(&Event { duration: before.map_or(moved.duration, |before| before.duration), ..*moved })
        }),
    ),
    ("moves no event past the window", with_move(|others, _, moved| others.overlaps(moved) || is_past(moved))),
];

const fn with_follows(follows: Follows) -> EditMethod {
    EditMethod { follows, ..EDIT_PAPERS }
}

const fn with_put(put_overlaps: fn(&List, &Event) -> bool) -> EditMethod {
    EditMethod { put_overlaps, ..EDIT_PAPERS }
}

const fn with_move(move_overlaps: fn(&List, &Event, &Event) -> bool) -> EditMethod {
    EditMethod { move_overlaps, ..EDIT_PAPERS }
}

/// Whether neither of an event of the list and this one may follow the other.
fn by(follows: Follows, list: &List, event: &Event) -> bool {
    list.events().any(|other| !follows(other, event) && !follows(event, other))
}

fn overlap(event: &Event, other: &Event) -> bool {
    event.start < other.end() && other.start < event.end()
}

fn into_the_one_before(list: &List, event: &Event) -> bool {
    list.events().any(|other| other.start <= event.start && event.start < other.end())
}

fn into_the_next(list: &List, event: &Event) -> bool {
    list.events().any(|other| event.start < other.start && other.start < event.end())
}

fn but_for_equal_starts(list: &List, event: &Event) -> bool {
    list.events().any(|other| other.start != event.start && overlap(other, event))
}

fn is_past(event: &Event) -> bool {
    event.end() > 5_529_600
}
