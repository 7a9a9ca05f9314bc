//! What Edit says of two scripts, in turn and joined, on a list of events 1 and 2 with room for two more.

use crate::chirdaluko::{edit, Caller, EditRefusal, Pools, Record, RECORD};
use crate::edit_details::NO_POOLS;
use crate::inputs::{event, numbers, put, shift, withdraw, UNDO};

pub type Said = Result<usize, EditRefusal>;

/// A buffer with its count.
#[derive(Clone, PartialEq)]
pub struct List {
    pub numbers: Vec<u32>,
    pub count: usize,
}

/// Events 1, from 60 to 120, and 2, from 180 to 240, in a buffer of four records and two numbers over.
pub fn two() -> List {
    let mut numbers = numbers(&[event(1, 60), event(2, 180)]);
    numbers.resize(4 * RECORD + 2, 7);
    List { numbers, count: 2 }
}

pub fn put_3() -> Vec<u8> {
    put(event(3, 300))
}

/// What Edit says to a script, and what it leaves.
pub fn edited_with(caller: Caller, pools: Pools, list: &List, script: &[u8]) -> (Said, List) {
    let mut numbers = list.numbers.clone();
    let said = edit(caller, &mut numbers, list.count, pools, script);
    (said, List { numbers, count: said.unwrap_or_else(EditRefusal::count) })
}

pub fn edited(caller: Caller, list: &List, script: &[u8]) -> (Said, List) {
    edited_with(caller, NO_POOLS, list, script)
}

/// A line for each two scripts: what Edit says to them in turn and joined, and how many events the list then has.
pub fn lines(caller: Caller) -> Vec<String> {
    let line = |cells: [&str; 6]| {
        let [first, second, in_turn, events, joined, joined_events] = cells;
        format!("{first:<12}{second:<12}{in_turn:<18}{events:<8}{joined:<9}{joined_events}")
    };
    let mut lines = vec![line(["first", "second", "in turn", "events", "joined", "events"])];
    for ((first_name, first), (second_name, second)) in pairs() {
        let (first_said, after) = edited(caller, &two(), &first);
        let (second_said, in_turn) = edited(caller, &after, &second);
        let (joined_said, joined) = edited(caller, &two(), &[first, second].concat());
        let both = format!("{}, {}", words(first_said), words(second_said));
        let [events, joined_events] = [in_turn, joined].map(|list| list.count.to_string());
        lines.push(line([first_name, second_name, &both, &events, &words(joined_said), &joined_events]));
    }
    lines
}

type Script = (&'static str, Vec<u8>);

fn pairs() -> [(Script, Script); 8] {
    let put_3 = || ("PUT 3", put_3());
    let withdraw_1 = || ("WITHDRAW 1", withdraw(1));
    let absent = || ("WITHDRAW 9", withdraw(9));
    let undo = || ("UNDO", vec![UNDO]);
    [
        (put_3(), ("MOVE 3", shift(3, 0))),
        (withdraw_1(), ("PUT 1", put(Record { duration: 90, ..event(1, 60) }))),
        (put_3(), absent()),
        (put_3(), ("05", vec![0x05])),
        (put_3(), undo()),
        (absent(), withdraw_1()),
        (absent(), undo()),
        (("02 00", vec![0x02, 0x00]), withdraw_1()),
    ]
}

fn words(said: Said) -> String {
    match said {
        Ok(_) => "success".to_string(),
        Err(refusal) => format!("{} at {}", refusal.number(), refusal.value()),
    }
}
