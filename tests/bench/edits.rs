//! Edit: soundness alone, one command, and scripts that grow, with UNDOs in short runs and in one.

use crate::held::Held;
use crate::library;
use crate::lists::{List, NUMBERS};
use crate::other::{self, Answer, Caller};
use crate::pools::Pools;
use crate::random::Random;
use crate::scripts::{bytes, Command};
use crate::table::{head, row, shortest, size_name, KB};
use std::hint::black_box;
use std::time::Instant;

const CALLER: Caller = Caller::Broadcast;
const EVENTS_MAX: usize = CALLER.sizes().events;
const SCRIPTS: [usize; 6] = [KB, 4 * KB, 16 * KB, 64 * KB, 256 * KB, 1_024 * KB];
const LISTS: [(&str, usize); 3] = [("no events", 0), ("1,024 events", EVENTS_MAX / 2), ("2,048 events", EVENTS_MAX)];
const SHORT_RUN: usize = 8;

/// Which of a script's commands are UNDO, and how many stand in a row at most.
#[derive(Clone, Copy)]
enum Undo {
    None,
    Third { run: usize },
    Half { run: usize },
}

const UNDOS: [(&str, Undo); 5] = [
    ("Edit, no UNDO", Undo::None),
    ("Edit, UNDO a third, in short runs", Undo::Third { run: SHORT_RUN }),
    ("Edit, UNDO a third, in one run", Undo::Third { run: usize::MAX }),
    ("Edit, UNDO half, in short runs", Undo::Half { run: SHORT_RUN }),
    ("Edit, UNDO half, in one run", Undo::Half { run: usize::MAX }),
];

pub fn run(random: &mut Random) {
    let pools = Pools::of_chains(random, 20_000, 20_000);
    head("Edit, no script (soundness)");
    for (name, count) in LISTS {
        let list = List::sound(random, &pools, count, NUMBERS * EVENTS_MAX);
        edit_row(name, 4 * NUMBERS * count, &pools, &list, &[], None);
    }
    head("Edit, one command");
    for (name, count) in LISTS {
        let list = List::sound(random, &pools, count, NUMBERS * EVENTS_MAX);
        let script = bytes(&[Held::by(CALLER, &list).edit(random, &pools)]);
        edit_row(name, script.len(), &pools, &list, &script, None);
    }
    let list = List::sound(random, &pools, EVENTS_MAX / 2, NUMBERS * EVENTS_MAX);
    for (title, undo) in UNDOS {
        head(title);
        let mut before = None;
        for size in SCRIPTS {
            let script = script(random, &pools, &list, size, undo);
            before = Some(edit_row(&size_name(size), script.len(), &pools, &list, &script, before));
        }
    }
}

/// One call of the library with a script of 1 MB, a third of it UNDO.
pub fn once(random: &mut Random) {
    let pools = Pools::of_chains(random, 20_000, 20_000);
    let mut list = List::sound(random, &pools, EVENTS_MAX / 2, NUMBERS * EVENTS_MAX);
    let script = script(random, &pools, &list, 1_024 * KB, Undo::Third { run: SHORT_RUN });
    let (day, series) = (pools.day.bytes(), pools.series.bytes());
    let answer = library::edit(CALLER, &mut list.numbers, list.count, day, series, &script);
    assert_eq!(answer.number, 0, "a refusal");
}

/// A script of about this size that is carried out whole.
fn script(random: &mut Random, pools: &Pools, list: &List, size: usize, undo: Undo) -> Vec<u8> {
    let mut held = Held::by(CALLER, list);
    let mut commands = Vec::new();
    let mut struck = Vec::new();
    let mut length = 0;
    while length < size {
        if !matches!(undo, Undo::Half { .. }) {
            let edit = held.edit(random, pools);
            length += bytes(&[edit]).len();
            commands.push(edit);
        }
        if let Undo::Third { run } | Undo::Half { run } = undo {
            let edit = held.any_edit(random, pools);
            length += bytes(&[edit, Command::Undo]).len();
            struck.push(edit);
            if struck.len() == run {
                strike(&mut commands, &mut struck);
            }
        }
    }
    strike(&mut commands, &mut struck);
    bytes(&commands)
}

/// Appends the edits and as many UNDOs.
fn strike(commands: &mut Vec<Command>, struck: &mut Vec<Command>) {
    let undos = struck.len();
    commands.append(struck);
    commands.resize(commands.len() + undos, Command::Undo);
}

fn edit_row(name: &str, size: usize, pools: &Pools, list: &List, script: &[u8], before: Option<[f64; 2]>) -> [f64; 2] {
    let (day, series) = (pools.day.bytes(), pools.series.bytes());
    let call = |edit: fn(Caller, &mut [u32], usize, &[u8], &[u8], &[u8]) -> Answer| {
        let mut numbers = list.numbers.clone();
        let begun = Instant::now();
        let answer = edit(CALLER, &mut numbers, list.count, day, series, black_box(script));
        (begun.elapsed(), (answer, numbers))
    };
    let (_, (answer, numbers)) = call(other::edit);
    assert_eq!(answer.number, 0, "a refusal");
    assert!((answer, numbers) == call(library::edit).1, "the two disagree");
    let times = [library::edit, other::edit].map(|edit| shortest(|| call(edit).0));
    row(name, size, times, before);
    times
}
