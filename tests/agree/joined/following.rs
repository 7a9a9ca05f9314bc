//! Makers of two scripts of which the second takes up what the first did: with what is freed it is accepted, and with
//! what is gone, or taken, it is refused.

use crate::held::Held;
use crate::lists::record;
use crate::pools::Pools;
use crate::random::Random;
use crate::scripts::Command;
use crate::times::Times;

/// The two scripts for a list of two events or more that is not full, or nothing if it leaves no room for them.
pub type Maker = fn(&mut Random, &Pools, &mut Held) -> Option<[Vec<Command>; 2]>;

/// What the second does. It is accepted, and so is every edit that the list as it is then held takes.
pub const ACCEPTED: [(&str, Maker); 9] = [
    ("withdraws what the first put", |random, pools, held| {
        let (id, _, put) = put(random, pools, held);
        Some([vec![put], vec![held.withdraw_id(id)]])
    }),
    ("moves what the first put", |random, pools, held| {
        let (id, times, put) = put(random, pools, held);
        let start = elsewhere(random, held, times)?.start;
        Some([vec![put], vec![held.move_id(id, start)]])
    }),
    ("puts the id that the first withdrew", |random, pools, held| {
        let (id, _) = held.event(random);
        let withdraw = held.withdraw_id(id);
        let times = held.free(random);
        Some([vec![withdraw], vec![held.put_as(record(random, pools), id, times)]])
    }),
    ("puts id and time that the first withdrew", |random, pools, held| {
        let (id, times) = held.event(random);
        Some([vec![held.withdraw_id(id)], vec![held.put_as(record(random, pools), id, times)]])
    }),
    ("puts into the time that WITHDRAW freed", |random, pools, held| {
        let (id, times) = held.event(random);
        let withdraw = held.withdraw_id(id);
        let new_id = held.new_id(random);
        Some([vec![withdraw], vec![held.put_as(record(random, pools), new_id, times)]])
    }),
    ("puts into the time that MOVE freed", |random, pools, held| {
        let (id, times) = held.event(random);
        let start = elsewhere(random, held, times)?.start;
        let moved = held.move_id(id, start);
        let new_id = held.new_id(random);
        Some([vec![moved], vec![held.put_as(record(random, pools), new_id, times)]])
    }),
    ("moves into the time that the first freed", |random, _, held| {
        let (id, freed) = held.event(random);
        let withdraw = held.withdraw_id(id);
        let (id, own) = held.event(random);
        (own.duration <= freed.duration).then(|| [vec![withdraw], vec![held.move_id(id, freed.start)]])
    }),
    ("empties the list that the first filled", |random, pools, held| {
        let puts = filling(random, pools, held);
        Some([puts, emptying(random, held)])
    }),
    ("fills the list that the first emptied", |random, pools, held| {
        let withdraws = emptying(random, held);
        Some([withdraws, filling(random, pools, held)])
    }),
];

/// What the second does, and the number that it is refused with. What is held does not count from there on.
pub const REFUSED: [(&str, u32, Maker); 6] = [
    ("puts the id that the first put", 6, |random, pools, held| {
        let (id, _, put) = put(random, pools, held);
        let times = held.free(random);
        Some([vec![put], vec![held.put_as(record(random, pools), id, times)]])
    }),
    ("withdraws what the first withdrew", 6, |random, _, held| {
        let (id, _) = held.event(random);
        Some([vec![held.withdraw_id(id)], vec![Command::Withdraw(id)]])
    }),
    ("moves what the first withdrew", 6, |random, _, held| {
        let (id, times) = held.event(random);
        Some([vec![held.withdraw_id(id)], vec![Command::Move(id, times.start)]])
    }),
    ("puts into the time that the first took", 30, |random, pools, held| {
        let (_, times, put) = put(random, pools, held);
        let new_id = held.new_id(random);
        Some([vec![put], vec![held.put_as(record(random, pools), new_id, times)]])
    }),
    ("moves into the time that the first took", 30, |random, pools, held| {
        let (id, _) = held.event(random);
        let (_, times, put) = put(random, pools, held);
        Some([vec![put], vec![Command::Move(id, times.start)]])
    }),
    ("puts into the list that the first filled", 8, |random, pools, held| {
        let puts = filling(random, pools, held);
        Some([puts, vec![held.put(random, pools)]])
    }),
];

/// The two scripts, and before them edits that make the list ready. Its limit is 3 or more.
pub fn scripts(random: &mut Random, pools: &Pools, held: &mut Held, maker: Maker) -> Option<[Vec<Command>; 2]> {
    let before = random.below(3);
    let mut first = held.edits(random, pools, before);
    first.extend(held.ready(random, pools, false));
    let [in_first, second] = maker(random, pools, held)?;
    first.extend(in_first);
    Some([first, second])
}

/// PUT that is carried out, with its id and times.
fn put(random: &mut Random, pools: &Pools, held: &mut Held) -> (u32, Times, Command) {
    let (id, times) = (held.new_id(random), held.free(random));
    (id, times, held.put_as(record(random, pools), id, times))
}

/// Times to which an event with these can move so that none of its seconds stays taken, if some are found.
fn elsewhere(random: &mut Random, held: &Held, own: Times) -> Option<Times> {
    let beside = held.some_times(random);
    let times = held.timetable.free_for(random, own, beside);
    (!times.overlaps(own)).then_some(times)
}

fn filling(random: &mut Random, pools: &Pools, held: &mut Held) -> Vec<Command> {
    let mut puts = Vec::new();
    while !held.is_full() {
        puts.push(held.put(random, pools));
    }
    puts
}

fn emptying(random: &mut Random, held: &mut Held) -> Vec<Command> {
    (0..held.count()).map(|_| held.withdraw(random)).collect()
}
