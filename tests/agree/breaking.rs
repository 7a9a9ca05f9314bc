//! Makers of edits that break chosen rules at once, and of what is no command. A rule is named by the number of its
//! refusal.

use crate::held::Held;
use crate::lists::{high_bit, record, DURATION, DURATION_MAX, ID, MARKS, NUMBERS, OFFSET, START, START_END};
use crate::pools::Pools;
use crate::random::Random;
use crate::scripts::Command;
use crate::times::Times;

/// An edit that breaks this one of 5, 9, 6, 30 and 8, and no other; 8 if the list is full. The list has two events or
/// more.
pub fn edit(random: &mut Random, pools: &Pools, held: &Held, number: u32) -> Command {
    match (number, random.below(3)) {
        (5 | 6 | 30, 0) => move_one(random, held, &[number]),
        (6, 1) => withdraw(random, held),
        _ => put(random, pools, held, &[number]),
    }
}

/// PUT that breaks these of 5, 9, 6 and 30, and no other, but that 5 may bring 30 with it; 30 often by an equal start.
/// Whether it breaks 8 lies with the list.
pub fn put(random: &mut Random, pools: &Pools, held: &Held, broken: &[u32]) -> Command {
    Command::Put(broken_record(random, pools, held, broken))
}

/// The same, and 9 is broken by the forbidden tag alone, which both pools have.
pub fn put_tagged(random: &mut Random, pools: &Pools, held: &Held, broken: &[u32]) -> Command {
    let mut record = broken_record(random, pools, held, broken);
    let parts = pools.of_marks(record[MARKS]).with_forbidden_tag(random);
    record[OFFSET..].copy_from_slice(&random.pick(&parts));
    Command::Put(record)
}

fn broken_record(random: &mut Random, pools: &Pools, held: &Held, broken: &[u32]) -> [u32; NUMBERS] {
    let mut record = record(random, pools);
    record[ID] = if broken.contains(&6) { held.event(random).0 } else { held.new_id(random) };
    let times = if !broken.contains(&30) {
        held.free(random)
    } else if random.one_in(3) {
        Times { start: held.event(random).1.start, duration: record[DURATION] }
    } else {
        held.overlapping(random)
    };
    record[START..MARKS].copy_from_slice(&times.numbers());
    if broken.contains(&9) {
        let parts = pools.of_marks(record[MARKS]).no_chains(random);
        record[OFFSET..].copy_from_slice(&random.pick(&parts));
    }
    if broken.contains(&5) {
        let mut values = vec![
            (DURATION, DURATION_MAX + 1),
            (DURATION, record[DURATION] | high_bit(random, DURATION)),
            (MARKS, record[MARKS] | 0x08),
            // PUT has one byte for the marks.
            (MARKS, record[MARKS] | random.bit(3, 7)),
        ];
        if !broken.contains(&30) {
            values.extend([(DURATION, 0), (START, record[START] | high_bit(random, START))]);
        }
        // A start out of range is no event's, but the last one may go on up to it.
        if broken.contains(&30) == (held.timetable.end() > START_END) {
            values.push((START, START_END));
        }
        let (field, value) = random.pick(&values);
        record[field] = value;
    }
    record
}

/// MOVE that breaks these of 5, 6 and 30, not both 5 and 30, and no other; 30 often by an equal start. The list has two
/// events or more.
pub fn move_one(random: &mut Random, held: &Held, broken: &[u32]) -> Command {
    let (held_id, own) = held.event(random);
    let id = if broken.contains(&6) { held.new_id(random) } else { held_id };
    let start = if broken.contains(&5) {
        let high = held.free(random).start | high_bit(random, START);
        random.pick(&[START_END, high])
    } else if broken.contains(&30) {
        let other = held.other_times(random, own);
        let seconds = other.duration.min(START_END - other.start);
        let later = random.below(seconds as usize) as u32;
        other.start + random.pick(&[0, later])
    } else {
        held.free(random).start
    };
    Command::Move(id, start)
}

/// WITHDRAW that breaks 6.
pub fn withdraw(random: &mut Random, held: &Held) -> Command {
    Command::Withdraw(held.new_id(random))
}

/// Bytes at which a script breaks 3: an unknown command, or one whose operands are cut.
pub fn form(random: &mut Random) -> &'static [u8] {
    random.pick(&[&[0x00], &[0x05], &[0x01, 0x00], &[0x02]])
}
