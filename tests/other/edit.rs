//! Edit: 01, "Edit" and "When a call says no", and 02, W-204, W-206 and W-209.

use super::caller::Caller;
use super::event::{follows, is_chain, start_in_range, Event, Follows, IsChain, Pools, NUMBERS};
use super::list::List;
use super::script::{edits, Edit};

const OUT_OF_RANGE: u32 = 5;
const ID_PRESENT_OR_ABSENT: u32 = 6;
const AT_LIMIT: u32 = 8;
const NO_CHAIN: u32 = 9;
const UNSOUND: u32 = 12;
const OVERLAP: u32 = 30;

/// 01's number and value, and the count then held.
#[derive(Clone, Copy, Debug, PartialEq)]
pub struct Answer {
    pub number: u32,
    pub value: usize,
    pub count: usize,
}

/// What Edit goes by: the most events of a sound list and of one after a PUT, which parts are chains, what overlaps.
#[derive(Clone, Copy)]
pub struct EditMethod {
    pub sound_max: fn(Caller) -> usize,
    pub put_max: fn(Caller) -> usize,
    pub is_chain: IsChain,
    /// In a sound list.
    pub follows: Follows,
    /// Whether an event that is put overlaps one of the list.
    pub put_overlaps: fn(&List, &Event) -> bool,
    /// Whether an event that is moved overlaps one of the others: as it was, and as it is to be.
    pub move_overlaps: fn(&List, &Event, &Event) -> bool,
}

pub const EDIT_PAPERS: EditMethod = EditMethod {
    sound_max: |caller| caller.sizes().events,
    put_max: |caller| caller.sizes().events,
    is_chain,
    follows,
    put_overlaps: List::overlaps,
    move_overlaps: |others, _, moved| others.overlaps(moved),
};

/// Carries out the script on the list, which is read from the buffer and written back to it once.
pub fn edit(caller: Caller, buffer: &mut [u32], count: usize, day: &[u8], series: &[u8], script: &[u8]) -> Answer {
    edit_by(EDIT_PAPERS, caller, buffer, count, day, series, script)
}

/// Edit by another method than the papers': the self-check's faults have their own.
pub fn edit_by(
    method: EditMethod,
    caller: Caller,
    buffer: &mut [u32],
    count: usize,
    day: &[u8],
    series: &[u8],
    script: &[u8],
) -> Answer {
    let pools = Pools { day, series, is_chain: method.is_chain };
    let Some(mut list) = List::read((method.sound_max)(caller), method.follows, buffer, count, pools) else {
        return Answer { number: UNSOUND, value: 0, count };
    };
    let edits = match edits(script) {
        Ok(edits) => edits,
        Err((value, number)) => return Answer { number, value, count },
    };
    let limit = (method.put_max)(caller).min(buffer.len() / NUMBERS);
    let outcome = edits.iter().try_for_each(|(offset, edit)| {
        carry_out(method, &mut list, edit, pools, limit).map_err(|number| (*offset, number))
    });
    list.write(buffer);
    let count = list.len();
    match outcome {
        Ok(()) => Answer { number: 0, value: count, count },
        Err((value, number)) => Answer { number, value, count },
    }
}

/// Carries out one edit, or leaves the list and says the number of the refusal.
fn carry_out(method: EditMethod, list: &mut List, edit: &Edit, pools: Pools, limit: usize) -> Result<(), u32> {
    match *edit {
        Edit::Put(event) => {
            keep(event.in_range(), OUT_OF_RANGE)?;
            keep(pools.hold_chain_of(&event), NO_CHAIN)?;
            keep(list.start_of(event.id).is_none(), ID_PRESENT_OR_ABSENT)?;
            keep(!(method.put_overlaps)(list, &event), OVERLAP)?;
            keep(list.len() < limit, AT_LIMIT)?;
            list.insert(event);
        }
        Edit::Withdraw { id } => {
            list.remove(id).ok_or(ID_PRESENT_OR_ABSENT)?;
        }
        Edit::Move { id, start } => {
            keep(start_in_range(start), OUT_OF_RANGE)?;
            let event = list.remove(id).ok_or(ID_PRESENT_OR_ABSENT)?;
            let moved = Event { start, ..event };
            let overlaps = (method.move_overlaps)(list, &event, &moved);
            list.insert(if overlaps { event } else { moved });
            keep(!overlaps, OVERLAP)?;
        }
    }
    Ok(())
}

/// Goes on if the rule is kept, and else refuses with its number.
fn keep(rule: bool, number: u32) -> Result<(), u32> {
    if rule {
        Ok(())
    } else {
        Err(number)
    }
}
