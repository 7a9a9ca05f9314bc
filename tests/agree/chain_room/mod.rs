//! How much text still fits (02, W-201): the comparison with the other implementation, its groups of cases, and the
//! self-check's faults, of which some stand on both sides.

mod answer_faults;
mod asked;
mod buffers;
mod case;
mod causes;
mod comparison;
mod crowded;
mod damage;
mod edges;
mod edited;
mod faults;
mod kinds;
mod method_faults;
mod most;
mod one_segment;
mod parts;
mod put;
mod refusal_faults;
mod refusals;
mod samples;
mod segment_faults;
mod segments;
mod starts;

pub use comparison::{Comparison, Subject};

use crate::faults::shows;
use crate::other::{self, chain_room_by, chain_room_halved, Caller, ChainRoom, Lent, CHAIN_ROOM_BY_PACKING_RULE};
use comparison::RoomSubject;

/// The groups that show most faults soonest come first.
pub fn all_groups(comparison: &mut Comparison) -> Result<(), String> {
    samples::run(comparison)?;
    starts::run(comparison)?;
    buffers::run(comparison)?;
    damage::run(comparison)?;
    refusals::run(comparison)?;
    most::run(comparison)?;
    put::run(comparison)?;
    edges::run(comparison)?;
    crowded::run(comparison)?;
    one_segment::run(comparison)
}

/// The faults tried, or the one that the comparison did not show. Without a fault nothing shows.
pub fn self_check() -> Result<Vec<String>, String> {
    let mut shown = Vec::new();
    for caller in Caller::BOTH {
        all_groups(&mut Comparison::new(caller, with_room(&by_packing_rule)))?;
        shown.extend(beside_other(caller)?);
        shown.extend(on_both_sides(caller)?);
    }
    Ok(shown)
}

/// What every length by the packing rule alone gives, and halving alike.
fn by_packing_rule(caller: Caller, lent: &Lent, start: u32) -> ChainRoom {
    let tried = chain_room_by(CHAIN_ROOM_BY_PACKING_RULE, caller, lent, start);
    assert_eq!(chain_room_halved(caller, lent, start), tried, "halving gives something else");
    tried
}

/// This call, and the other implementation's Edit and Build of an event that is put by its answer.
fn with_room(chain_room: RoomSubject) -> Subject {
    Subject { chain_room, edit: other::edit, build: other::build }
}

/// Faults that show beside the other implementation.
fn beside_other(caller: Caller) -> Result<Vec<String>, String> {
    let call = format!("chain_room for {caller}");
    let all = [faults::of_lengths(), faults::of_starts(), faults::of_refusals()].into_iter().flatten();
    let tried =
        all.map(|(fault, room)| shows(&call, fault, all_groups(&mut Comparison::new(caller, with_room(&room)))));
    tried.collect()
}

/// Faults on both sides, so that nothing differs: by what Edit puts and Build then says.
fn on_both_sides(caller: Caller) -> Result<Vec<String>, String> {
    let call = format!("chain_room on both sides, built, for {caller}");
    let tried = faults::of_lengths()
        .into_iter()
        .map(|(fault, room)| shows(&call, fault, put::run(&mut Comparison::with_itself(caller, with_room(&room)))));
    tried.collect()
}
