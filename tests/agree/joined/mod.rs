//! Joined scripts (02, W-214): groups of cases of Edit, which ask the same of both implementations, and the self-check's
//! faults, which both could have.

mod apart;
mod converse;
mod following;
mod halves;
mod pairs;
mod refusal_faults;
mod refusals;
mod script_faults;
mod undo;
mod withdrawal_faults;
mod withdrawals;

use crate::edits::Comparison;
use crate::faults::shows;
use crate::other::Caller;
use crate::tally::Kind;

pub fn kinds(caller: Caller) -> Vec<Kind> {
    let of_two_scripts = [undo::kinds(), pairs::kinds(), refusals::kinds(), halves::kinds(caller)].concat();
    [of_two_scripts, converse::kinds(), withdrawals::kinds()].concat()
}

pub fn all_groups(comparison: &mut Comparison) -> Result<(), String> {
    two_scripts(comparison)?;
    converse::run(comparison)?;
    withdrawals::run(comparison)
}

/// What two scripts give joined follows from what they give apart.
fn two_scripts(comparison: &mut Comparison) -> Result<(), String> {
    undo::run(comparison)?;
    pairs::run(comparison)?;
    refusals::run(comparison)?;
    halves::run(comparison)
}

/// The faults tried, each on both sides, so that nothing differs; or the one that these groups did not show.
pub fn self_check() -> Result<Vec<String>, String> {
    let mut shown = Vec::new();
    for caller in Caller::BOTH {
        shown.extend(run_for(caller)?);
    }
    Ok(shown)
}

fn run_for(caller: Caller) -> Result<Vec<String>, String> {
    let call = format!("Edit on both sides for {caller}");
    let mut shown = Vec::new();
    for (fault, edit) in script_faults::ALL {
        shown.push(shows(&call, fault, two_scripts(&mut Comparison::with_itself(caller, &edit)))?);
    }
    for (fault, refusal) in refusal_faults::ALL {
        let edit = |caller, list: &mut [u32], count, day: &[u8], series: &[u8], script: &[u8]| {
            refusal.edit(caller, list, count, day, series, script)
        };
        shown.push(shows(&call, fault, two_scripts(&mut Comparison::with_itself(caller, &edit)))?);
    }
    if caller == Caller::Broadcast {
        let (fault, edit) = script_faults::OF_HALVES;
        shown.push(shows(&call, fault, halves::run(&mut Comparison::with_itself(caller, &edit)))?);
    }
    for (fault, edit) in withdrawal_faults::ALL {
        shown.push(shows(&call, fault, withdrawals::run(&mut Comparison::with_itself(caller, &edit)))?);
    }
    Ok(shown)
}
