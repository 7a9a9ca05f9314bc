//! Roll (02, W-205): the comparison with the other implementation, its groups of cases, and the self-check's faults, of
//! which some stand on both sides.

mod base_days;
mod case;
mod causes;
mod comparison;
mod damage;
mod day_lists;
mod days;
mod faults;
mod file_faults;
mod file_lists;
mod files;
mod kinds;
mod left_faults;
mod method_faults;
mod order_faults;
mod outcome;
mod rebuilt;
mod refusal_faults;
mod refusals;
mod samples;
mod shifted;
mod sound;
mod soundness_faults;
mod written;

pub use comparison::{Comparison, Subject};

use crate::faults::shows;
use crate::other::{self, Caller};
use comparison::RollSubject;

/// The groups that show most faults soonest come first.
pub fn all_groups(comparison: &mut Comparison) -> Result<(), String> {
    samples::run(comparison)?;
    base_days::run(comparison)?;
    refusals::run(comparison)?;
    damage::run(comparison)?;
    sound::run(comparison)?;
    days::run(comparison)?;
    files::run(comparison)?;
    rebuilt::run(comparison)
}

/// The faults tried, or the one that the comparison did not show. Without a fault nothing shows.
pub fn self_check() -> Result<Vec<String>, String> {
    let mut shown = Vec::new();
    for caller in Caller::BOTH {
        all_groups(&mut Comparison::new(caller, with_roll(&other::roll)))?;
        shown.extend(beside_other(caller)?);
        shown.extend(on_both_sides(caller)?);
        shown.extend(of_files(caller)?);
    }
    Ok(shown)
}

/// This roll, and the other implementation's Build and Rebuild of what it leaves.
fn with_roll(roll: RollSubject) -> Subject {
    Subject { roll, build: other::build, rebuild: other::rebuild }
}

/// Faults that show beside the other implementation.
fn beside_other(caller: Caller) -> Result<Vec<String>, String> {
    let call = format!("roll for {caller}");
    let all = [faults::of_events(), faults::of_buffer(), faults::of_refusals()].into_iter().flatten();
    let tried =
        all.map(|(fault, roll)| shows(&call, fault, all_groups(&mut Comparison::new(caller, with_roll(&roll)))));
    tried.collect()
}

/// Faults on both sides, so that nothing differs: by several rolls in a row, and by Build before and after a roll.
fn on_both_sides(caller: Caller) -> Result<Vec<String>, String> {
    let by_days = format!("roll on both sides, day by day, for {caller}");
    let by_files = format!("roll on both sides, built, for {caller}");
    let mut shown = Vec::new();
    for (fault, roll) in faults::of_events().into_iter().chain(faults::of_buffer()) {
        shown.push(shows(&by_days, fault, days::run(&mut Comparison::with_itself(caller, with_roll(&roll))))?);
    }
    for (fault, roll) in faults::of_events() {
        shown.push(shows(&by_files, fault, files::run(&mut Comparison::with_itself(caller, with_roll(&roll))))?);
    }
    Ok(shown)
}

/// Faults of Build and of Rebuild that show by a roll.
fn of_files(caller: Caller) -> Result<Vec<String>, String> {
    let [build, rebuild] = ["Build", "Rebuild"].map(|call| format!("{call} after a roll for {caller}"));
    let right = with_roll(&other::roll);
    let mut shown = Vec::new();
    for (fault, faulty) in file_faults::BUILDS {
        let subject = Subject { build: faulty, ..right };
        shown.push(shows(&build, fault, files::run(&mut Comparison::new(caller, subject)))?);
    }
    for (fault, faulty) in file_faults::REBUILDS {
        let subject = Subject { rebuild: faulty, ..right };
        shown.push(shows(&rebuild, fault, rebuilt::run(&mut Comparison::new(caller, subject)))?);
    }
    Ok(shown)
}
