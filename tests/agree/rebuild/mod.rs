//! Rebuild (02, W-208): the comparison with the other implementation, its groups of cases, and the self-check's faults.

mod base_days;
mod call_faults;
mod case;
mod changed_lists;
mod changes;
mod comparison;
mod damaged_files;
mod fates;
mod file_faults;
mod large;
mod last_tables;
mod method_faults;
mod modulo;
mod order;
mod order_faults;
mod outputs;
mod precedence;
mod previous_files;
mod rebuilt;
mod refusals;
mod rivals;
mod same;
mod samples;

pub use comparison::Comparison;

use crate::faults::shows;
use crate::other::{rebuild, rebuild_by, Caller, Lent, Previous};

/// The groups that show most faults soonest come first.
pub fn all_groups(comparison: &mut Comparison) -> Result<(), String> {
    samples::run(comparison)?;
    precedence::run(comparison)?;
    base_days::run(comparison)?;
    refusals::run(comparison)?;
    outputs::run(comparison)?;
    changes::run(comparison)?;
    modulo::run(comparison)?;
    rivals::run(comparison)?;
    last_tables::run(comparison)?;
    previous_files::run(comparison)?;
    damaged_files::run(comparison)?;
    same::run(comparison)?;
    large::run(comparison)
}

/// The faults tried, or the one that the comparison did not show. Without a fault nothing shows.
pub fn self_check() -> Result<Vec<String>, String> {
    let mut shown = Vec::new();
    for caller in Caller::BOTH {
        let call = format!("Rebuild for {caller}");
        all_groups(&mut Comparison::new(caller, &rebuild))?;
        for (fault, faulty) in file_faults::ALL.into_iter().chain(call_faults::ALL).chain(order_faults::ALL) {
            shown.push(shows(&call, fault, all_groups(&mut Comparison::new(caller, &faulty)))?);
        }
        for (fault, method) in method_faults::all() {
            let faulty = |caller, previous: Previous, lent: &Lent, base_day, output: &mut [u8]| {
                rebuild_by(method, caller, previous, lent, base_day, output)
            };
            shown.push(shows(&call, fault, all_groups(&mut Comparison::new(caller, &faulty)))?);
        }
    }
    Ok(shown)
}
