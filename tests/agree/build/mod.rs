//! Build and Plan: the comparison with the other implementation, its groups of cases, and the self-check's faults.

mod call_faults;
mod callers;
mod comparison;
mod cuts;
mod damage;
mod file_faults;
mod fills;
mod method_faults;
mod order;
mod outputs;
mod overlaps;
mod packer;
mod packings;
mod plan_faults;
mod precedence;
mod ranges;
mod refusals;
mod request;
mod rewritten;
mod samples;
mod sections;
mod segments;
mod tags;

pub use comparison::{BuildCall, Comparison, Subject};
pub use request::{Request, BASE_DAY_MAX};
pub use rewritten::{each_section, seal};
pub use sections::{section_length, sections, Section};
pub use segments::{nearby, with_neighbours};

use crate::faults::shows;
use crate::other::{self, build_by, plan_by, Caller, Lent, Plan};

pub fn all_groups(comparison: &mut Comparison) -> Result<(), String> {
    samples::run(comparison)?;
    callers::run(comparison)?;
    tags::run(comparison)?;
    overlaps::run(comparison)?;
    fills::run(comparison)?;
    precedence::run(comparison)?;
    refusals::run(comparison)?;
    outputs::run(comparison)?;
    packer::run(comparison)?;
    ranges::run(comparison)?;
    damage::run(comparison)
}

/// The faults tried, or the one that the comparison did not show. Without a fault nothing shows.
pub fn self_check() -> Result<Vec<String>, String> {
    let mut shown = Vec::new();
    for caller in Caller::BOTH {
        shown.extend(self_check_for(caller)?);
    }
    if !packer::worse_cuts_show() {
        return Err("cuts that are not the best pass".to_string());
    }
    shown.push("cuts that are not the best".to_string());
    Ok(shown)
}

fn self_check_for(caller: Caller) -> Result<Vec<String>, String> {
    let right = Subject { build: &other::build, plan: &|caller, lent, plan| *plan = other::plan(caller, lent) };
    let outcome = |subject: Subject| all_groups(&mut Comparison::new(caller, subject));
    outcome(right)?;
    let [build, plan] = ["Build", "Plan"].map(|call| format!("{call} for {caller}"));
    let mut shown = Vec::new();
    for (fault, call) in file_faults::ALL.into_iter().chain(call_faults::ALL) {
        shown.push(shows(&build, fault, outcome(Subject { build: &call, ..right }))?);
    }
    for (fault, method) in method_faults::BOTH.into_iter().chain(method_faults::BUILD) {
        let call = |caller, lent: &Lent, base_day, identity, output: &mut [u8]| {
            build_by(method, caller, lent, base_day, identity, output)
        };
        shown.push(shows(&build, fault, outcome(Subject { build: &call, ..right }))?);
    }
    for (fault, call) in plan_faults::ALL {
        shown.push(shows(&plan, fault, outcome(Subject { plan: &call, ..right }))?);
    }
    for (fault, method) in method_faults::BOTH {
        let call = |caller, lent: &Lent, plan: &mut Plan| *plan = plan_by(method, caller, lent);
        shown.push(shows(&plan, fault, outcome(Subject { plan: &call, ..right }))?);
    }
    Ok(shown)
}
