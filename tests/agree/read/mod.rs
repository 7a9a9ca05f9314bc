//! Read, with a record buffer and without: the comparison with the other implementation, its groups of cases, and the
//! self-check's faults.

mod answer_faults;
mod bits;
mod built;
mod callers;
mod comparison;
mod ends;
mod event_fields;
mod event_loops;
mod event_order;
mod event_starts;
mod event_values;
mod file;
mod frames;
mod given;
mod headers;
mod large;
mod layout;
mod long_sections;
mod noise;
mod numbering;
mod order;
mod overlap_faults;
mod overlap_order;
mod overlaps;
mod precedence;
mod record_faults;
mod rivals;
mod rule_faults;
mod scene;
mod tags;
mod version_faults;
mod version_order;
mod versions;
mod victim;

pub use comparison::{Comparison, Subject};
pub use file::{close, File, CRC, TABLE_ID, VERSION};
pub use given::Given;
pub use layout::{rival, Layout};
pub use scene::Scene;

use crate::faults::shows;
use crate::other::{self, check, check_by, read, read_by, Asked, Caller, READ_PAPERS};

/// The groups that show most faults soonest come first.
pub fn all_groups(comparison: &mut Comparison) -> Result<(), String> {
    bits::run(comparison)?;
    event_values::run(comparison)?;
    overlaps::run(comparison)?;
    overlap_order::run(comparison)?;
    event_starts::run(comparison)?;
    headers::run(comparison)?;
    versions::run(comparison)?;
    version_order::run(comparison)?;
    frames::run(comparison)?;
    event_loops::run(comparison)?;
    event_order::run(comparison)?;
    long_sections::run(comparison)?;
    callers::run(comparison)?;
    tags::run(comparison)?;
    precedence::run(comparison)?;
    numbering::run(comparison)?;
    ends::run(comparison)?;
    rivals::run(comparison)?;
    built::run(comparison)?;
    noise::run(comparison)?;
    large::run(comparison)
}

/// The faults tried, or the one that the comparison did not show. Without a fault nothing shows.
pub fn self_check() -> Result<Vec<String>, String> {
    let mut shown = Vec::new();
    for caller in Caller::BOTH {
        shown.extend(self_check_for(caller)?);
    }
    if !rivals::better_files_show() {
        return Err("a file that is better than Build's passes".to_string());
    }
    shown.push("a file that is better than Build's".to_string());
    Ok(shown)
}

fn self_check_for(caller: Caller) -> Result<Vec<String>, String> {
    let right = Subject { build: other::build, read: &read, check: &check };
    let outcome = |subject: Subject| all_groups(&mut Comparison::new(caller, subject));
    // Read and check that ask for this, in the library's place.
    let outcome_by = |asked: &Asked| {
        let read = |caller, file: &[u8], base_day, records: &mut [u32]| read_by(asked, caller, file, base_day, records);
        let check = |caller, file: &[u8], base_day| check_by(asked, caller, file, base_day);
        outcome(Subject { read: &read, check: &check, ..right })
    };
    outcome(right)?;
    let [reads, checks] = ["Read", "check"].map(|call| format!("{call} for {caller}"));
    let mut shown = Vec::new();
    for (fault, rules) in rule_faults::rules() {
        shown.push(shows(&reads, &fault, outcome_by(&Asked { rules: &rules, ..READ_PAPERS }))?);
    }
    for (fault, sizes) in rule_faults::SIZES {
        shown.push(shows(&reads, fault, outcome_by(&Asked { sizes, ..READ_PAPERS }))?);
    }
    for (fault, frame) in rule_faults::FRAMES {
        shown.push(shows(&reads, fault, outcome_by(&Asked { frame, ..READ_PAPERS }))?);
    }
    for (fault, read) in record_faults::ALL.into_iter().chain(answer_faults::READS).chain(overlap_faults::READS) {
        shown.push(shows(&reads, fault, outcome(Subject { read: &read, ..right }))?);
    }
    for (fault, check) in answer_faults::CHECKS {
        shown.push(shows(&checks, fault, outcome(Subject { check: &check, ..right }))?);
    }
    Ok(shown)
}
