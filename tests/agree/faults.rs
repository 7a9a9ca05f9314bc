//! The self-check: the other implementation with a fault stands in for the library, and the comparison must show it,
//! for each caller.

use crate::crcs::{self, Crc};
use crate::edit_faults;
use crate::edits::Comparison;
use crate::guarded;
use crate::list_faults;
use crate::other::{self, Caller};
use crate::overlap_faults;
use crate::overlap_order_faults;

const CRCS: [(&str, Crc); 2] = [
    ("inverts at the end", |bytes| !other::crc32(bytes)),
    ("reads 256 bytes at most", |bytes| other::crc32(&bytes[..bytes.len().min(256)])),
];

/// The groups of cases of a call.
type Groups = fn(&mut Comparison) -> Result<(), String>;

/// The faults tried, or the one that the comparison did not show. Without a fault nothing shows.
pub fn run(groups: Groups) -> Result<Vec<String>, String> {
    let mut shown = Vec::new();
    for caller in Caller::BOTH {
        shown.extend(run_for(caller, groups)?);
    }
    crcs::run(other::crc32)?;
    crcs::run(other::crc32_by_table)?;
    for (fault, crc) in CRCS {
        shown.push(shows("CRC_32", fault, crcs::run(crc))?);
    }
    if !guarded::writes_beside_show() {
        return Err("a write beside the buffer passes".to_string());
    }
    shown.push("a write beside the buffer".to_string());
    Ok(shown)
}

/// Edit's faults for this caller.
fn run_for(caller: Caller, groups: Groups) -> Result<Vec<String>, String> {
    let call = format!("Edit for {caller}");
    groups(&mut Comparison::new(caller, &other::edit))?;
    let mut shown = Vec::new();
    for (fault, edit) in edit_faults::ALL.into_iter().chain(list_faults::ALL).chain(overlap_order_faults::ALL) {
        shown.push(shows(&call, fault, groups(&mut Comparison::new(caller, &edit)))?);
    }
    for (fault, method) in list_faults::METHODS.into_iter().chain(overlap_faults::METHODS) {
        let edit = |caller, list: &mut [u32], count, day: &[u8], series: &[u8], script: &[u8]| {
            other::edit_by(method, caller, list, count, day, series, script)
        };
        shown.push(shows(&call, fault, groups(&mut Comparison::new(caller, &edit)))?);
    }
    Ok(shown)
}

/// The fault's name, if the comparison failed by it.
pub fn shows<T>(call: &str, fault: &str, outcome: Result<T, String>) -> Result<String, String> {
    match outcome {
        Err(_) => Ok(format!("{call} {fault}")),
        Ok(_) => Err(format!("{call} passes, and {fault}")),
    }
}
