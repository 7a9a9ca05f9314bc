//! Plan: 01, "Build, Read", and 02, W-206.

use super::caller::Caller;
use super::schedule::{Lent, Method, Schedule, PAPERS, SEGMENTS};

const UNSOUND: u8 = 254;
const UNPACKABLE: u8 = 255;

/// Each segment's number of sections, by segment index.
pub type Plan = [u8; 512];

pub fn plan(caller: Caller, lent: &Lent) -> Plan {
    plan_by(PAPERS, caller, lent)
}

/// Plan by another method than the papers': the self-check's faults have their own.
pub fn plan_by(method: Method, caller: Caller, lent: &Lent) -> Plan {
    let Some(schedule) = Schedule::of(method, caller, lent) else {
        return [UNSOUND; 512];
    };
    let room = (method.sizes)(caller).room();
    let mut plan = [0; 512];
    for table in 0..=schedule.last_table() {
        for segment in 0..=schedule.last_segment(table) {
            let sections = (method.packing)(room, schedule.events(table, segment));
            plan[SEGMENTS * table + segment] = sections.map_or(UNPACKABLE, |sections| sections.len() as u8);
        }
    }
    plan
}
