//! Faults of Plan, each of which the comparison must show.

use super::comparison::PlanCall;
use crate::other::{self, Plan};

pub const ALL: [(&str, PlanCall); 13] = [
    ("serves the other caller", |caller, lent, plan| *plan = other::plan(caller.other(), lent)),
    ("ends each table's range one segment short", |caller, lent, plan| {
        changed(other::plan(caller, lent), plan, |table| {
            if let Some(last) = table.iter_mut().rev().find(|count| **count != 0) {
                *last = 0;
            }
        });
    }),
    ("says 0 for an unpackable segment", |caller, lent, plan| {
        changed_counts(other::plan(caller, lent), plan, |count| if count == 255 { 0 } else { count });
    }),
    ("says 9 for an unpackable segment", |caller, lent, plan| {
        changed_counts(other::plan(caller, lent), plan, |count| if count == 255 { 9 } else { count });
    }),
    ("says 254 in the first table alone", |caller, lent, plan| {
        *plan = other::plan(caller, lent);
        plan[32..].iter_mut().filter(|count| **count == 254).for_each(|count| *count = 0);
    }),
    ("says 0 for an unsound list", |caller, lent, plan| {
        changed_counts(other::plan(caller, lent), plan, |count| if count == 254 { 0 } else { count });
    }),
    ("takes no list whose last event ends past the window", |caller, lent, plan| {
        *plan = other::plan(caller, lent);
        let is_past = |record: &[u32]| record[1] + record[2] > 5_529_600;
        if plan[0] != 254 && lent.list.chunks(6).take(lent.count).any(is_past) {
            *plan = [254; 512];
        }
    }),
    ("says 0 for an empty segment inside a table's range", |caller, lent, plan| {
        *plan = other::plan(caller, lent);
        let starts = lent.list.chunks_exact(6).take(lent.count).map(|record| record[1]);
        let held: Vec<_> = starts.map(|start| (start / 10_800) as usize).collect();
        if plan[0] != 254 {
            (0..512).filter(|index| !held.contains(index)).for_each(|index| plan[index] = 0);
        }
    }),
    ("gives every table its 32 segments", |caller, lent, plan| {
        changed(other::plan(caller, lent), plan, |table| {
            if table[0] != 0 {
                table.iter_mut().filter(|count| **count == 0).for_each(|count| *count = 1);
            }
        });
    }),
    ("ends a table's range before an unpackable segment", |caller, lent, plan| {
        changed(other::plan(caller, lent), plan, |table| {
            if let Some(first) = table.iter().position(|count| *count == 255) {
                table[first..].fill(0);
            }
        });
    }),
    ("leaves the tables that the file has not", |caller, lent, plan| {
        let planned = other::plan(caller, lent);
        let tables = planned.chunks(32).filter(|table| table[0] != 0).count();
        plan[..32 * tables].copy_from_slice(&planned[..32 * tables]);
    }),
    ("leaves the last table out", |caller, lent, plan| {
        *plan = other::plan(caller, lent);
        plan[480..].iter_mut().filter(|count| **count != 254).for_each(|count| *count = 0);
    }),
    ("says at most 7", |caller, lent, plan| {
        changed_counts(other::plan(caller, lent), plan, |count| if count == 8 { 7 } else { count });
    }),
];

/// The plan with each table changed.
fn changed(mut planned: Plan, plan: &mut Plan, change: impl FnMut(&mut [u8])) {
    planned.chunks_mut(32).for_each(change);
    *plan = planned;
}

/// The plan with each count changed.
fn changed_counts(planned: Plan, plan: &mut Plan, change: impl FnMut(u8) -> u8) {
    *plan = planned.map(change);
}
