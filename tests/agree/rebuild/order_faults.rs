//! Faults of the order of Rebuild's refusals, and of its base days: each stands in for the library, and must show.

use super::call_faults::first_if;
use super::comparison::RebuildCall;
use crate::other::{build, check, plan, rebuild, Built, Identity, Previous};

pub const ALL: [(&str, RebuildCall); 10] = [
    ("looks at the new base day before the previous file", |caller, previous, lent, base_day, output| {
        let is_late = previous.base_day <= 65_472 && base_day > 65_472;
        first_if(is_late, (1, 0), caller, previous, lent, base_day, output)
    }),
    ("looks at the list before the previous file", |caller, previous, lent, base_day, output| {
        let is_unsound = plan(caller, lent)[0] == 254 && previous.base_day <= 65_472;
        first_if(is_unsound, (12, 0), caller, previous, lent, base_day, output)
    }),
    ("looks for unpackable segments before the previous file", |caller, previous, lent, base_day, output| {
        let unpackable = plan(caller, lent).iter().position(|count| *count == 255).unwrap_or(512);
        let is_first = unpackable < 512 && previous.base_day <= 65_472 && base_day <= 65_472;
        first_if(is_first, (10, unpackable), caller, previous, lent, base_day, output)
    }),
    ("looks at the output before the previous file", |caller, previous, lent, base_day, output| {
        let built = build(caller, lent, base_day, Identity::default(), &mut []);
        let is_short = built.number == 11 && output.len() < built.value && previous.base_day <= 65_472;
        first_if(is_short, (11, built.value), caller, previous, lent, base_day, output)
    }),
    ("looks at the previous file before its base day", |caller, previous, lent, base_day, output| {
        let read = check(caller, previous.file, previous.base_day.min(65_472));
        first_if(read.number >= 20, (read.number, read.value), caller, previous, lent, base_day, output)
    }),
    ("looks at the list before the new base day", |caller, previous, lent, base_day, output| {
        let built = rebuild(caller, previous, lent, base_day, output);
        let is_unsound = plan(caller, lent)[0] == 254 && previous.base_day <= 65_472;
        if built.number == 1 && is_unsound {
            Built { number: 12, value: 0 }
        } else {
            built
        }
    }),
    ("says 11 of an unsound list", |caller, previous, lent, base_day, output| {
        let built = rebuild(caller, previous, lent, base_day, output);
        if built.number == 12 && output.len() < 18 {
            Built { number: 11, value: 18 }
        } else {
            built
        }
    }),
    ("says 11 before it looks for unpackable segments", |caller, previous, lent, base_day, output| {
        let built = rebuild(caller, previous, lent, base_day, output);
        if built.number == 10 && output.len() < 18 {
            Built { number: 11, value: 18 }
        } else {
            built
        }
    }),
    // Base days.
    ("takes base days in sixteen bits", |caller, previous, lent, base_day, output| {
        rebuild(caller, Previous { base_day: previous.base_day & 0xFFFF, ..previous }, lent, base_day & 0xFFFF, output)
    }),
    ("does not look at the previous base day", |caller, previous, lent, base_day, output| {
        let previous = Previous { base_day: previous.base_day.min(65_472), ..previous };
        rebuild(caller, previous, lent, base_day, output)
    }),
];
