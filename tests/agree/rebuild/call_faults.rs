//! Faults of Rebuild's answers, and of what a call leaves: each stands in for the library, and must show.

use super::comparison::RebuildCall;
use crate::other::{build, check, plan, rebuild, Built, Caller, Identity, Lent, Previous};

pub const ALL: [(&str, RebuildCall); 23] = [
    ("serves the other caller", |caller, previous, lent, base_day, output| {
        rebuild(caller.other(), previous, lent, base_day, output)
    }),
    ("reads the previous file for the other caller", |caller, previous, lent, base_day, output| {
        let read = check(caller.other(), previous.file, previous.base_day);
        first_if(read.number != 0, (read.number, read.value), caller, previous, lent, base_day, output)
    }),
    ("builds for the other caller", |caller, previous, lent, base_day, output| {
        let both_read = Caller::BOTH.map(|caller| check(caller, previous.file, previous.base_day).number) == [0, 0];
        let builds_for = if both_read { caller.other() } else { caller };
        rebuild(builds_for, previous, lent, base_day, output)
    }),
    ("reads the previous file under the new base day", |caller, previous, lent, base_day, output| {
        rebuild(caller, Previous { base_day, ..previous }, lent, base_day, output)
    }),
    ("builds under the previous base day", |caller, previous, lent, base_day, output| {
        let built = rebuild(caller, previous, lent, base_day, &mut []);
        let base_day = if built.number == 11 { previous.base_day } else { base_day };
        rebuild(caller, previous, lent, base_day, output)
    }),
    // Answers.
    ("takes a previous file that is refused for none", |caller, previous, lent, base_day, output| {
        let built = rebuild(caller, previous, lent, base_day, output);
        if (20..=26).contains(&built.number) {
            build(caller, lent, base_day, Identity::default(), output)
        } else {
            built
        }
    }),
    ("takes an empty previous file for none", |caller, previous, lent, base_day, output| {
        if previous.file.is_empty() && previous.base_day <= 65_472 {
            build(caller, lent, base_day, Identity::default(), output)
        } else {
            rebuild(caller, previous, lent, base_day, output)
        }
    }),
    ("returns 0 for a previous file that is refused", |caller, previous, lent, base_day, output| {
        let built = rebuild(caller, previous, lent, base_day, output);
        Built { value: if built.number >= 20 { 0 } else { built.value }, ..built }
    }),
    ("says 24 for every previous file that is refused", |caller, previous, lent, base_day, output| {
        let built = rebuild(caller, previous, lent, base_day, output);
        Built { number: if built.number >= 20 { 24 } else { built.number }, ..built }
    }),
    ("says where the previous file breaks in sixteen bits", |caller, previous, lent, base_day, output| {
        let built = rebuild(caller, previous, lent, base_day, output);
        Built { value: if built.number >= 20 { built.value & 0xFFFF } else { built.value }, ..built }
    }),
    ("says a length in sixteen bits", |caller, previous, lent, base_day, output| {
        let built = rebuild(caller, previous, lent, base_day, output);
        Built { value: if built.number == 0 { built.value & 0xFFFF } else { built.value }, ..built }
    }),
    ("names the highest unpackable segment", |caller, previous, lent, base_day, output| {
        let built = rebuild(caller, previous, lent, base_day, output);
        match plan(caller, lent).iter().rposition(|count| *count == 255) {
            Some(index) if built.number == 10 => Built { value: index, ..built },
            _ => built,
        }
    }),
    ("says 2 where a version is 31", |caller, previous, lent, base_day, output| {
        let read = check(caller, previous.file, previous.base_day);
        let built = rebuild(caller, previous, lent, base_day, &mut []);
        let is_seen = read.identity.versions.contains(&31) && [10, 11, 12].contains(&built.number);
        first_if(is_seen, (2, 0), caller, previous, lent, base_day, output)
    }),
    ("says 27 for more than half of the caller's events", |caller, previous, lent, base_day, output| {
        let count = check(caller, previous.file, previous.base_day).count;
        first_if(count > caller.sizes().events / 2, (27, count), caller, previous, lent, base_day, output)
    }),
    ("asks for a byte more than it needs", |caller, previous, lent, base_day, output| {
        let built = rebuild(caller, previous, lent, base_day, output);
        Built { value: built.value + usize::from(built.number == 11), ..built }
    }),
    ("asks for as much as the previous file has", |caller, previous, lent, base_day, output| {
        let built = rebuild(caller, previous, lent, base_day, output);
        Built { value: if built.number == 11 { previous.file.len() } else { built.value }, ..built }
    }),
    ("needs an output as long as the previous file", |caller, previous, lent, base_day, output| {
        let built = rebuild(caller, previous, lent, base_day, &mut []);
        let is_short = built.number == 11 && output.len() < previous.file.len();
        first_if(is_short, (11, built.value), caller, previous, lent, base_day, output)
    }),
    // The output.
    ("writes the previous file before it says 12", |caller, previous, lent, base_day, output| {
        let built = rebuild(caller, previous, lent, base_day, output);
        written_if(built.number == 12, previous.file, output);
        built
    }),
    ("writes a section before it says 10", |caller, previous, lent, base_day, output| {
        let built = rebuild(caller, previous, lent, base_day, output);
        written_if(built.number == 10, &[0x50], output);
        built
    }),
    ("writes to the output before it refuses the previous file", |caller, previous, lent, base_day, output| {
        let built = rebuild(caller, previous, lent, base_day, output);
        written_if(built.number >= 20, &[0x50], output);
        built
    }),
    ("writes what fits of a file that does not", |caller, previous, lent, base_day, output| {
        let built = rebuild(caller, previous, lent, base_day, output);
        if built.number == 11 {
            let mut file = vec![0; built.value];
            rebuild(caller, previous, lent, base_day, &mut file);
            output.copy_from_slice(&file[..output.len()]);
        }
        built
    }),
    ("leaves the output from 2^17 on", |caller, previous, lent, base_day, output| {
        let behind = output.get(1 << 17..).unwrap_or_default().to_vec();
        let built = rebuild(caller, previous, lent, base_day, output);
        let end = output.len();
        output[end - behind.len()..].copy_from_slice(&behind);
        built
    }),
    ("clears the bytes beyond the file", |caller, previous, lent, base_day, output| {
        let built = rebuild(caller, previous, lent, base_day, output);
        if built.number == 0 {
            output[built.value..].fill(0);
        }
        built
    }),
];

/// Refuses with this number and value before anything else is looked at.
pub fn first_if(
    refused: bool,
    (number, value): (u32, usize),
    caller: Caller,
    previous: Previous,
    lent: &Lent,
    base_day: u32,
    output: &mut [u8],
) -> Built {
    if refused {
        Built { number, value }
    } else {
        rebuild(caller, previous, lent, base_day, output)
    }
}

/// Writes to the front of the output what it has room for.
fn written_if(shows: bool, bytes: &[u8], output: &mut [u8]) {
    if shows {
        let length = bytes.len().min(output.len());
        output[..length].copy_from_slice(&bytes[..length]);
    }
}
