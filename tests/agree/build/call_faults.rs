//! Faults of Build's answers, of their order, and of what a call leaves: each stands in for the library, and must show.

use super::comparison::BuildCall;
use super::sections::section_length;
use crate::other::{build, plan, Built, Caller, Identity, Lent};

/// The shortest file.
const FILE_MIN: usize = 18;

pub const ALL: [(&str, BuildCall); 24] = [
    ("serves the other caller", |caller, lent, base_day, identity, output| {
        build(caller.other(), lent, base_day, identity, output)
    }),
    // The output.
    ("writes to an output that is short", |caller, lent, base_day, identity, output| {
        let built = build(caller, lent, base_day, identity, output);
        if built.number == 11 {
            let mut file = vec![0; built.value];
            build(caller, lent, base_day, identity, &mut file);
            output.copy_from_slice(&file[..output.len()]);
        }
        built
    }),
    ("writes the sections before an unpackable segment", |caller, lent, base_day, identity, output| {
        let built = build(caller, lent, base_day, identity, output);
        if built.number == 10 && !output.is_empty() {
            output[0] = 0x50;
        }
        built
    }),
    ("leaves the output from 2^17 on", |caller, lent, base_day, identity, output| {
        let behind = output.get(1 << 17..).unwrap_or_default().to_vec();
        let built = build(caller, lent, base_day, identity, output);
        let end = output.len();
        output[end - behind.len()..].copy_from_slice(&behind);
        built
    }),
    ("clears the bytes beyond the file", |caller, lent, base_day, identity, output| {
        let built = build(caller, lent, base_day, identity, output);
        if built.number == 0 {
            output[built.value..].fill(0);
        }
        built
    }),
    // Answers.
    ("asks for a byte more than it needs", |caller, lent, base_day, identity, output| {
        let built = build(caller, lent, base_day, identity, output);
        Built { value: built.value + usize::from(built.number == 11), ..built }
    }),
    ("asks for the first section that does not fit", |caller, lent, base_day, identity, output| {
        let built = build(caller, lent, base_day, identity, output);
        if built.number != 11 {
            return built;
        }
        let mut file = vec![0; built.value];
        build(caller, lent, base_day, identity, &mut file);
        let mut need = 0;
        while need <= output.len() {
            need += section_length(&file[need..]);
        }
        Built { value: need, ..built }
    }),
    ("says a length in sixteen bits", |caller, lent, base_day, identity, output| {
        let built = build(caller, lent, base_day, identity, output);
        Built { value: built.value & 0xFFFF, ..built }
    }),
    ("names the highest unpackable segment", |caller, lent, base_day, identity, output| {
        let built = build(caller, lent, base_day, identity, output);
        match plan(caller, lent).iter().rposition(|count| *count == 255) {
            Some(index) if built.number == 10 => Built { value: index, ..built },
            _ => built,
        }
    }),
    ("names an unpackable segment by its place in its table", |caller, lent, base_day, identity, output| {
        let built = build(caller, lent, base_day, identity, output);
        Built { value: if built.number == 10 { built.value % 32 } else { built.value }, ..built }
    }),
    // The order of checks.
    ("looks at the version before the base day", |caller, lent, base_day, identity, output| {
        let is_above = identity.versions.iter().any(|version| *version > 31);
        first_if(is_above, 2, caller, lent, base_day, identity, output)
    }),
    ("looks at the versions of absent tables behind the list", |caller, lent, base_day, identity, output| {
        let built = build(caller, lent, base_day, identity, output);
        let list_alone = build(caller, lent, base_day, of_present_tables(lent, identity), &mut []);
        if built.number == 2 && [10, 12].contains(&list_alone.number) {
            list_alone
        } else {
            built
        }
    }),
    ("looks at the list before the base day and the version", |caller, lent, base_day, identity, output| {
        first_if(plan(caller, lent)[0] == 254, 12, caller, lent, base_day, identity, output)
    }),
    ("says 10 of an unsound list", |caller, lent, base_day, identity, output| {
        let built = build(caller, lent, base_day, identity, output);
        // As if ids were looked at last.
        let mut list = lent.list.to_vec();
        list.iter_mut().step_by(6).zip(0..).for_each(|(id, place)| *id = place);
        let ids_aside = build(caller, &Lent { list: &list, ..*lent }, base_day, identity, &mut []);
        if built.number == 12 && ids_aside.number == 10 {
            ids_aside
        } else {
            built
        }
    }),
    ("takes no list whose last event ends past the window", |caller, lent, base_day, identity, output| {
        let built = build(caller, lent, base_day, identity, &mut []);
        let is_sound = plan(caller, lent)[0] != 254 && [10, 11].contains(&built.number);
        let is_past = |record: &[u32]| record[1] + record[2] > 5_529_600;
        let refused = is_sound && lent.list.chunks(6).take(lent.count).any(is_past);
        first_if(refused, 12, caller, lent, base_day, identity, output)
    }),
    ("says 11 before it looks for unpackable segments", |caller, lent, base_day, identity, output| {
        let built = build(caller, lent, base_day, identity, output);
        if built.number == 10 && output.len() < FILE_MIN {
            Built { number: 11, value: FILE_MIN }
        } else {
            built
        }
    }),
    // What is given.
    ("takes the base day in sixteen bits", |caller, lent, base_day, identity, output| {
        build(caller, lent, base_day & 0xFFFF, identity, output)
    }),
    ("takes a version in five bits", |caller, lent, base_day, identity, output| {
        let versions = identity.versions.map(|version| version & 31);
        build(caller, lent, base_day, Identity { versions, ..identity }, output)
    }),
    ("looks at the version of table 0x50 alone", |caller, lent, base_day, identity, output| {
        let first = identity.versions[0];
        let versions = identity.versions.map(|version| if first > 31 { version } else { version & 31 });
        build(caller, lent, base_day, Identity { versions, ..identity }, output)
    }),
    ("looks at the versions of present tables alone", |caller, lent, base_day, identity, output| {
        build(caller, lent, base_day, of_present_tables(lent, identity), output)
    }),
    ("looks at the first fifteen versions alone", |caller, lent, base_day, identity, output| {
        let mut versions = identity.versions;
        versions[15] &= 31;
        build(caller, lent, base_day, Identity { versions, ..identity }, output)
    }),
    ("takes no version 31", |caller, lent, base_day, identity, output| {
        let built = build(caller, lent, base_day, identity, &mut []);
        let is_seen = built.number != 1 && identity.versions.contains(&31);
        first_if(is_seen, 2, caller, lent, base_day, identity, output)
    }),
    ("takes an offset in sixteen bits", |caller, lent, base_day, identity, output| {
        let mut list = lent.list.to_vec();
        list.iter_mut().skip(4).step_by(6).for_each(|offset| *offset &= 0xFFFF);
        build(caller, &Lent { list: &list, ..*lent }, base_day, identity, output)
    }),
    ("loses bit 20 of an id in a list", |caller, lent, base_day, identity, output| {
        let mut list = lent.list.to_vec();
        list.iter_mut().step_by(6).for_each(|id| *id &= !(1 << 20));
        build(caller, &Lent { list: &list, ..*lent }, base_day, identity, output)
    }),
];

/// The identity without the versions of tables behind the last event's.
fn of_present_tables(lent: &Lent, identity: Identity) -> Identity {
    let last = lent.count.checked_sub(1).and_then(|last| lent.list.get(6usize.checked_mul(last)? + 1));
    let last_table = last.map_or(0, |start| start / 345_600) as usize;
    let mut versions = identity.versions;
    versions.iter_mut().skip(last_table + 1).for_each(|version| *version = 0);
    Identity { versions, ..identity }
}

/// Refuses with this number before anything else is looked at.
fn first_if(
    refused: bool,
    number: u32,
    caller: Caller,
    lent: &Lent,
    base_day: u32,
    identity: Identity,
    output: &mut [u8],
) -> Built {
    if refused {
        Built { number, value: 0 }
    } else {
        build(caller, lent, base_day, identity, output)
    }
}
