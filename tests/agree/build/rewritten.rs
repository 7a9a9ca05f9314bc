//! Changes to a built file's bytes, for the faults of the self-check.

use super::sections::{section_length, Section};
use crate::other::{crc32_by_table, Built};

/// Changes each section of the file, and leaves its CRC_32 as the change does.
pub fn each_section_raw(built: Built, output: &mut [u8], mut change: impl FnMut(&mut [u8])) -> Built {
    if built.number == 0 {
        let mut rest = &mut output[..built.value];
        while !rest.is_empty() {
            let (section, next) = rest.split_at_mut(section_length(rest));
            change(section);
            rest = next;
        }
    }
    built
}

/// Changes each section of the file, and makes its CRC_32 anew.
pub fn each_section(built: Built, output: &mut [u8], mut change: impl FnMut(&mut [u8])) -> Built {
    each_section_raw(built, output, |section| {
        change(section);
        seal(section, 0);
    })
}

/// Changes the 12 bytes in front of each event's chain, by the section's table_id and the event's place in the list.
pub fn each_event(built: Built, output: &mut [u8], mut change: impl FnMut(u8, usize, &mut [u8])) -> Built {
    let mut place = 0;
    each_section(built, output, |bytes| {
        for event in (Section { bytes }).events() {
            change(bytes[0], place, &mut bytes[event..event + 12]);
            place += 1;
        }
    })
}

/// Writes the CRC_32 of the section's bytes from this one on.
pub fn seal(section: &mut [u8], from: usize) {
    let (covered, crc) = section.split_at_mut(section.len() - 4);
    crc.copy_from_slice(&crc32_by_table(&covered[from..]).to_be_bytes());
}

/// How many sections each table_id has.
pub fn sections_by_table(built: Built, output: &mut [u8]) -> [u8; 256] {
    let mut counts = [0u8; 256];
    each_section_raw(built, output, |section| {
        let count = &mut counts[usize::from(section[0])];
        *count = count.wrapping_add(1);
    });
    counts
}
