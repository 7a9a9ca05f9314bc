//! Bytes of any kind, sections of any kind whose CRC_32 is right, and files with changes of any kind. Some are
//! accepted.

use super::comparison::Comparison;
use super::file::{close, File, CRC, FRONT, LAST_TABLE_ID, SECTION_LENGTH, TABLE_ID, VERSION};
use super::given::Given;
use super::layout::rival;
use crate::other::Caller;
use crate::random::Random;

pub fn run(comparison: &mut Comparison) -> Result<(), String> {
    let random = &mut comparison.groups.begin("noise");
    for length in (0..200).chain([4_096, 10_000, 70_000]) {
        let mut bytes: Vec<_> = (0..length).map(|_| random.byte()).collect();
        comparison.alike(&bytes, 49_273)?;
        let front = length.min(3);
        bytes[..front].copy_from_slice(&[0x50, 0xF0, 0x0F + random.below(60) as u8][..front]);
        comparison.alike(&bytes, 49_273)?;
    }
    for _ in 0..3_000 {
        let sections = (0..1 + random.below(4)).map(|_| any_section(random)).collect();
        let file = File { sections, base_day: 0 };
        comparison.alike(&file.bytes(), file.base_day)?;
    }
    let mut accepted = 0;
    for _ in 0..6_000 {
        let file = changed(comparison.caller, random);
        accepted += usize::from(comparison.alike(&file.bytes(), file.base_day)?.number == 0);
    }
    (accepted > 100).then_some(()).ok_or_else(|| format!("only {accepted} changed files are accepted"))
}

/// A section whose CRC_32 is right, with likely fields in front.
fn any_section(random: &mut Random) -> Vec<u8> {
    let length = random.pick(&[0, 0, 0, 5, 12, 12, 14, 24, 40]);
    let mut section: Vec<_> = (0..FRONT + length + CRC).map(|_| random.below(10) as u8).collect();
    section[TABLE_ID] = random.pick(&[0x50, 0x50, 0x50, 0x51, 0x4F]);
    section[SECTION_LENGTH] = 0xF0;
    section[VERSION] = random.pick(&[0xC1, 0xC1, 0xC1, 0xC3, 0xC0, 0x41]);
    // Numbers of sections that often fit each other.
    for field in FRONT - 8..FRONT {
        section[field] = random.pick(&[0, 0, 0, 0, 1, 8]);
    }
    section[LAST_TABLE_ID] = random.pick(&[0x50, 0x50, 0x50, 0x51, 0x60]);
    close(&mut section);
    section
}

/// A rival's file of a few events with up to three changes to its bytes, or to the order of its sections.
fn changed(caller: Caller, random: &mut Random) -> File {
    let segments = random.pick(&[&[(0, 1)][..], &[(0, 4)], &[(1, 3), (2, 2)], &[(0, 2), (33, 3)]]);
    let given = Given::short(caller, random, segments);
    let mut file = rival(random, &given);
    for _ in 0..random.below(4) {
        if file.sections.is_empty() {
            break;
        }
        let [place, other] = [(); 2].map(|_| random.below(file.sections.len()));
        match random.below(8) {
            0 => file.sections.swap(place, other),
            1 => file.sections.insert(other, file.sections[place].clone()),
            2 => drop(file.sections.remove(place)),
            _ => file = file.with(place, |section| change_byte(random, section)),
        }
    }
    file
}

/// Changes a byte that is not of section_length or CRC_32 to a likely one.
fn change_byte(random: &mut Random, section: &mut [u8]) {
    let end = section.len() - CRC;
    let within = random.pick(&[FRONT, end, end]);
    let at = random.below(within);
    let [any, copied] = [random.byte(), section[random.below(end)]];
    let value = random.pick(&[0, 1, 8, 0x50, section[at] ^ 1, section[at] ^ 0x10, any, copied]);
    if !(SECTION_LENGTH..SECTION_LENGTH + 2).contains(&at) {
        section[at] = value;
    }
}
