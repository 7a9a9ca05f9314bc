//! A file with two sections in which chosen rules are broken. A rule is named by the number of its refusal.

use super::ends::chunked;
use super::event_fields::{put, put_descriptor, set_duration, start, DURATION, START, STATUS};
use super::file::{
    close, File, CRC, LAST_SECTION_NUMBER, LAST_TABLE_ID, SECTION_LENGTH, SECTION_NUMBER, SEGMENT_LAST_SECTION_NUMBER,
    SERVICE_ID, TABLE_ID, TRANSPORT_STREAM_ID, VERSION,
};
use super::given::Given;
use super::layout::Layout;
use crate::build::Section;
use crate::other::Caller;
use crate::random::Random;
use crate::stock::FORBIDDEN_TAG;

/// The events of a section that is broken, and the table of both.
const VICTIM: usize = 6;
const TABLE_OF_BOTH: u8 = 0x50;

/// A file with two sections to be broken, and sections behind them. The first event that is too many is in the first of
/// them, in the second, or missing.
#[derive(Clone)]
pub struct Scene {
    pub file: File,
    /// The places of the two.
    pub victims: [usize; 2],
}

impl Scene {
    /// Which of the two has the first event that is too many for the caller, if one has.
    pub fn new(caller: Caller, random: &mut Random, limit_in: Option<usize>) -> Scene {
        let most = caller.sizes().events;
        let before = match limit_in {
            Some(0) => most - random.below(VICTIM),
            Some(_) => most - VICTIM - random.below(VICTIM),
            None => 2 + random.below(30),
        };
        let segments = [(0, before / 2), (2, before - before / 2), (3, VICTIM), (5, VICTIM), (33, 1)];
        let given = Given::short(caller, random, &segments);
        let file = Layout::of(chunked(caller, &segments)).file(&given);
        // The sections of segments 3, 4, which is empty, and 5, then the empty first segment of the next table, and the
        // last.
        let last = file.last();
        Scene { victims: [last - 4, last - 2], file }
    }

    /// Breaks these rules in one of the two sections. 26 is broken by what the file holds.
    pub fn broken(self, random: &mut Random, victim: usize, numbers: &[u32]) -> Scene {
        let file = self.file.with_raw(self.victims[victim], |section| {
            numbers.iter().rev().for_each(|number| break_rule(random, section, *number));
            close(section);
            if numbers.contains(&21) {
                let crc = section.len() - CRC;
                section[crc + random.below(CRC)] ^= random.bit(0, 7) as u8;
            }
        });
        Scene { file, ..self }
    }

    /// Gives some event of one of the two sections a descriptor with this tag.
    pub fn with_tag(self, random: &mut Random, victim: usize, tag: u8) -> Scene {
        let file = self.file.with(self.victims[victim], |section| put_tag(random, section, tag));
        Scene { file, ..self }
    }

    /// Gives one of the two sections another version than its table has.
    pub fn with_version(self, random: &mut Random, victim: usize) -> Scene {
        let bit = random.bit(1, 5) as u8;
        let file = self.file.with(self.victims[victim], |section| section[VERSION] ^= bit);
        Scene { file, ..self }
    }

    /// Whether one of the two sections is in its table still, of which there are sections before it.
    pub fn is_in_its_table(&self, victim: usize) -> bool {
        self.file.sections[self.victims[victim]][TABLE_ID] == TABLE_OF_BOTH
    }

    /// Makes the event before some event of one of the two sections go on for so many seconds after that one begins.
    pub fn with_overlap(self, random: &mut Random, victim: usize, seconds: u32) -> Scene {
        let events = self.file.all_events();
        let here: Vec<_> = (0..events.len()).filter(|later| events[*later].0 == self.victims[victim]).collect();
        let later = random.pick(&here);
        let [(place, event), (_, next)] = [events[later - 1], events[later]];
        let distance =
            start(&self.file.sections[self.victims[victim]], next) - start(&self.file.sections[place], event);
        let file = self.file.with(place, |section| set_duration(section, event, distance as u32 + seconds));
        Scene { file, ..self }
    }
}

fn put_tag(random: &mut Random, section: &mut Vec<u8>, tag: u8) {
    let event = random.pick(&Section { bytes: section }.events());
    put_descriptor(section, event, tag);
}

/// Breaks one of 20, 22, 23 and 24 in a section, and leaves the rules of a lower number as they are.
fn break_rule(random: &mut Random, section: &mut Vec<u8>, number: u32) {
    match number {
        20 => section[TABLE_ID] = random.pick(&[0x00, 0x4E, 0x4F, 0x60, 0x61, 0xFF]),
        22 => {
            // A table that 23 puts in the place of theirs has no sections before, and so no version.
            let version = if section[TABLE_ID] == TABLE_OF_BOTH { 0x02 } else { 0x03 };
            let (byte, bits) = random.pick(&[
                (SECTION_LENGTH, 0x80),
                (SECTION_LENGTH, 0x10),
                (VERSION, 0x01),
                (VERSION, 0x40),
                (VERSION, version),
                (SERVICE_ID, 0x10),
                (TRANSPORT_STREAM_ID, 0x01),
                (LAST_TABLE_ID, 0x02),
                (LAST_TABLE_ID, 0x80),
            ]);
            section[byte] ^= bits;
        }
        23 => {
            let (byte, bits) = random.pick(&[
                (SECTION_NUMBER, 0x01),
                (SECTION_NUMBER, 0x10),
                (LAST_SECTION_NUMBER, 0x80),
                (SEGMENT_LAST_SECTION_NUMBER, 0x80),
                (TABLE_ID, 0x08),
            ]);
            section[byte] ^= bits;
        }
        24 => {
            let event = random.pick(&Section { bytes: section }.events());
            match random.below(4) {
                0 => put(section, event + DURATION, &[0; 3]),
                1 => section[event + START + 2] = 0x60,
                2 => put_descriptor(section, event, FORBIDDEN_TAG),
                _ => section[event + STATUS] = section[event + STATUS] & 0x1F | 0x20,
            }
        }
        _ => (),
    }
}
