//! A file as its sections, of which one can be changed and its CRC_32 made anew.

use crate::build::{seal, section_length, Section};

// Where a section has its fields.
pub const TABLE_ID: usize = 0;
pub const SECTION_LENGTH: usize = 1;
pub const SERVICE_ID: usize = 3;
pub const VERSION: usize = 5;
pub const SECTION_NUMBER: usize = 6;
pub const LAST_SECTION_NUMBER: usize = 7;
pub const TRANSPORT_STREAM_ID: usize = 8;
pub const ORIGINAL_NETWORK_ID: usize = 10;
pub const SEGMENT_LAST_SECTION_NUMBER: usize = 12;
pub const LAST_TABLE_ID: usize = 13;
pub const FRONT: usize = 14;
pub const CRC: usize = 4;

#[derive(Clone)]
pub struct File {
    pub sections: Vec<Vec<u8>>,
    pub base_day: u32,
}

impl File {
    /// The file of these bytes, which are sections joined.
    pub fn of(bytes: &[u8], base_day: u32) -> File {
        let mut sections = Vec::new();
        let mut rest = bytes;
        while !rest.is_empty() {
            let (section, next) = rest.split_at(section_length(rest));
            sections.push(section.to_vec());
            rest = next;
        }
        File { sections, base_day }
    }

    pub fn bytes(&self) -> Vec<u8> {
        self.sections.concat()
    }

    /// Where the section in this place stands, or where the file ends.
    pub fn offset(&self, place: usize) -> usize {
        self.sections[..place].iter().map(Vec::len).sum()
    }

    /// The last section's place.
    pub fn last(&self) -> usize {
        self.sections.len() - 1
    }

    /// How many events it has.
    pub fn events(&self) -> usize {
        (0..self.sections.len()).map(|place| self.events_in(place).len()).sum()
    }

    /// Where the events of the section in this place start, in the section.
    pub fn events_in(&self, place: usize) -> Vec<usize> {
        Section { bytes: &self.sections[place] }.events()
    }

    /// The place of each event's section, and where the event starts in it.
    pub fn all_events(&self) -> Vec<(usize, usize)> {
        let in_place = |place| self.events_in(place).into_iter().map(move |event| (place, event));
        (0..self.sections.len()).flat_map(in_place).collect()
    }

    /// The places of the sections that have this many events or more.
    pub fn places_with(&self, events: usize) -> Vec<usize> {
        (0..self.sections.len()).filter(|place| self.events_in(*place).len() >= events).collect()
    }

    /// The file with this section changed, and its section_length and CRC_32 made anew.
    pub fn with(&self, place: usize, change: impl FnOnce(&mut Vec<u8>)) -> File {
        self.with_raw(place, |section| {
            change(section);
            close(section);
        })
    }

    /// The file with each section from this one on changed, and its section_length and CRC_32 made anew.
    pub fn with_from(&self, place: usize, change: impl Fn(&mut Vec<u8>)) -> File {
        let mut file = self.clone();
        for section in &mut file.sections[place..] {
            change(section);
            close(section);
        }
        file
    }

    /// The file with this section changed, and nothing made anew.
    pub fn with_raw(&self, place: usize, change: impl FnOnce(&mut Vec<u8>)) -> File {
        let mut file = self.clone();
        change(&mut file.sections[place]);
        file
    }
}

/// Makes section_length and CRC_32 anew.
pub fn close(section: &mut [u8]) {
    set_twelve_bits(section, SECTION_LENGTH, section.len() - 3);
    seal(section, 0);
}

/// Makes this number the 12 low bits of the two bytes there.
pub fn set_twelve_bits(section: &mut [u8], at: usize, number: usize) {
    section[at] = section[at] & 0xF0 | (number >> 8) as u8;
    section[at + 1] = number as u8;
}
