//! What the sections before leave for the next one, and a section's place among them: 01, "The file of sections", and
//! 02, W-208.

use super::caller::Sizes;
use super::received::{Received, ReceivedEvent, Times, TABLE_IDS};
use super::section::{Header, Triplet};
use std::collections::HashSet;

const SEGMENTS: i64 = 32;
const SECTIONS_MAX: u8 = 8;

/// What the sections before leave for the next one.
pub struct Before {
    pub section: Option<(Triplet, Header)>,
    /// The version of each table so far, wherever its sections stand.
    pub versions: [Option<u8>; 16],
    /// Those of the last event, wherever it stands.
    pub last_times: Option<Times>,
    pub ids: HashSet<u16>,
    /// How many events there may still be.
    pub events_left: usize,
}

impl Before {
    /// What the first section finds.
    pub fn new(sizes: Sizes) -> Before {
        Before { section: None, versions: [None; 16], last_times: None, ids: HashSet::new(), events_left: sizes.events }
    }

    /// Whether the section before, if there is one, has the same in this field.
    pub fn has<T: PartialEq>(&self, section: &Received, field: fn(&Triplet, &Header) -> T) -> bool {
        let own = field(&section.triplet, &section.header);
        self.section.as_ref().is_none_or(|(triplet, header)| field(triplet, header) == own)
    }

    /// Whether every section of its table so far, if there is one, has the same version.
    pub fn has_version(&self, section: &Received) -> bool {
        self.versions[section.header.table()].is_none_or(|version| version == section.header.version)
    }

    /// Table and section_number of the section that comes next, unless the file ends.
    pub fn next_place(&self) -> (u8, u8) {
        match &self.section {
            None => (*TABLE_IDS.start(), 0),
            Some((_, header)) if header.section_number < header.segment_last_section_number => {
                (header.table_id, header.section_number + 1)
            }
            Some((_, header)) if header.section_number < header.last_section_number => {
                (header.table_id, header.highest().wrapping_add(1))
            }
            Some((_, header)) => (header.table_id + 1, 0),
        }
    }

    /// Whether a file can end here.
    pub fn is_end(&self) -> bool {
        self.section.is_some_and(|(_, header)| {
            header.section_number == header.last_section_number && header.table_id == header.last_table_id
        })
    }

    pub fn push(&mut self, section: &Received) {
        self.section = Some((section.triplet, section.header));
        self.versions[section.header.table()].get_or_insert(section.header.version);
        self.last_times = section.events.last().map(ReceivedEvent::times).or(self.last_times);
        self.ids.extend(section.events.iter().map(|event| event.id));
        self.events_left = self.events_left.saturating_sub(section.events.len());
    }
}

impl Header {
    /// The table's place among the sixteen: 0 for 0x50, 15 for 0x5F.
    pub fn table(&self) -> usize {
        usize::from(self.table_id & 0x0F)
    }

    pub fn place(&self) -> (u8, u8) {
        (self.table_id, self.section_number)
    }

    /// Whether the section is its segment's first.
    pub fn is_first(&self) -> bool {
        self.section_number % SECTIONS_MAX == 0
    }

    /// The highest section_number that its segment can have.
    pub fn highest(&self) -> u8 {
        self.section_number - self.section_number % SECTIONS_MAX + (SECTIONS_MAX - 1)
    }

    pub fn segment_index(&self) -> i64 {
        let table = i64::from(self.table_id) - i64::from(*TABLE_IDS.start());
        SEGMENTS * table + i64::from(self.section_number / SECTIONS_MAX)
    }
}
