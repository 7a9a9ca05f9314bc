//! Files with chosen cuts: how many events each section has, and how many segments each table.

use super::file::File;
use super::given::Given;
use crate::lineup::SEGMENT_SECONDS;
use crate::other::{self, pack, Event};
use crate::random::Random;
use std::collections::BTreeMap;

const SEGMENTS: usize = 32;
const TABLES: usize = 16;
const SECTIONS_MAX: usize = 8;

pub struct Layout {
    /// How many events each section of a segment has, by segment index. A segment that is not here has one section, and
    /// no events.
    pub cuts: BTreeMap<usize, Vec<usize>>,
    /// How many segments each table has.
    pub segments: Vec<usize>,
}

impl Layout {
    /// These cuts, and no segments or tables beyond the last events.
    pub fn of(cuts: BTreeMap<usize, Vec<usize>>) -> Layout {
        let last_table = cuts.keys().last().map_or(0, |index| index / SEGMENTS);
        let table_segments = |table| {
            let last = cuts.range(SEGMENTS * table..SEGMENTS * (table + 1)).next_back();
            last.map_or(1, |(index, _)| index % SEGMENTS + 1)
        };
        Layout { segments: (0..=last_table).map(table_segments).collect(), cuts }
    }

    /// A rival's: cuts anywhere that eight sections allow, and at times empty segments and tables behind the last
    /// events.
    pub fn rival(random: &mut Random, given: &Given) -> Layout {
        let mut by_segment: BTreeMap<usize, Vec<Event>> = BTreeMap::new();
        for event in given.events() {
            by_segment.entry((event.start / SEGMENT_SECONDS) as usize).or_default().push(event);
        }
        let cuts = by_segment
            .into_iter()
            .map(|(index, events)| (index, cut(random, given.caller.sizes().room(), &events)))
            .collect();
        let mut layout = Layout::of(cuts);
        if random.one_in(2) {
            layout.segments.resize(layout.segments.len() + random.below(TABLES - layout.segments.len() + 1), 1);
        }
        for segments in &mut layout.segments {
            if random.one_in(3) {
                *segments += random.below(SEGMENTS - *segments + 1);
            }
        }
        layout
    }

    /// The file of these events with these cuts.
    pub fn file(&self, given: &Given) -> File {
        let events = given.events();
        let mut rest = &events[..];
        let mut tables = Vec::new();
        for (table, segments) in self.segments.iter().enumerate() {
            let mut in_table = Vec::new();
            for segment in 0..*segments {
                let counts = self.cuts.get(&(SEGMENTS * table + segment)).map_or(&[0][..], Vec::as_slice);
                let mut sections = Vec::new();
                for count in counts {
                    let (section, next) = rest.split_at(*count);
                    sections.push(section);
                    rest = next;
                }
                in_table.push(sections);
            }
            tables.push(in_table);
        }
        File::of(&other::file(&tables, given.lent().pools(), given.base_day, given.identity), given.base_day)
    }
}

/// A rival's file of the events, which are packable for their caller.
pub fn rival(random: &mut Random, given: &Given) -> File {
    Layout::rival(random, given).file(given)
}

/// A way to cut a segment's events into sections with so many bytes for them, of which there are at most eight.
fn cut(random: &mut Random, room: usize, events: &[Event]) -> Vec<usize> {
    let needed = |rest: &[Event]| pack(room, rest).map_or(usize::MAX, |sections| sections.len());
    let mut counts = Vec::new();
    let mut rest = events;
    while !rest.is_empty() {
        let most = pack(room, rest).map_or(0, |sections| sections[0].len());
        let left = SECTIONS_MAX - counts.len() - 1;
        let may = |count: &usize| *count == rest.len() || needed(&rest[*count..]) <= left;
        let all: Vec<_> = (1..=most).filter(may).collect();
        let any = random.pick(&all);
        let count = random.pick(&[any, all[0], most]);
        counts.push(count);
        rest = &rest[count..];
    }
    counts
}
