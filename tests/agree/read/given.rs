//! What a file is made of: the caller it is for, events, base day and identity.

use super::file::{File, TABLE_ID};
use crate::build::{nearby, Request};
use crate::lineup::Lineup;
use crate::lists::{rising, List, DURATION, ID, LENGTH, MARKS, NUMBERS, OFFSET, START};
use crate::other::{self, Built, Caller, Event, Identity, Lent};
use crate::pools::Pools;
use crate::random::Random;

pub struct Given {
    pub caller: Caller,
    pub pools: Pools,
    pub list: List,
    pub base_day: u32,
    pub identity: Identity,
}

impl Given {
    /// The events of the lineup, and a legal base day and any identity.
    pub fn new(caller: Caller, random: &mut Random, lineup: Lineup) -> Given {
        let (pools, list) = lineup.lend(random);
        Given::of(caller, random, pools, list)
    }

    /// The events of the list.
    pub fn of(caller: Caller, random: &mut Random, pools: Pools, list: List) -> Given {
        let Request { base_day, identity, .. } = Request::legal(random, 0);
        Given { caller, pools, list, base_day, identity }
    }

    /// Events in some of the first segments of one table or a few.
    pub fn some(caller: Caller, random: &mut Random) -> Given {
        let mut lineup = Lineup::new();
        let tables = 1 + random.below(3);
        for table in rising(random, tables, 5) {
            let count = 1 + random.below(3);
            for segment in rising(random, count, 5) {
                nearby(caller, random, &mut lineup, (32 * table + segment) as usize);
            }
        }
        Given::new(caller, random, lineup)
    }

    /// Segments of so many events each, by segment index, with chains of at most a few bytes.
    pub fn short(caller: Caller, random: &mut Random, segments: &[(usize, usize)]) -> Given {
        let mut lineup = Lineup::new();
        for (index, events) in segments {
            let lengths: Vec<_> = (0..*events).map(|_| random.pick(&[0, 0, 2, 3, 5, 9])).collect();
            lineup.segment(random, *index, &lengths);
        }
        Given::new(caller, random, lineup)
    }

    pub fn lent(&self) -> Lent<'_> {
        let (day, series) = (self.pools.day.bytes(), self.pools.series.bytes());
        Lent { list: &self.list.numbers, count: self.list.count, day, series }
    }

    pub fn events(&self) -> Vec<Event> {
        let event = |place| Event {
            id: self.list.get(place, ID),
            start: self.list.get(place, START),
            duration: self.list.get(place, DURATION),
            marks: self.list.get(place, MARKS),
            offset: self.list.get(place, OFFSET),
            length: self.list.get(place, LENGTH),
        };
        (0..self.list.count).map(event).collect()
    }

    /// The file that Build makes of it for its caller, if it is packable.
    pub fn built(&self) -> Option<File> {
        let build = |output: &mut [u8]| other::build(self.caller, &self.lent(), self.base_day, self.identity, output);
        let Built { number: 11, value: need } = build(&mut []) else {
            return None;
        };
        let mut output = vec![0; need];
        build(&mut output);
        Some(File::of(&output, self.base_day))
    }

    /// The identity that the file has: versions of absent tables are 0.
    pub fn identity_in(&self, file: &File) -> Identity {
        let last_table = usize::from(file.sections[file.last()][TABLE_ID] - 0x50);
        let mut versions = [0; 16];
        versions[..=last_table].copy_from_slice(&self.identity.versions[..=last_table]);
        Identity { versions, ..self.identity }
    }

    /// Whether the records, with the file as their pool, are the same events: id, start, duration, marks other than 2,
    /// and chain bytes. A record's marks have no 2.
    pub fn is_carried(&self, records: &[u32], file: &[u8]) -> bool {
        let pools = self.lent().pools();
        let is_same = |(event, record): (&Event, &[u32])| {
            let chain = file.get(record[OFFSET] as usize..).and_then(|from| from.get(..record[LENGTH] as usize));
            record[..MARKS] == [event.id, event.start, event.duration]
                && record[MARKS] == event.marks & !2
                && chain == pools.part(event)
        };
        let events = self.events();
        records.len() == NUMBERS * events.len() && events.iter().zip(records.chunks(NUMBERS)).all(is_same)
    }
}
