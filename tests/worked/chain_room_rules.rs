//! What chain_room answers, each a sentence and the calls that show it, for both callers.

use crate::chirdaluko::{build, chain_room, edit, Caller, ChainRoomRefusal, EditRefusal, Pools, Record, RECORD};
use crate::details::{self, Detail};
use crate::inputs::{chain, event, numbers, put, row};
use crate::schedule::{BASE_DAY, IDENTITY};

const ALL: [Detail; 7] = [
    (
        "**What is answered**: the most bytes of descriptors that one more event at the start can have for its segment \
         to stay packable, 0 to 4,066, for cable to 994. It is the length of the whole chain. Every chain up to that \
         length fits, and no longer one does, in whatever sections the segment's events are packed in their order.",
        answered,
    ),
    (
        "**0** is an event without descriptors. 1 is never answered, since no chain has one byte: where 13 bytes are \
         left, of which the event itself takes 12, the answer is 0.",
        never_one,
    ),
    (
        "**None**, in C `fits` 0 and in Rust `None`, is no refusal. The start is that of an event in the list, it is \
         5,529,600 or more, or not even an event without descriptors fits. If the segment is unpackable already, none \
         fits.",
        none,
    ),
    (
        "**What is looked at**: the events of the start's segment alone, with 12 bytes and its descriptors each, in \
         their order. No other segment changes the answer, not even an unpackable one.",
        own_segment,
    ),
    (
        "**What is not looked at**: whether Edit would put the event. A start within a programme is answered like any \
         other, and PUT there is 30; a full list is answered, too, and PUT into it is 8.",
        not_looked_at,
    ),
    (
        "**One event**: the answer is for one more event, not for each of several. Once it is put, ask again for the \
         next.",
        one_event,
    ),
    ("**12** comes before all else, whatever the start is.", unsound_first),
];

pub fn print() {
    details::print_under("## How much text still fits", &ALL);
}

/// Events a minute apart, of a second each, with so many bytes of descriptors from one day pool.
pub struct Segment {
    caller: Caller,
    pub records: Vec<Record>,
    day: Vec<u8>,
}

impl Segment {
    /// In the segment with this index.
    pub fn of(caller: Caller, index: u32, lengths: &[usize]) -> Segment {
        let mut segment = Segment { caller, records: Vec::new(), day: Vec::new() };
        for (place, &length) in lengths.iter().enumerate() {
            segment.add(place as u32 + 1, 10_800 * index + 60 * place as u32, length);
        }
        segment
    }

    /// One more event, behind all others.
    pub fn add(&mut self, id: u32, start: u32, length: usize) {
        let (offset, chain_length) = (self.day.len() as u32, length as u32);
        self.records.push(Record { duration: 1, offset, chain_length, ..event(id, start) });
        self.day.extend(chain(length));
    }

    pub fn pools(&self) -> Pools<'_> {
        Pools { day: &self.day, series: &[] }
    }

    pub fn room(&self, start: u32) -> Option<usize> {
        let said = chain_room(self.caller, &numbers(&self.records), self.records.len(), self.pools(), start);
        said.expect("a sound list")
    }

    /// What the commands make of the list, or Edit's number. Descriptors of so many bytes are added to the pool, and
    /// the commands are told where.
    pub fn edited(&self, length: usize, commands: impl Fn(u32) -> Vec<u8>) -> Result<Segment, u32> {
        let mut after = Segment { caller: self.caller, records: Vec::new(), day: self.day.clone() };
        after.day.extend(chain(length));
        let mut list = numbers(&self.records);
        list.resize(list.len() + RECORD, 0);
        let edited = edit(self.caller, &mut list, self.records.len(), after.pools(), &commands(self.day.len() as u32));
        let count = edited.map_err(EditRefusal::number)?;
        let record = |numbers: &[u32]| Record::from(<[u32; RECORD]>::try_from(numbers).expect("six numbers"));
        after.records = list[..RECORD * count].chunks(RECORD).map(record).collect();
        Ok(after)
    }

    /// A PUT at the start, with so many bytes of descriptors.
    pub fn put(&self, start: u32, length: usize) -> Result<Segment, u32> {
        let new = Record { duration: 1, chain_length: length as u32, ..event(9_999, start) };
        self.edited(length, |offset| put(Record { offset, ..new }))
    }

    /// Build's number, and its value.
    pub fn built(&self) -> (u32, usize) {
        let (list, count) = (numbers(&self.records), self.records.len());
        let said = build(self.caller, &list, count, self.pools(), BASE_DAY, IDENTITY, &mut [0; 131_072]);
        said.map_or_else(|refusal| (refusal.number(), refusal.value()), |_| (0, 0))
    }
}

/// Segments with events of several sizes, and starts before, between and behind them.
pub fn segments(caller: Caller) -> Vec<Segment> {
    let most = caller.chain_max();
    let lengths: [&[usize]; 10] = [
        &[],
        &[0],
        &[most],
        &[most; 7],
        &[most; 8],
        &[most; 9],
        &[most - 14; 8],
        &[most / 2 - 12; 13],
        &[most / 3 - 12; 22],
        &[most, 0, most - 13, 2, most, most / 2, most, most, most - 100],
    ];
    lengths.iter().map(|lengths| Segment::of(caller, 6, lengths)).collect()
}

pub const STARTS: [u32; 6] = [64_801, 64_861, 64_921, 65_221, 65_641, 75_599];

/// The number of sections into which greedy filling packs the sizes; a size that no section holds has none.
fn sections(caller: Caller, sizes: &[usize]) -> Option<usize> {
    let room = caller.section_max() - 18;
    let (mut sections, mut left) = (0, 0);
    for &size in sizes {
        if size > room {
            return None;
        }
        if size > left {
            sections += 1;
            left = room;
        }
        left -= size;
    }
    Some(sections)
}

/// Every length against the sections that it needs, and some by PUT and Build.
fn answered(caller: Caller) -> bool {
    segments(caller).iter().all(|segment| {
        STARTS.iter().all(|&start| {
            let fits = |length| {
                let (before, behind): (Vec<_>, Vec<_>) = segment.records.iter().partition(|event| event.start < start);
                let size = |event: &&Record| 12 + event.chain_length as usize;
                let sizes = before.iter().map(size).chain([12 + length]).chain(behind.iter().map(size));
                sections(caller, &sizes.collect::<Vec<_>>()).is_some_and(|sections| sections <= 8)
            };
            let room = segment.room(start);
            let is_built = |length| segment.put(start, length).map(|after| after.built()) == Ok((0, 0));
            (0..=caller.chain_max() + 1).filter(|&length| length != 1).all(|length| {
                let is_within = room.is_some_and(|room| length <= room);
                let is_near = room.is_none() && length < 3 || room.is_some_and(|room| length.abs_diff(room) < 2);
                fits(length) == is_within && (!is_near || is_built(length) == is_within)
            })
        })
    })
}

/// Eight events that leave this many bytes in the last of their sections.
fn leaving(caller: Caller, bytes: usize) -> Segment {
    let most = caller.chain_max();
    Segment::of(caller, 6, &[most, most, most, most, most, most, most, most - bytes])
}

fn never_one(caller: Caller) -> bool {
    let room = |bytes| leaving(caller, bytes).room(75_599);
    let without = leaving(caller, 12).put(75_599, 0);
    [room(11), room(12), room(13), room(14), room(15)] == [None, Some(0), Some(0), Some(2), Some(3)]
        && without.is_ok_and(|after| after.built() == (0, 0))
}

/// An event in a list at either end of the window; starts past it; eight full sections; nine; and an event that no
/// section holds.
fn none(caller: Caller) -> bool {
    let most = caller.chain_max();
    let mut ends = Segment::of(caller, 0, &[0]);
    ends.add(2, 5_529_599, 0);
    let taken = [0, 5_529_599, 5_529_600, 5_529_601, 1 << 31, u32::MAX];
    let unpackable = [Segment::of(caller, 6, &[most; 9]), Segment::of(caller, 6, &[0, most + 1, 0])];
    taken.iter().all(|&start| ends.room(start).is_none())
        && [1, 5_529_598].iter().all(|&start| ends.room(start) == Some(most))
        && Segment::of(caller, 6, &[most; 8]).room(75_599).is_none()
        && unpackable.iter().all(|segment| segment.built() == (10, 6) && segment.room(75_599).is_none())
}

/// Beside each of the segments others that are empty, full and unpackable.
fn own_segment(caller: Caller) -> bool {
    let most = caller.chain_max();
    segments(caller).iter().all(|segment| {
        [0, most, most + 1].iter().all(|&length| {
            let mut beside = Segment::of(caller, 5, &[length; 8]);
            for record in &segment.records {
                beside.add(100 + record.id, record.start, record.chain_length as usize);
            }
            beside.add(200, 75_600, length);
            STARTS.iter().all(|&start| beside.room(start) == segment.room(start))
                && beside.built().0 == if length > most { 10 } else { segment.built().0 }
        })
    })
}

/// A programme of two hours; then as many events as the caller may have.
fn not_looked_at(caller: Caller) -> bool {
    let most = caller.chain_max();
    let mut film = Segment::of(caller, 6, &[0]);
    film.records[0].duration = 7_200;
    let full = Segment { caller, records: row(caller.events_max()), day: Vec::new() };
    let said = |segment: &Segment, start| (segment.room(start), segment.put(start, 0).err());
    [64_801, 68_400, 71_999].iter().all(|&start| said(&film, start) == (Some(most), Some(30)))
        && said(&film, 72_000) == (Some(most), None)
        && said(&full, 10_799) == (Some(most), Some(8))
}

/// Seven full sections: one more fits with as much as a section holds, and then none.
fn one_event(caller: Caller) -> bool {
    let most = caller.chain_max();
    let segment = Segment::of(caller, 6, &[most; 7]);
    let after = segment.put(70_000, most).expect("an event that is put");
    let half = segment.put(70_000, most / 2).expect("an event that is put");
    segment.room(70_000) == Some(most)
        && segment.room(70_001) == Some(most)
        && after.room(70_001).is_none()
        && half.room(70_001) == Some(most - 12 - most / 2)
}

fn unsound_first(caller: Caller) -> bool {
    let mut segment = Segment::of(caller, 6, &[0, 0]);
    segment.records[1].id = 1;
    [0, 64_800, 64_830, 64_860, 5_529_599, 5_529_600, u32::MAX].iter().all(|&start| {
        let said = chain_room(caller, &numbers(&segment.records), 2, segment.pools(), start);
        said == Err(ChainRoomRefusal::Unsound)
    })
}
