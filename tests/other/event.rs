//! Records, pools and chains: 01, "Event record and sound list", and 02, W-202 and W-204.

pub const NUMBERS: usize = 6;

const ID_MAX: u32 = 65_535;
const START_END: u32 = 5_529_600;
const DURATION_MAX: u32 = 359_999;
const MARKS_MAX: u32 = 7;
const SERIES_POOL: u32 = 2;

/// 02, W-202: a chain with this tag is no chain.
const FORBIDDEN_TAG: u8 = 0xFF;

#[derive(Clone, Copy)]
pub struct Event {
    pub id: u32,
    pub start: u32,
    pub duration: u32,
    pub marks: u32,
    pub offset: u32,
    pub length: u32,
}

impl Event {
    pub fn of(numbers: &[u32]) -> Event {
        Event {
            id: numbers[0],
            start: numbers[1],
            duration: numbers[2],
            marks: numbers[3],
            offset: numbers[4],
            length: numbers[5],
        }
    }

    pub fn numbers(&self) -> [u32; NUMBERS] {
        [self.id, self.start, self.duration, self.marks, self.offset, self.length]
    }

    pub fn in_range(&self) -> bool {
        self.id <= ID_MAX
            && start_in_range(self.start)
            && (1..=DURATION_MAX).contains(&self.duration)
            && self.marks <= MARKS_MAX
    }

    /// When it is over, if it is in range.
    pub fn end(&self) -> u32 {
        self.start + self.duration
    }
}

pub fn start_in_range(start: u32) -> bool {
    start < START_END
}

/// Whether the second event may be the next one behind the first.
pub type Follows = fn(&Event, &Event) -> bool;

/// 02, W-204: "each event's start + duration is at most the next event's start. Touching is legal."
pub fn follows(event: &Event, next: &Event) -> bool {
    event.end() <= next.start
}

/// Whether bytes are a chain.
pub type IsChain = fn(&[u8]) -> bool;

/// The two lent pools, and which of their parts are chains.
#[derive(Clone, Copy)]
pub struct Pools<'a> {
    pub day: &'a [u8],
    pub series: &'a [u8],
    pub is_chain: IsChain,
}

impl<'a> Pools<'a> {
    /// Whether the event's part lies in its pool and is a chain.
    pub fn hold_chain_of(&self, event: &Event) -> bool {
        self.part(event).is_some_and(self.is_chain)
    }

    /// The event's part of its pool, if it lies in it.
    pub fn part(&self, event: &Event) -> Option<&'a [u8]> {
        let pool = if event.marks & SERIES_POOL != 0 { self.series } else { self.day };
        let offset = event.offset as usize;
        let end = offset.checked_add(event.length as usize)?;
        pool.get(offset..end)
    }
}

/// Whether the bytes are descriptors (tag, length, that many bytes) up to their very end, none with the forbidden tag.
pub fn is_chain(mut bytes: &[u8]) -> bool {
    while let [tag, length, rest @ ..] = bytes {
        match rest.get(usize::from(*length)..) {
            Some(next) if *tag != FORBIDDEN_TAG => bytes = next,
            _ => return false,
        }
    }
    bytes.is_empty()
}
