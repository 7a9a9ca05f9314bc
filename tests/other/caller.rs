//! Which of the two callers a call serves, and its sizes: 02, W-206.

use super::schedule::EVENT_FRONT;
use std::fmt;
use std::ops::RangeInclusive;

/// What a section has around its events: 14 bytes in front, and CRC_32.
const AROUND_EVENTS: usize = 18;

/// What section_length does not count, and the least that it counts: 01, "The file of sections".
const NOT_COUNTED: usize = 3;
const SECTION_LENGTH_MIN: usize = 15;

/// "Every call takes which of the two callers it serves."
#[derive(Clone, Copy, Debug, PartialEq)]
pub enum Caller {
    Broadcast,
    Cable,
}

impl Caller {
    pub const BOTH: [Caller; 2] = [Caller::Broadcast, Caller::Cable];

    pub const fn sizes(self) -> Sizes {
        match self {
            // "Broadcast keeps 4,096 and 2,048."
            Caller::Broadcast => Sizes { section: 4_096, events: 2_048 },
            // "sections of at most 1,024 bytes in all, .. and at most 256 events"
            Caller::Cable => Sizes { section: 1_024, events: 256 },
        }
    }

    pub fn other(self) -> Caller {
        match self {
            Caller::Broadcast => Caller::Cable,
            Caller::Cable => Caller::Broadcast,
        }
    }
}

impl fmt::Display for Caller {
    fn fmt(&self, to: &mut fmt::Formatter) -> fmt::Result {
        to.write_str(match self {
            Caller::Broadcast => "broadcast",
            Caller::Cable => "cable",
        })
    }
}

/// The most bytes of a section in all, and the most events of a list and of a file.
#[derive(Clone, Copy)]
pub struct Sizes {
    pub section: usize,
    /// "8, 12 and 26 use 256", for the cable caller; in 01 they use 2,048.
    pub events: usize,
}

impl Sizes {
    /// The bytes that a section has for its events: 4,078 in 01; "1,024 bytes in all, so 1,006 for events".
    pub const fn room(self) -> usize {
        self.section - AROUND_EVENTS
    }

    /// The longest chain that a section holds: 4,066 in 01; "995 chain bytes is unpackable, 994 is not".
    pub const fn chain_max(self) -> usize {
        self.room() - EVENT_FRONT
    }

    /// 15 to 4,093 in 01; "a longer section is refusal 20".
    pub fn section_lengths(self) -> RangeInclusive<usize> {
        SECTION_LENGTH_MIN..=self.section - NOT_COUNTED
    }
}
