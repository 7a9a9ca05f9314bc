//! Faults of the answer to a sound list: each stands in for the library, and must show.

use crate::lists::{NUMBERS, START, START_END};
use crate::other::CHAIN_ROOM_BY_PACKING_RULE as BY_RULE;
use crate::other::{chain_room_by, chain_room_halved, plan, Caller, ChainRoom, ChainRoomMethod, Lent};

/// What a sound list was asked for, and what fits.
pub struct Answered<'a> {
    caller: Caller,
    lent: &'a Lent<'a>,
    start: u32,
    length: Option<usize>,
}

/// What is answered instead.
pub type Change = fn(&Answered) -> ChainRoom;

/// Faults that show also if they are on both sides.
pub const LENGTHS: [(&str, Change); 11] = [
    ("gives a byte more", |answered| given(answered.length.map(|length| length + 1))),
    ("gives a byte more where it is not the longest", |answered| {
        given(answered.length.map(|length| length + usize::from(length > 0 && length < answered.longest())))
    }),
    ("gives a byte less", |answered| given(answered.length.map(|length| length.saturating_sub(1)))),
    ("gives a byte less where it is the longest", |answered| {
        given(answered.length.map(|length| length - usize::from(length == answered.longest())))
    }),
    ("gives 0 where not even 0 fits", |answered| {
        given(answered.length.or((answered.start < START_END && !answered.is_taken()).then_some(0)))
    }),
    ("has none where 0 fits", |answered| given(answered.length.filter(|length| *length > 0))),
    ("has none where 1 would fit", |answered| given(answered.length.filter(|_| !answered.fits_1()))),
    ("gives 2 where 1 would fit", |answered| given(if answered.fits_1() { Some(2) } else { answered.length })),
    ("loses bit 8 of a length", |answered| given(answered.length.map(|length| length & !256))),
    ("gives 0 for a taken start", |answered| given(answered.length.or(answered.is_taken().then_some(0)))),
    ("gives 0 past the last segment", |answered| given(answered.length.or((answered.start >= START_END).then_some(0)))),
];

/// Faults of the number, and of what plays no part.
pub const OTHERS: [(&str, Change); 8] = [
    ("has none in a list at its limit", |answered| {
        given(answered.length.filter(|_| answered.lent.count < answered.caller.sizes().events))
    }),
    ("has none if another segment is unpackable", |answered| {
        let is_packable = !plan(answered.caller, answered.lent).contains(&255);
        given(answered.length.filter(|_| is_packable))
    }),
    ("has none at the start of a record behind the count", |answered| {
        let mut behind = answered.lent.list.chunks_exact(NUMBERS).skip(answered.lent.count);
        let is_behind = behind.any(|record| record[START] == answered.start);
        given(answered.length.filter(|_| !is_behind))
    }),
    ("says 10 where nothing fits", |answered| refused_if(answered.length.is_none(), 10, answered)),
    ("says 30 for a taken start", |answered| refused_if(answered.is_taken(), 30, answered)),
    ("says 5 past the last segment", |answered| refused_if(answered.start >= START_END, 5, answered)),
    ("says 12 where nothing fits", |answered| refused_if(answered.length.is_none(), 12, answered)),
    ("says 12 of a list without events", |answered| refused_if(answered.lent.count == 0, 12, answered)),
];

/// The answer with this change, if the list is sound.
pub fn changed(change: Change, caller: Caller, lent: &Lent, start: u32) -> ChainRoom {
    match chain_room_halved(caller, lent, start) {
        ChainRoom { number: 0, length } => change(&Answered { caller, lent, start, length }),
        refused => refused,
    }
}

impl Answered<'_> {
    fn longest(&self) -> usize {
        self.caller.sizes().chain_max()
    }

    fn is_taken(&self) -> bool {
        self.lent.list.chunks(NUMBERS).take(self.lent.count).any(|record| record[START] == self.start)
    }

    /// Whether one byte fits, and no more.
    fn fits_1(&self) -> bool {
        let of_any_length = ChainRoomMethod { is_length: |length| length < 3, ..BY_RULE };
        self.length == Some(0) && chain_room_by(of_any_length, self.caller, self.lent, self.start).length == Some(1)
    }
}

fn given(length: Option<usize>) -> ChainRoom {
    ChainRoom { number: 0, length }
}

fn refused_if(is_refused: bool, number: u32, answered: &Answered) -> ChainRoom {
    if is_refused {
        ChainRoom { number, length: None }
    } else {
        given(answered.length)
    }
}
