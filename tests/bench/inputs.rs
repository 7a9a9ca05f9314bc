//! Lists to be built, planned, and read back: the empty one, a typical week, some that grow to the largest, and the
//! cable caller's largest.

use crate::lineup::{Lineup, SEGMENT_SECONDS};
use crate::lists::{rising, List, MARKS};
use crate::other::{self, Caller, Identity, Lent, Triplet};
use crate::pools::Pools;
use crate::random::Random;
use crate::table::{head, row, size_name};

pub const BASE_DAY: u32 = 49_273;
pub const IDENTITY: Identity = Identity {
    triplet: Triplet { service_id: 1, transport_stream_id: 2, original_network_id: 3 },
    versions: [4, 31, 0, 7, 19, 30, 2, 8, 15, 16, 1, 23, 11, 3, 29, 5],
};
const SEGMENTS_A_DAY: usize = 8;
const WEEK_DAYS: usize = 8;
const WEEK_EVENTS: usize = 400;

/// The growing lists, and how many of their events stand in each segment, from the first on.
const GROWING: [(&str, usize); 5] =
    [("8 events", 8), ("32 events", 32), ("128 events", 128), ("512 events", 512), ("2,048 events", 2_048)];
const CABLE: (&str, usize) = ("cable, 256 events", 256);
const EVENTS_EACH: usize = 4;

pub struct Input {
    pub caller: Caller,
    name: &'static str,
    pools: Pools,
    list: List,
    /// The file's length.
    pub size: usize,
    /// Whether the input before it has a quarter of its events.
    grows: bool,
}

pub fn inputs(random: &mut Random) -> Vec<Input> {
    let broadcast = Caller::Broadcast;
    let mut inputs = vec![Input::new(broadcast, random, "no events", Lineup::new(), false)];
    let week = week(random);
    inputs.push(Input::new(broadcast, random, "a week, 400 events", week, false));
    for (place, (name, count)) in GROWING.into_iter().enumerate() {
        let lineup = of_events(random, count, 1_000, 3_000);
        inputs.push(Input::new(broadcast, random, name, lineup, place > 0));
    }
    let (name, count) = CABLE;
    let lineup = of_events(random, count, 250, 750);
    inputs.push(Input::new(Caller::Cable, random, name, lineup, false));
    inputs
}

/// The largest of them.
pub fn largest(random: &mut Random) -> Input {
    inputs(random).into_iter().max_by_key(|input| input.size).expect("there are inputs")
}

impl Input {
    fn new(caller: Caller, random: &mut Random, name: &'static str, lineup: Lineup, grows: bool) -> Input {
        let (pools, list) = lineup.lend(random);
        let mut input = Input { caller, name, pools, list, size: 0, grows };
        // What an empty output lacks.
        input.size = other::build(caller, &input.lent(), BASE_DAY, IDENTITY, &mut []).value;
        input
    }

    pub fn lent(&self) -> Lent<'_> {
        self.lent_as(&self.list)
    }

    /// Another list in the same pools.
    pub fn lent_as<'a>(&'a self, list: &'a List) -> Lent<'a> {
        let (day, series) = (self.pools.day.bytes(), self.pools.series.bytes());
        Lent { list: &list.numbers, count: list.count, day, series }
    }

    /// The list with another running_status for the event in its middle. There is one.
    pub fn changed(&self) -> List {
        let middle = self.list.count / 2;
        self.list.with(middle, MARKS, &[self.list.get(middle, MARKS) ^ 4])
    }

    /// What Build makes of the list.
    pub fn file(&self) -> Vec<u8> {
        let mut file = vec![0; self.size];
        other::build(self.caller, &self.lent(), BASE_DAY, IDENTITY, &mut file);
        file
    }

    /// The identity that the file has: versions of absent tables are 0.
    pub fn identity(&self) -> Identity {
        other::check(self.caller, &self.file(), BASE_DAY).identity
    }
}

/// Eight days of programmes, with 200 to 1,000 bytes of descriptors each.
fn week(random: &mut Random) -> Lineup {
    let mut lineup = Lineup::new();
    for start in rising(random, WEEK_EVENTS, WEEK_DAYS * SEGMENTS_A_DAY * SEGMENT_SECONDS as usize) {
        let chain_length = 200 + random.below(801);
        lineup.event(random, start, chain_length);
    }
    lineup
}

/// So many events, with so many bytes of descriptors each, from the least to the most.
fn of_events(random: &mut Random, count: usize, least: usize, most: usize) -> Lineup {
    let mut lineup = Lineup::new();
    for index in 0..count / EVENTS_EACH {
        let chain_lengths = [(); EVENTS_EACH].map(|_| least + random.below(most - least + 1));
        lineup.segment(random, index, &chain_lengths);
    }
    lineup
}

/// A table with the times of library and other implementation for each input.
pub fn rows<'a>(title: &str, inputs: impl IntoIterator<Item = &'a Input>, times: fn(&Input) -> [f64; 2]) {
    head(title);
    let mut before = None;
    for input in inputs {
        let times = times(input);
        let name = format!("{}, {}", input.name, size_name(input.size));
        row(&name, input.size, times, before.filter(|_| input.grows));
        before = Some(times);
    }
}
