//! Provokes every refusal through the Rust wrapper, for each caller, on both sides of each limit, and looks at its
//! case, its number and value, and every buffer. Then prints a row for each number: the calls that say it, the cause,
//! what they return, and what is left; and a line for each thing that is 22. tests/manual compares them with the
//! manual's.

#[allow(dead_code)]
#[path = "../../bindings/rust/src/lib.rs"]
mod chirdaluko;

mod builds;
mod chain_rooms;
mod edits;
mod events;
mod inputs;
mod reads;
mod rebuilds;
mod rolls;
mod words;

use chirdaluko::{cause, Caller, Record};
use std::collections::BTreeMap;

/// The numbers of the refusals, in their order.
const NUMBERS: [u32; 21] = [1, 2, 3, 4, 5, 6, 8, 9, 10, 11, 12, 20, 21, 22, 23, 24, 25, 26, 27, 30, 31];

/// What a refusal's value is.
const ZERO: &str = "0";
const COMMAND: &str = "offset of the command's byte";
const SEGMENT: &str = "lowest such segment index";
const NEED: &str = "bytes needed";
const SECTION: &str = "section's offset";
const FILE: &str = "file's length";
const EVENTS: &str = "number of events";

/// What a refusal leaves.
const ALL: &str = "all as it was";
const EARLIER: &str = "list as the edits before made it";

/// What a caller is refused: for each number the calls that say it, what is returned, and what is left; and what
/// brought 22 about, in words.
struct Rows {
    caller: Caller,
    refusals: BTreeMap<u32, (Vec<&'static str>, &'static str, &'static str)>,
    headers: Vec<&'static str>,
}

impl Rows {
    fn of(caller: Caller) -> Rows {
        let mut rows = Rows { caller, refusals: BTreeMap::new(), headers: Vec::new() };
        edits::run(&mut rows);
        chain_rooms::run(&mut rows);
        rolls::run(&mut rows);
        builds::run(&mut rows);
        reads::run(&mut rows);
        events::run(&mut rows);
        assert!(rows.refusals.keys().eq(&NUMBERS), "{caller:?}: every number, and no other");
        rows
    }

    /// A call said this number. Whoever says it returns and leaves the same.
    fn add(&mut self, call: &'static str, number: u32, returned: &'static str, left: &'static str) {
        let row = self.refusals.entry(number).or_insert((Vec::new(), returned, left));
        assert_eq!((row.1, row.2), (returned, left), "{number}, by {call}");
        if !row.0.contains(&call) {
            row.0.push(call);
        }
    }
}

/// The wrapper's limits are those of documents 01 and 02.
const _: () = assert!(
    chirdaluko::RECORD == 6
        && chirdaluko::NUMBERS_MAX == 12_288
        && chirdaluko::ID_MAX == 65_535
        && chirdaluko::WINDOW_SECONDS == 64 * 86_400
        && chirdaluko::DURATION_MAX == 359_999
        && chirdaluko::FORBIDDEN_TAG == 0xFF
        && chirdaluko::BASE_DAY_MAX == 65_472
        && chirdaluko::VERSION_MAX == 31
        && chirdaluko::TABLES == 16
        && chirdaluko::DAY_SECONDS == 86_400
        && chirdaluko::SEGMENT_SECONDS == 10_800
        && chirdaluko::TABLE_SEGMENTS == 32
        && chirdaluko::SEGMENTS == 16 * 32
        && chirdaluko::SEGMENT_SECTIONS_MAX == 8
        && Record::FREE_CA == 1
        && Record::SERIES_POOL == 2
        && Record::OFF_AIR == 4
);

/// And so are its callers' sizes.
const _: () = assert!(
    Caller::Broadcast.events_max() == 2_048
        && Caller::Broadcast.section_max() == 3 + 4_093
        && Caller::Broadcast.chain_max() == 4_078 - 12
        && Caller::Broadcast.file_max() == 16 * 256 * 4_096
        && Caller::Cable.events_max() == 256
        && Caller::Cable.section_max() == 3 + 1_021
        && Caller::Cable.chain_max() == 1_006 - 12
        && Caller::Cable.file_max() == 16 * 256 * 1_024
);

fn main() {
    words::run();
    let [rows, cable] = [Caller::Broadcast, Caller::Cable].map(Rows::of);
    assert_eq!((&rows.refusals, &rows.headers), (&cable.refusals, &cable.headers), "both are refused alike");
    for (number, (calls, returned, left)) in rows.refusals {
        println!("| {number} | {} | {} | {returned} | {left} |", calls.join(", "), cause(number));
    }
    for header in rows.headers {
        println!("22: {header}");
    }
}
