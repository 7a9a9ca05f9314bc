//! The worked list: a programme with descriptors of its own, two with those of their series, which fill more than a
//! section, and a programme of the fifth day.

use crate::chirdaluko::{Caller, Identity, Record, RECORD, TABLES};
use crate::inputs::{chain, put, shift, withdraw, UNDO};
use crate::lines::{clock, grouped, number, Lines};

pub const CALLER: Caller = Caller::Broadcast;
pub const BASE_DAY: u32 = 49_273;
pub const IDENTITY: Identity =
    Identity { service_id: 1, transport_stream_id: 2, original_network_id: 3, versions: [0; TABLES] };

pub const DAY: u32 = 86_400;
pub const HOUR: u32 = 3_600;

pub fn day_pool() -> Vec<u8> {
    title("News")
}

/// A short_event_descriptor: language, name, no text.
pub fn title(name: &str) -> Vec<u8> {
    let length = name.len() as u8;
    [&[0x4D, 5 + length][..], b"eng", &[length], name.as_bytes(), &[0]].concat()
}

pub fn series_pool() -> Vec<u8> {
    chain(2_100)
}

pub fn script() -> Lines {
    let mut lines = Lines::default();
    let own = Record { id: 1, start: 45_900, duration: 6_330, marks: 0, offset: 0, chain_length: 11 };
    let series = Record { duration: HOUR, marks: Record::SERIES_POOL, chain_length: 2_100, ..own };
    lines.put(own);
    lines.put(Record { id: 2, start: 18 * HOUR, ..series });
    lines.put(Record { id: 3, start: 19 * HOUR, ..series });
    lines.put(Record { id: 4, start: 4 * DAY + 10 * HOUR, duration: HOUR, marks: 0, offset: 0, chain_length: 0 });
    lines.moved(4, 4 * DAY + 6 * HOUR + HOUR / 2);
    let bytes = withdraw(1);
    lines.field(&bytes[..1], "WITHDRAW".to_string());
    lines.field(&bytes[1..], format!("id {}", number(&bytes[1..])));
    lines.field(&[UNDO], "UNDO: strikes the WITHDRAW".to_string());
    lines
}

impl Lines {
    fn put(&mut self, record: Record) {
        let bytes = put(record);
        self.field(&bytes[..1], "PUT".to_string());
        let plain = |name: &str, bytes: &[u8]| format!("{name} {}", grouped(number(bytes)));
        self.field(&bytes[1..3], plain("id", &bytes[1..3]));
        self.field(&bytes[3..7], start(&bytes[3..7]));
        let duration = number(&bytes[7..11]);
        self.field(&bytes[7..11], format!("duration {}: {}", grouped(duration), clock(duration)));
        self.field(&bytes[11..12], plain("marks", &bytes[11..12]));
        self.field(&bytes[12..16], plain("offset", &bytes[12..16]));
        self.field(&bytes[16..], plain("length", &bytes[16..]));
    }

    fn moved(&mut self, id: u16, to: u32) {
        let bytes = shift(id, to);
        self.field(&bytes[..1], "MOVE".to_string());
        self.field(&bytes[1..3], format!("id {}", number(&bytes[1..3])));
        self.field(&bytes[3..], start(&bytes[3..]));
    }
}

fn start(bytes: &[u8]) -> String {
    let seconds = number(bytes);
    let time = clock(seconds % DAY);
    match seconds / DAY {
        0 => format!("start {}: {time} UTC", grouped(seconds)),
        days => format!("start {}: {time} UTC, {days} days later", grouped(seconds)),
    }
}

/// A line for each record.
pub fn rows(list: &[u32]) -> Vec<String> {
    let mut rows = vec!["id start duration marks offset length".to_string()];
    for record in list.chunks(RECORD) {
        rows.push(record.iter().map(u32::to_string).collect::<Vec<_>>().join(" "));
    }
    rows
}

/// A line for each table that has a section; the others have none.
pub fn plan_rows(counts: &[u8]) -> Vec<String> {
    let tables = counts.chunks(32).enumerate().filter(|(_, counts)| counts.iter().any(|&count| count > 0));
    let row = |counts: &[u8]| counts.iter().map(u8::to_string).collect::<Vec<_>>().join(" ");
    tables.map(|(table, counts)| format!("0x{:02X}  {}", 0x50 + table, row(counts))).collect()
}
