//! The fields of a section with one event of one short_event_descriptor, each with the value that its bytes have.

use crate::lines::{grouped, number, Lines};

/// Takes a section's bytes apart from the front.
struct Rest<'a> {
    bytes: &'a [u8],
    lines: Lines,
}

impl Rest<'_> {
    /// The next so many bytes, and what they mean.
    fn field(&mut self, width: usize, meaning: impl FnOnce(&[u8]) -> String) {
        let (field, rest) = self.bytes.split_at(width);
        self.bytes = rest;
        self.lines.field(field, meaning(field));
    }

    fn number(&mut self, width: usize, name: &str) {
        self.field(width, |bytes| format!("{name} {}", grouped(number(bytes))));
    }

    fn table(&mut self, name: &str) {
        self.field(1, |bytes| format!("{name} 0x{:02X}", bytes[0]));
    }

    fn text(&mut self, width: usize, name: &str) {
        self.field(width, |bytes| format!("{name} \"{}\"", String::from_utf8_lossy(bytes)));
    }
}

/// A time's six BCD digits.
fn digits(bytes: &[u8]) -> String {
    format!("{:02X}:{:02X}:{:02X}", bytes[0], bytes[1], bytes[2])
}

pub fn lines(section: &[u8]) -> Vec<String> {
    let mut rest = Rest { bytes: section, lines: Lines::default() };
    rest.table("table_id");
    rest.field(2, |bytes| format!("bits {:04b}, section_length {}", bytes[0] >> 4, number(bytes) & 0xFFF));
    rest.number(2, "service_id");
    let version = |byte: u8| format!("bits {:02b}, version {}, current_next {}", byte >> 6, byte >> 1 & 31, byte & 1);
    rest.field(1, |bytes| version(bytes[0]));
    rest.number(1, "section_number");
    rest.number(1, "last_section_number");
    rest.number(2, "transport_stream_id");
    rest.number(2, "original_network_id");
    rest.number(1, "segment_last_section_number");
    rest.table("last_table_id");
    event(&mut rest);
    rest.field(4, |bytes| format!("CRC_32 {:08X}", number(bytes)));
    assert!(rest.bytes.is_empty(), "a section of one event");
    rest.lines.lines
}

fn event(rest: &mut Rest) {
    rest.number(2, "event_id");
    rest.number(2, "start_time: Modified Julian Date");
    rest.field(3, |bytes| format!("start_time: {} UTC", digits(bytes)));
    rest.field(3, |bytes| format!("duration {}", digits(bytes)));
    rest.field(2, |bytes| {
        let (running, free_ca) = (bytes[0] >> 5, bytes[0] >> 4 & 1);
        format!("running_status {running}, free_CA_mode {free_ca}, chain length {}", number(bytes) & 0xFFF)
    });
    rest.field(1, |bytes| format!("descriptor_tag 0x{:02X}, short_event_descriptor", bytes[0]));
    rest.number(1, "descriptor_length");
    rest.text(3, "language");
    let name = usize::from(rest.bytes[0]);
    rest.number(1, "name length");
    rest.text(name, "name");
    rest.number(1, "text length");
}
