//! Causes in words: the wrapper's are the C face's, and what a refusal displays is its number, its cause, and what its
//! value means.

use crate::chirdaluko::{cause, BuildRefusal, ChainRoomRefusal, EditRefusal, ReadRefusal, RebuildRefusal, RollRefusal};
use crate::NUMBERS;
use std::ffi::{c_char, CStr};
use std::fmt::Display;

extern "C" {
    fn cause_in_c(number: u32) -> *const c_char;
}

pub fn run() {
    let unknown = cause(u32::MAX);
    for number in (0..1_000).chain([u32::MAX]) {
        // It returns a string literal, whatever the number is.
        let in_c = unsafe { CStr::from_ptr(cause_in_c(number)) };
        assert_eq!(in_c.to_str(), Ok(cause(number)), "{number}");
        assert_eq!(cause(number) != unknown, number == 0 || NUMBERS.contains(&number), "{number}");
    }
    assert_eq!(cause(0), "success");
    edits();
    displays(ChainRoomRefusal::Unsound, 12, "");
    rolls();
    builds();
    reads();
    rebuilds();
}

fn displays(refusal: impl Display, number: u32, meaning: &str) {
    assert_eq!(refusal.to_string(), format!("refused {number}: {}{meaning}", cause(number)));
}

fn edits() {
    let (offset, count) = (18, 2);
    for (refusal, number) in [
        (EditRefusal::BrokenScript { offset, count }, 3),
        (EditRefusal::NothingToUndo { offset, count }, 4),
        (EditRefusal::OutOfRange { offset, count }, 5),
        (EditRefusal::WrongId { offset, count }, 6),
        (EditRefusal::ListFull { offset, count }, 8),
        (EditRefusal::NoChain { offset, count }, 9),
        (EditRefusal::Overlap { offset, count }, 30),
    ] {
        displays(refusal, number, " (command at offset 18, 2 records held)");
    }
    displays(EditRefusal::Unsound { count }, 12, "");
}

fn rolls() {
    displays(RollRefusal::LastBaseDay, 31, "");
    displays(RollRefusal::Unsound, 12, "");
    let whole = "refused 31: the base day is 65,472 or more: there is none after it";
    assert_eq!(RollRefusal::LastBaseDay.to_string(), whole);
}

fn builds() {
    displays(BuildRefusal::BaseDay, 1, "");
    displays(BuildRefusal::Version, 2, "");
    displays(BuildRefusal::Unpackable { segment: 3 }, 10, " (segment 3)");
    displays(BuildRefusal::OutputShort { needed: 102 }, 11, " (102 bytes needed)");
    displays(BuildRefusal::Unsound, 12, "");
    let whole = "refused 11: the output is shorter than the file (102 bytes needed)";
    assert_eq!(BuildRefusal::OutputShort { needed: 102 }.to_string(), whole);
}

fn reads() {
    let offset = 30;
    for (refusal, number) in [
        (ReadRefusal::Frame { offset }, 20),
        (ReadRefusal::Crc { offset }, 21),
        (ReadRefusal::Header { offset }, 22),
        (ReadRefusal::Numbering { offset }, 23),
        (ReadRefusal::EventLoop { offset }, 24),
        (ReadRefusal::EventLimit { offset }, 26),
    ] {
        displays(refusal, number, " (section at offset 30)");
    }
    displays(ReadRefusal::BaseDay, 1, "");
    displays(ReadRefusal::EarlyEnd { file_length: 60 }, 25, " (the file has 60 bytes)");
    displays(ReadRefusal::RecordsShort { events: 3 }, 27, " (3 events)");
}

fn rebuilds() {
    let previous = RebuildRefusal::Previous(ReadRefusal::Crc { offset: 30 });
    assert_eq!(previous.to_string(), "previous file refused 21: a section's CRC_32 is wrong (section at offset 30)");
    let previous = RebuildRefusal::Previous(ReadRefusal::BaseDay);
    assert_eq!(previous.to_string(), "previous file refused 1: the base day is above 65,472");
    displays(RebuildRefusal::Build(BuildRefusal::BaseDay), 1, "");
    displays(RebuildRefusal::Build(BuildRefusal::OutputShort { needed: 102 }), 11, " (102 bytes needed)");
}
