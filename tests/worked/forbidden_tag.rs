//! What the calls say of two events, the second with a descriptor of tag 0xFE or 0xFF.

use crate::chirdaluko::{build, check, edit, plan, read, Caller, Pools, Record, SEGMENTS};
use crate::inputs::{event, numbers, put, tagged, withdraw, TAGGED};
use crate::lines::said;
use crate::schedule::{BASE_DAY, IDENTITY};
use crate::sections::{self, section};

/// A line for each call, with what it says by the tag.
pub fn lines(caller: Caller) -> Vec<String> {
    let line = |call: &str, legal: &str, forbidden: &str| format!("{call:<49}{legal:<10}{forbidden}");
    let mut lines = vec![line("call", "tag 0xFE", "tag 0xFF")];
    for ((call, legal), (_, forbidden)) in answers(caller, 0xFE).iter().zip(answers(caller, 0xFF)) {
        lines.push(line(call, legal, &forbidden));
    }
    lines
}

fn answers(caller: Caller, tag: u8) -> [(&'static str, String); 6] {
    let records = [event(1, 0), Record { chain_length: TAGGED, ..event(2, 10_800) }];
    let day = tagged(tag);
    let pools = Pools { day: &day, series: &[] };
    let script = records.map(put).concat();

    let mut list = numbers(&records);
    let mut counts = [0; SEGMENTS];
    plan(caller, &list, 2, pools, &mut counts);
    let file = file(tag);
    let mut out = vec![0; file.len()];
    let built = build(caller, &list, 2, pools, BASE_DAY, IDENTITY, &mut out);
    assert!(built.is_err() || out == file, "Build writes the file that is read");
    [
        ("Edit: PUT of the event, behind another PUT", said!(edit(caller, &mut [0; 12], 0, pools, &script))),
        ("Plan of a list that has it: its segment's count", counts[1].to_string()),
        ("Build of the list", said!(built)),
        ("Edit of the list: WITHDRAW of the event", said!(edit(caller, &mut list, 2, pools, &withdraw(2)))),
        ("check of a file that has it, in section 8", said!(check(caller, &file, BASE_DAY))),
        ("Read of the file", said!(read(caller, &file, BASE_DAY, &mut [0; 12]))),
    ]
}

/// The file of the two events, put together by hand.
fn file(tag: u8) -> Vec<u8> {
    let mut second = sections::event(2, 0x03, 0x00);
    second[11] = TAGGED as u8;
    second.extend(tagged(tag));
    let first = section([0x50, 0, 0, 8, 0x50], &[sections::event(1, 0x00, 0x00)]);
    [first, section([0x50, 8, 8, 8, 0x50], &[second])].concat()
}
