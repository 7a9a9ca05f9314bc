//! The worked examples, ten lists and three tables of docs/MANUAL.md, made through the Rust wrapper and printed as
//! the manual has them: each block under the line that names it, lists and tables under their headings once calls have
//! shown them. tests/manual compares them.

#[allow(dead_code)]
#[path = "../../bindings/rust/src/lib.rs"]
mod chirdaluko;

mod build_details;
mod caller_changes;
mod callers;
mod chain_details;
mod chain_room;
mod chain_room_changes;
mod chain_room_details;
mod chain_room_rules;
mod details;
mod edit_details;
mod forbidden_tag;
#[allow(dead_code)]
#[path = "../refusals/inputs.rs"]
mod inputs;
mod joined;
mod joined_rules;
mod layout;
mod lines;
mod midnight;
mod midnight_changes;
mod midnight_rules;
mod overlap;
mod overlap_changes;
mod places;
mod read_details;
mod rebuilt;
mod roll_details;
mod schedule;
mod sections;
mod synopsis;
mod tables;
mod version_changes;
mod version_details;
mod version_rules;
mod versions;

use chirdaluko::{build, check, crc32, edit, plan, read, Caller, Pools, RECORD, SEGMENTS};
use lines::block;
use schedule::{BASE_DAY, CALLER, IDENTITY};

const CALLERS: [Caller; 2] = [Caller::Broadcast, Caller::Cable];

fn main() {
    let script = schedule::script();
    block("The script, byte by byte:", &script.lines);

    let (day, series) = (schedule::day_pool(), schedule::series_pool());
    let pools = Pools { day: &day, series: &series };
    let mut list = [0; 30];
    let count = edit(CALLER, &mut list, 0, pools, &script.bytes).expect("a script that is carried out");
    block("The list that it makes:", &schedule::rows(&list[..RECORD * count]));
    block("Places in the list:", &places::rows(&list, count));

    let mut counts = [0; SEGMENTS];
    plan(CALLER, &list, count, pools, &mut counts);
    block("Its plan:", &schedule::plan_rows(&counts));

    let mut out = vec![0; 65_536];
    let length = build(CALLER, &list, count, pools, BASE_DAY, IDENTITY, &mut out).expect("a list that can be packed");
    let file = &out[..length];
    check(CALLER, file, BASE_DAY).expect("a file that is accepted");
    let mut records = [0; 24];
    let reading = read(CALLER, file, BASE_DAY, &mut records).expect("a file that is accepted");
    let mut cuts = sections::cuts(file, &records[..RECORD * reading.count]);
    cuts.push(format!("bytes {length}"));
    block("Its file's cuts:", &cuts);
    block("The records that Read returns of the file:", &schedule::rows(&records[..RECORD * reading.count]));

    let section = sections::of(file).into_iter().find(|(_, section)| section[6] == 32).expect("section 32").1;
    block("Section 32 of table 0x50, byte by byte:", &layout::lines(section));

    let crc = |what: &str, bytes: &[u8]| format!("{:08X}  {what}", crc32(bytes));
    block(
        "CRC_32 of some bytes:",
        &[
            crc("the ASCII digits 1 to 9", b"123456789"),
            crc("section 32 of table 0x50 without its last four bytes", &section[..section.len() - 4]),
            crc("all of section 32 of table 0x50", section),
        ],
    );
    block("What the calls say, by the caller:", &callers::lines());
    let [tags, tags_for_cable] = CALLERS.map(forbidden_tag::lines);
    assert_eq!(tags, tags_for_cable);
    block("What the calls say, by the second tag:", &tags);
    let [ends, ends_for_cable] = CALLERS.map(overlap::lines);
    assert_eq!(ends, ends_for_cable);
    block("What the calls say, by the film's end:", &ends);
    let [joined, joined_for_cable] = CALLERS.map(joined::lines);
    assert_eq!(joined, joined_for_cable);
    block("What Edit says of two scripts, in turn and joined:", &joined);
    block("Versions, file by file:", &versions::rows());
    block("Section 0 of table 0x50, before and after event 5 is put:", &versions::first_sections());
    block("What an answer holds beside a name of 13 bytes:", &synopsis::answers());
    block("The evening's list:", &chain_room::list());
    block("What chain_room answers, by the start:", &chain_room::starts());
    block("What chain_room answers for 20:25, by the list:", &chain_room::changes());
    block("The descriptors of event 9 with as much text as fits:", &chain_room::descriptors());
    block("What the calls say, by the text of event 9:", &chain_room::replacements());
    block("Its file's cuts with as much text as fits:", &chain_room::cuts());
    let worked = midnight::Worked::new();
    block("The list, before the roll and after it:", &worked.lists());
    block("Its plan, before the roll and after it:", &worked.plans());
    block("Its sections with events, before the roll and after it:", &worked.sections());
    block("The section of event 6, before the roll and after it:", &worked.moved_section());
    block("Versions, midnight by midnight:", &worked.versions());
    joined_rules::print();
    callers::print();
    caller_changes::print();
    overlap_changes::print();
    chain_room_rules::print();
    chain_room_changes::print();
    version_rules::print();
    version_changes::print();
    midnight_rules::print();
    midnight_changes::print();
    details::print();
    tables::print();
}
