//! Read's and check's refusals of events: 24, and 26.

use crate::chirdaluko::{check, read, ReadRefusal, Record};
use crate::inputs::{chain, event, events_in_section, row, tagged, TAGGED};
use crate::reads::{accepted, built, changed, refused, seal, three, BASE_DAY, SECOND, THIRD};
use crate::{Rows, SECTION};

pub fn run(rows: &mut Rows) {
    let file = three(rows.caller);
    event_loops(rows, &file);
    overlap(rows);
    forbidden_tag(rows);
    event_limit(rows);
}

fn event_loops(rows: &mut Rows, file: &[u8]) {
    let caller = rows.caller;
    let mut events = |file: &[u8], base_day, offset| {
        refused(rows, file, base_day, ReadRefusal::EventLoop { offset }, SECTION);
    };
    // The first event is then before midnight.
    events(file, BASE_DAY + 1, 0);
    let mut with = |place: usize, byte: u8| {
        events(&changed(file, SECOND, |section| section[place] = byte), BASE_DAY, SECOND.start);
    };
    // The id of the first event; another date; an event of the next segment; 24 hours, 60 minutes, a half byte above 9.
    with(15, 1);
    with(17, 0x79);
    with(18, 0x03);
    with(18, 0x24);
    with(19, 0x60);
    with(20, 0x0A);
    // No duration; running_status 1; a chain that is cut.
    with(22, 0x00);
    with(24, 0x20);
    with(25, 0x01);
    // Two events, the second with the start of the first.
    let two = changed(&built(caller, &[event(1, 100), event(2, 160)], &[]), 0..42, |section| section[31] = 0x01);
    events(&two, BASE_DAY, 0);
    // The third section's segment has a second section, and the third section no events.
    let mut empty = file[..THIRD].to_vec();
    let mut third = [&file[THIRD..THIRD + 14], &[0; 4]].concat();
    (third[2], third[7], third[12]) = (15, 9, 9);
    seal(&mut third);
    empty = changed(&empty, SECOND, |section| section[7] = 9);
    events(&[empty, third].concat(), BASE_DAY, THIRD);
}

/// Two events that touch are accepted, wherever they stand; with a second more of the first it is 24 at the section of
/// the second.
fn overlap(rows: &mut Rows) {
    let caller = rows.caller;
    let day = chain(caller.chain_max());
    let full = day.len() as u32;
    // In a section; in two sections of a segment; in two segments; with one between them; in two tables.
    for (start, duration, chain_length, first, second, tables) in [
        (0, 60, 0, 0..42, 0, 1),
        (0, 60, full, 0..caller.section_max(), caller.section_max(), 1),
        (10_740, 60, 0, 0..30, 30, 1),
        (0, 21_600, 0, 0..30, 30 + 18, 1),
        (345_540, 60, 0, 31 * 18..31 * 18 + 30, 31 * 18 + 30, 2),
    ] {
        let with = |id, start| Record { duration, chain_length, ..event(id, start) };
        let file = built(caller, &[with(1, start), with(2, start + duration)], &day);
        assert_eq!(check(caller, &file, BASE_DAY), accepted(2, tables));
        // The last byte of the first event's duration: no second.
        let longer = changed(&file, first, |section| section[23] = 0x01);
        refused(rows, &longer, BASE_DAY, ReadRefusal::EventLoop { offset: second }, SECTION);
    }
}

/// The second section's event has a descriptor with tag 0xFE, which is accepted; then with tag 0xFF.
fn forbidden_tag(rows: &mut Rows) {
    let caller = rows.caller;
    let records = [event(1, 100), Record { chain_length: TAGGED, ..event(2, 345_600) }];
    let file = built(caller, &records, &tagged(0xFE));
    let section = SECOND.start..file.len();
    assert_eq!(read(caller, &file, BASE_DAY, &mut [77; 12]), accepted(2, 2));
    assert_eq!(check(caller, &file, BASE_DAY), accepted(2, 2));
    // The tag stands behind the section's 14 bytes, the event's 12 and the first descriptor's 4.
    let forbidden = changed(&file, section, |section| section[30] = 0xFF);
    refused(rows, &forbidden, BASE_DAY, ReadRefusal::EventLoop { offset: SECOND.start }, SECTION);
}

/// As many events in segment 0 as the caller may have, and one more in its last section.
fn event_limit(rows: &mut Rows) {
    let caller = rows.caller;
    let most = caller.events_max();
    let mut file = built(caller, &row(most), &[]);
    assert_eq!(check(caller, &file, BASE_DAY), accepted(most, 1));
    let full = events_in_section(caller);
    let last = most / full * (18 + 12 * full);
    let mut section = file.split_off(last);
    let [high, low] = (most as u16).to_be_bytes();
    // At 02:59:59, behind all others.
    let more = [high, low, 0xC0, 0x79, 0x02, 0x59, 0x59, 0x01, 0x00, 0x00, 0x00, 0x00];
    section.splice(section.len() - 4..section.len() - 4, more);
    section[2] += 12;
    seal(&mut section);
    file.extend(section);
    refused(rows, &file, BASE_DAY, ReadRefusal::EventLimit { offset: last }, SECTION);
}
