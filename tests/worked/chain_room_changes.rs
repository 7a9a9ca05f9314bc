//! What to do about text, each a sentence and the calls that show it, for both callers.

use crate::chain_room_rules::{segments, Segment, STARTS};
use crate::chirdaluko::{chain_room, edit, place, plan, roll, Caller, ChainRoomRefusal, EditRefusal, Place, Record};
use crate::chirdaluko::{RECORD, SEGMENTS};
use crate::details::{self, Detail};
use crate::edit_details::NO_POOLS;
use crate::inputs::{event, numbers, put, shift, withdraw};
use crate::schedule::{BASE_DAY, DAY};
use crate::CALLERS;

const ALL: [Detail; 7] = [
    (
        "**An event that is in the list**: its start is taken, so the answer is none. WITHDRAW it in a copy of the \
         list, and ask for its start in the copy, with the count that Edit returns; with the old one it is 12. The \
         answer is for the event that replaces it. Add the new descriptors to a pool, and WITHDRAW and PUT the event \
         in the list itself, in one script.",
        replaced,
    ),
    (
        "**Several texts**: PUT each before you ask for the next. An event whose text is still to be written stays in \
         the list with its title, so that no other text takes the bytes of that.",
        several,
    ),
    (
        "**Build** then packs the segment: if it says 10, it returns the index of another one. Edit carries out a PUT \
         with more bytes than the answer, too, and then Build says 10.",
        built,
    ),
    (
        "**None, below 5,529,600**: ask `eit_place` for the start. If the record before the place has this start, it \
         is taken. If not, the segment is full: Plan has 8 for it, or 255 if it is unpackable already.",
        why_none,
    ),
    (
        "**None, from 5,529,600 on**: the start lies behind the 64 days, and PUT says 5. After midnight roll the list, \
         and ask for the start less 86,400 (\"Midnight\").",
        past_the_window,
    ),
    (
        "**Too little fits, or none in a full segment**: shorten the texts of other events in the same three hours, \
         MOVE one of these events to other hours, or WITHDRAW it, and ask again. The answer becomes no less by that, \
         and whether it becomes more depends on the cuts. Shorter texts in other hours gain nothing.",
        more_room,
    ),
    (
        "**Both callers**: the answer for cable is never above that for broadcast, where the list is sound for both. \
         Ask for cable where both are to take the text.",
        both_callers,
    ),
];

pub fn print() {
    details::print_under("### What to do about text", &ALL);
}

/// The list without this record.
fn without(segment: &Segment, record: Record) -> Segment {
    segment.edited(0, |_| withdraw(record.id as u16)).expect("an event of the list")
}

/// The list in which this record has other descriptors.
fn with_text(segment: &Segment, record: Record, length: usize) -> Segment {
    let script = |offset| {
        let new = Record { offset, chain_length: length as u32, ..record };
        [withdraw(record.id as u16), put(new)].concat()
    };
    segment.edited(length, script).expect("a script that is carried out")
}

/// What chain_room says of a copy without the record, with the count from before.
fn old_count(caller: Caller, segment: &Segment, record: Record) -> Result<Option<usize>, ChainRoomRefusal> {
    let (mut copy, count) = (numbers(&segment.records), segment.records.len());
    let edited = edit(caller, &mut copy, count, segment.pools(), &withdraw(record.id as u16));
    assert_eq!(edited, Ok(count - 1));
    chain_room(caller, &copy, count, segment.pools(), record.start)
}

/// Each event of each segment that can be packed, with as many bytes as are answered, and with the next longer chain.
fn replaced(caller: Caller) -> bool {
    let packable = |segment: &&Segment| segment.built() == (0, 0);
    segments(caller).iter().filter(packable).all(|segment| {
        segment.records.iter().all(|&record| {
            let room = without(segment, record).room(record.start).expect("the event itself fits");
            let next = if room == 0 { 2 } else { room + 1 };
            segment.room(record.start).is_none()
                && old_count(caller, segment, record) == Err(ChainRoomRefusal::Unsound)
                && room >= record.chain_length as usize
                && with_text(segment, record, room).built() == (0, 0)
                && with_text(segment, record, next).built() == (10, 6)
        })
    })
}

/// Seven full sections, and two events with titles of 20 bytes: the first gets all that is left, and the second has its
/// title. Where the second is not in the list, there is no room for it.
fn several(caller: Caller) -> bool {
    let most = caller.chain_max();
    let titled = Segment::of(caller, 6, &[most, most, most, most, most, most, most, 20, 20]);
    let (first, second) = (titled.records[7], titled.records[8]);
    let room = without(&titled, first).room(first.start).expect("its title fits");
    let after = with_text(&titled, first, room);

    let alone = without(&titled, second);
    let all = without(&alone, first).room(first.start).expect("its title fits");
    let taken = with_text(&alone, first, all);
    (room, all) == (most - 32, most)
        && without(&after, second).room(second.start) == Some(20)
        && after.built() == (0, 0)
        && taken.built() == (0, 0)
        && taken.room(second.start).is_none()
}

/// Where an event fits in each segment; and with an unpackable segment before it.
fn built(caller: Caller) -> bool {
    let fitting = |start: u32| {
        segments(caller).into_iter().filter_map(move |segment| segment.room(start).map(|room| (segment, room)))
    };
    let unpackable = |segment: &Segment| {
        let mut all = Segment::of(caller, 2, &[caller.chain_max() + 1]);
        for record in &segment.records {
            all.add(100 + record.id, record.start, record.chain_length as usize);
        }
        all
    };
    STARTS.iter().all(|&start| {
        fitting(start).all(|(segment, room)| {
            let next = if room == 0 { 2 } else { room + 1 };
            let said = |segment: &Segment, length| segment.put(start, length).map(|after| after.built());
            said(&segment, room) == Ok((0, 0))
                && said(&segment, next) == Ok((10, 6))
                && said(&unpackable(&segment), room) == Ok((10, 2))
        })
    })
}

/// Starts that are taken and free ones, in every segment, and whether the reason is found.
fn why_none(caller: Caller) -> bool {
    segments(caller).iter().all(|segment| {
        let (list, count) = (numbers(&segment.records), segment.records.len());
        let taken: Vec<_> = segment.records.iter().map(|record| record.start).collect();
        let mut counts = [0; SEGMENTS];
        plan(caller, &list, count, segment.pools(), &mut counts);
        STARTS.iter().chain(&taken).filter(|&&start| segment.room(start).is_none()).all(|&start| {
            let Place { place, .. } = place(&list, count, start);
            let is_taken = place > 0 && list[RECORD * (place - 1) + 1] == start;
            is_taken == taken.contains(&start) && (is_taken || [8, 255].contains(&counts[6]))
        })
    })
}

fn past_the_window(caller: Caller) -> bool {
    let mut list = numbers(&[event(1, 0), event(2, DAY), Record::default()]);
    let room = |list: &[u32], count, start| chain_room(caller, list, count, NO_POOLS, start).expect("a sound list");
    let put_at = |list: &mut [u32], count, start| {
        edit(caller, list, count, NO_POOLS, &put(event(3, start))).map_err(EditRefusal::number)
    };
    let start = 64 * DAY;
    let before = (room(&list, 2, start), put_at(&mut list, 2, start));
    let rolled = roll(caller, &mut list, 2, NO_POOLS, BASE_DAY).map(|rolled| rolled.count);
    let after = (room(&list, 1, start - DAY), put_at(&mut list, 1, start - DAY));
    before == (None, Err(5)) && rolled == Ok(1) && after == (Some(caller.chain_max()), Ok(2))
}

/// Each event of each segment with half its descriptors and with none, moved to the next day, and withdrawn. That there
/// is more in some cases and in some not, the evening shows. Then an event of other hours.
fn more_room(caller: Caller) -> bool {
    segments(caller).iter().all(|segment| {
        STARTS.iter().all(|&start| {
            let room = segment.room(start);
            let is_no_less = |after: &Segment| after.room(start) >= room;
            let mut beside = Segment::of(caller, 5, &[caller.chain_max()]);
            for record in &segment.records {
                beside.add(100 + record.id, record.start, record.chain_length as usize);
            }
            segment.records.iter().all(|&record| {
                let moved = segment.edited(0, |_| shift(record.id as u16, record.start + DAY));
                is_no_less(&with_text(segment, record, record.chain_length as usize / 4 * 2))
                    && is_no_less(&with_text(segment, record, 0))
                    && is_no_less(&moved.expect("a start that is free"))
                    && is_no_less(&without(segment, record))
            }) && with_text(&beside, beside.records[0], 0).room(start) == room
        })
    })
}

fn both_callers(sizes: Caller) -> bool {
    segments(sizes).iter().all(|segment| {
        STARTS.iter().all(|&start| {
            let (list, count) = (numbers(&segment.records), segment.records.len());
            let [broadcast, cable] = CALLERS.map(|caller| chain_room(caller, &list, count, segment.pools(), start));
            cable.expect("a sound list") <= broadcast.expect("a sound list")
        })
    })
}
