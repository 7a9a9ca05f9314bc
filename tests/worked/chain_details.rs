//! Details of chains of descriptors, and of finding the record at fault in a list that is not sound.

use crate::chirdaluko::{build, edit, plan, BuildRefusal, Caller, EditRefusal, Identity, Pools, Record, SEGMENTS};
use crate::details::Detail;
use crate::inputs::{chain, event, numbers, put, tagged, withdraw, TAGGED};

pub const ALL: [Detail; 6] = [
    ("PUT takes over 4,066 bytes of descriptors, for cable over 994; Build then says 10, and Plan 255.", large_chain),
    ("An event without descriptors has its offset looked at, too: above the pool's length it is 9.", empty_part),
    (
        "A descriptor with tag 0xFF makes a chain none, wherever it stands; \
         0xFF as a length or within a descriptor does not.",
        forbidden_tag,
    ),
    ("Only the part that a record chooses is looked at: elsewhere in the pool a tag may be 0xFF.", chosen_part),
    (
        "A list that has tag 0xFF is 12 also for the WITHDRAW of its event, \
         until the tag in the pool is another or the record's length ends before it.",
        tag_mended,
    ),
    ("The least count with which Plan gives 254 ends with the record at fault.", fault_found),
];

fn large_chain(caller: Caller) -> bool {
    let length = match caller {
        Caller::Broadcast => 4_067,
        Caller::Cable => 995,
    };
    let day = chain(length);
    let pools = Pools { day: &day, series: &[] };
    let mut list = [0; 6];
    let mut counts = [0; SEGMENTS];
    let put = put(Record { chain_length: length as u32, ..event(1, 0) });
    let edited = edit(caller, &mut list, 0, pools, &put);
    let built = build(caller, &list, 1, pools, 0, Identity::default(), &mut []);
    plan(caller, &list, 1, pools, &mut counts);
    edited == Ok(1) && built == Err(BuildRefusal::Unpackable { segment: 0 }) && counts[0] == 255
}

fn empty_part(caller: Caller) -> bool {
    put_part(caller, &[], 0, 0) == Ok(1) && put_part(caller, &[], 1, 0) == Err(9)
}

/// What Edit says to a PUT of this part of a day pool.
fn put_part(caller: Caller, day: &[u8], offset: usize, length: usize) -> Result<usize, u32> {
    let record = Record { offset: offset as u32, chain_length: length as u32, ..event(1, 0) };
    edit(caller, &mut [0; 6], 0, Pools { day, series: &[] }, &put(record)).map_err(EditRefusal::number)
}

/// Each of three descriptors with the tag; then descriptors with 0xFF as length and within.
fn forbidden_tag(caller: Caller) -> bool {
    let three = [0x4D, 0x01, 0x09, 0x54, 0x00, 0xFE, 0x01, 0x20];
    let length = chain(257);
    put_part(caller, &three, 0, 8) == Ok(1)
        && [0, 3, 5].iter().all(|&tag| {
            let mut bytes = three;
            bytes[tag] = 0xFF;
            put_part(caller, &bytes, 0, 8) == Err(9)
        })
        && length[1] == 0xFF
        && put_part(caller, &length, 0, 257) == Ok(1)
        && put_part(caller, &[0x4D, 0x02, 0xFF, 0xFF], 0, 4) == Ok(1)
}

fn chosen_part(caller: Caller) -> bool {
    let day = [0xFF, 0x00, 0x4D, 0x00, 0xFF, 0x00];
    let part = |offset, length| put_part(caller, &day, offset, length);
    part(2, 2) == Ok(1) && part(0, 4) == Err(9) && part(2, 4) == Err(9)
}

fn tag_mended(caller: Caller) -> bool {
    let said = |tag, chain_length| {
        let mut list = numbers(&[Record { chain_length, ..event(1, 0) }]);
        edit(caller, &mut list, 1, Pools { day: &tagged(tag), series: &[] }, &withdraw(1)).map_err(EditRefusal::number)
    };
    said(0xFF, TAGGED) == Err(12) && said(0xFE, TAGGED) == Ok(0) && said(0xFF, 4) == Ok(0) && said(0xFF, 0) == Ok(0)
}

/// Five records, and each but the first at fault in turn: by the tag, by a start that does not rise, by one before the
/// end of the record before, by an id.
fn fault_found(caller: Caller) -> bool {
    let sound: Vec<_> = (1..=5).map(|id| event(id, 60 * id)).collect();
    let day = tagged(0xFF);
    let is_sound = |records: &[Record], count| {
        let mut counts = [0; SEGMENTS];
        plan(caller, &numbers(records), count, Pools { day: &day, series: &[] }, &mut counts);
        counts != [254; SEGMENTS]
    };
    let faults: [fn(&mut Record); 4] = [
        |record| record.chain_length = TAGGED,
        |record| record.start = 60,
        |record| record.start -= 1,
        |record| record.id = 1,
    ];
    is_sound(&sound, 5)
        && (1..5).all(|place| {
            faults.iter().all(|fault| {
                let mut records = sound.clone();
                fault(&mut records[place]);
                (0..=5).all(|count| is_sound(&records, count) == (count <= place))
            })
        })
}
