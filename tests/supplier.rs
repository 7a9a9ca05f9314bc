//! A program of a package that depends on the wrapper's: it edits a list, asks where an earlier programme would stand,
//! builds the list's file, reads the file back, and at midnight, when the programme leaves, rolls and rebuilds.

use chirdaluko::{build, check, crc32, edit, place, read, rebuild, roll};
use chirdaluko::{Caller, Identity, Place, Pools, Previous, Record, Rolled, RECORD};

const CALLER: Caller = Caller::Cable;

fn main() {
    // PUT: id 1, at 12:45:00, for 1:45:30, no marks, no descriptors.
    let script = [0x01, 0, 1, 0, 0, 0xB3, 0x4C, 0, 0, 0x18, 0xBA, 0, 0, 0, 0, 0, 0, 0];
    let pools = Pools { day: &[], series: &[] };
    let mut list = [0; RECORD];
    let count = edit(CALLER, &mut list, 0, pools, &script).expect("a script that is carried out");
    let Place { place, looked } = place(&list, count, 0);
    let mut out = [0; 102];
    let built = build(CALLER, &list, count, pools, 49_273, Identity::default(), &mut out);
    let file = &out[..built.expect("a list that can be packed")];
    let mut records = [0; RECORD];
    let reading = read(CALLER, file, 49_273, &mut records).expect("a file that is accepted");
    let record = Record::from(records);
    let crc = crc32(&file[72..]);
    println!("{place} {looked} {} {} {} {crc:08X}", reading.count, record.start, record.duration);

    let previous = Previous { file, base_day: 49_273 };
    let rolled = roll(CALLER, &mut list, count, pools, previous.base_day);
    let Rolled { count, base_day } = rolled.expect("a sound list");
    let mut empty = [0; 18];
    rebuild(CALLER, previous, &list, count, pools, base_day, &mut empty).expect("an empty list and an accepted file");
    let version = check(CALLER, &empty, base_day).expect("a file that is accepted").identity.versions[0];
    println!("{count} {base_day} {version}");
}
