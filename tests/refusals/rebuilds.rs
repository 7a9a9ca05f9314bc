//! Rebuild's refusals: first Read's, of the previous file, whatever else is wrong; then Build's, 2 aside. The lists and
//! files are those of builds.rs, reads.rs and events.rs.

use crate::chirdaluko::{rebuild, BuildRefusal, Pools, Previous, ReadRefusal, RebuildRefusal, Record, RECORD};
use crate::inputs::{chain, event, numbers};
use crate::reads::built;
use crate::{Rows, ALL};

const CALL: &str = "rebuild";

/// The previous file is refused, with a new list that can be built, and with each of Build's causes; the output stays.
pub fn previous_refused(rows: &mut Rows, previous: Previous, refusal: ReadRefusal, returned: &'static str) {
    let caller = rows.caller;
    let day = chain(caller.chain_max() + 1);
    let pools = Pools { day: &day, series: &[] };
    let sound = numbers(&[event(1, 100)]);
    let unsound = numbers(&[event(1, 100), event(1, 200)]);
    let unpackable = numbers(&[Record { chain_length: day.len() as u32, ..event(1, 100) }]);
    for (list, base_day, out_length) in
        [(&sound, 65_472, 30), (&sound, 65_473, 30), (&unsound, 65_472, 30), (&unpackable, 65_472, 30), (&sound, 0, 29)]
    {
        let mut out = [0xA5; 30];
        let said = rebuild(caller, previous, list, list.len() / RECORD, pools, base_day, &mut out[..out_length]);
        assert_eq!(said, Err(RebuildRefusal::Previous(refusal)));
        assert_eq!(out, [0xA5; 30]);
    }
    rows.add(CALL, refusal.number(), returned, ALL);
}

/// The previous file, one without events, is accepted under the last base day, and the new list is refused, as Build
/// refuses it; the output has 29 bytes, and each stays.
pub fn refused(
    rows: &mut Rows,
    list: &[u32],
    pools: Pools,
    base_day: u32,
    refusal: BuildRefusal,
    returned: &'static str,
) {
    let caller = rows.caller;
    let previous = Previous { file: &built(caller, &[], &[]), base_day: 65_472 };
    let mut out = [0xA5; 29];
    let said = rebuild(caller, previous, list, list.len() / RECORD, pools, base_day, &mut out);
    assert_eq!(said, Err(RebuildRefusal::Build(refusal)));
    assert_eq!(out, [0xA5; 29]);
    rows.add(CALL, refusal.number(), returned, ALL);
}
