//! One case of Edit: the library, or what stands in for it, is compared with the other implementation.

use crate::groups::Groups;
use crate::guarded::Guarded;
use crate::joined;
use crate::lists::List;
use crate::other::{self, Answer, Caller};
use crate::outcome::Outcome;
use crate::overlaps;
use crate::pools::Pools;
use crate::random::Random;
use crate::tally::{in_order, Precedence, Tally};

const FIRST_SEED: u64 = 300_468;

/// Edit's order of checks per edit, and of the call.
pub const ORDER: [u32; 5] = [5, 9, 6, 30, 8];
pub const CALL_ORDER: [u32; 8] = [12, 3, 4, 5, 9, 6, 30, 8];

/// PUT where 9 is for the forbidden tag.
pub const PUT_TAGGED: &str = "PUT, tag 0xFF";

/// PUT where 8 is for the caller's most events, and not for the buffer.
pub const PUT_AT_MOST: &str = "PUT, the caller's most events";

/// A call where 12 is for an event that is one too many for the caller.
pub const CROWDED: &str = "call, an event too many";

/// A call where 12 is for an overlap.
pub const OVERLAPPING: &str = "call, an overlap";

const ANSWERS: [u32; 9] = [0, 3, 4, 5, 6, 8, 9, 12, 30];

/// What stands beside the buffer: a number that is nowhere in range, or zeros, which a list that is read too far takes
/// for good.
const GUARDS: [u32; 2] = [0xA5A5_A5A5, 0];

/// Edit as both implementations have it: caller, list, count, day, series, script.
pub type Edit = fn(Caller, &mut [u32], usize, &[u8], &[u8], &[u8]) -> Answer;
type Subject<'a> = &'a dyn Fn(Caller, &mut [u32], usize, &[u8], &[u8], &[u8]) -> Answer;

/// What is compared, for which caller, and what came up so far.
pub struct Comparison<'a> {
    pub caller: Caller,
    subject: Subject<'a>,
    /// What the subject is compared with.
    against: Subject<'a>,
    pub tally: Tally,
    pub groups: Groups,
    guards: Random,
}

impl Comparison<'_> {
    pub fn new(caller: Caller, subject: Subject) -> Comparison {
        let kinds = [overlaps::kinds(), joined::kinds(caller)].concat();
        Comparison {
            caller,
            subject,
            against: &other::edit,
            tally: Tally::new(&ANSWERS, precedences(), kinds),
            groups: Groups::new(caller, FIRST_SEED),
            guards: Random::new(FIRST_SEED),
        }
    }

    /// The subject compared with itself: what shows is then no difference, but what a group asks of every Edit.
    pub fn with_itself(caller: Caller, subject: Subject) -> Comparison {
        Comparison { against: subject, ..Comparison::new(caller, subject) }
    }

    /// Both implementations answer alike, and leave the whole buffer alike.
    pub fn alike(&mut self, pools: &Pools, list: &List, script: &[u8]) -> Result<Outcome, String> {
        let guard = self.guards.pick(&GUARDS);
        let lent_script = Guarded::new(script, 0);
        let script_as_lent = lent_script.clone();
        let call = |edit: Subject| {
            let (day, series) = (pools.day.bytes(), pools.series.bytes());
            let mut lent = Guarded::new(&list.numbers, guard);
            let answer = edit(self.caller, lent.inside_mut(), list.count, day, series, lent_script.inside());
            (Outcome::new(answer, lent.inside()), lent)
        };
        let (wanted, wanted_lent) = call(self.against);
        let (got, got_lent) = call(self.subject);

        self.tally.cases += 1;
        self.tally.answer(wanted.answer.number);
        let fault = if let Err(difference) = got.same_as("the other implementation", &wanted) {
            difference
        } else if !ANSWERS.contains(&got.answer.number) {
            format!("answered {:?}, as the other implementation did; Edit has no such number", got.answer)
        } else if got_lent != wanted_lent {
            "wrote beside the buffer".to_string()
        } else if lent_script != script_as_lent {
            "wrote to the script".to_string()
        } else if !pools.day.is_untouched() || !pools.series.is_untouched() {
            "wrote to a pool".to_string()
        } else {
            return Ok(got);
        };
        Err(self.describe(&fault, pools, list, script))
    }

    /// The same, and the number and value are the ones that the input was made for.
    pub fn answers(
        &mut self,
        (number, value): (u32, usize),
        pools: &Pools,
        list: &List,
        script: &[u8],
    ) -> Result<(), String> {
        let Outcome { answer, .. } = self.alike(pools, list, script)?;
        if (answer.number, answer.value) == (number, value) {
            return Ok(());
        }
        let fault = format!(
            "answered {answer:?}, as the other implementation did; the input is made for {number} with {value}"
        );
        Err(self.describe(&fault, pools, list, script))
    }

    /// What shows, and for which input.
    pub fn describe(&self, fault: &str, pools: &Pools, list: &List, script: &[u8]) -> String {
        let hex: String = script.iter().take(96).map(|byte| format!("{byte:02X}")).collect();
        format!(
            "Edit {fault}\n  {}, case {}\n  {}\n  script of {} bytes, first {hex}",
            self.groups.running(),
            self.tally.cases,
            list.describe(pools),
            script.len(),
        )
    }
}

/// Every precedence of 01, "When a call says no", and 02, W-204 and W-209: Edit's order over the call, and per edit.
fn precedences() -> Vec<Precedence> {
    let mut all = in_order("PUT", &ORDER);
    all.extend(in_order("MOVE", &[5, 6, 30]));
    let tagged = in_order(PUT_TAGGED, &ORDER);
    all.extend(tagged.into_iter().filter(|(_, first, second)| *first == 9 || *second == 9));
    all.extend(in_order(PUT_AT_MOST, &ORDER).into_iter().filter(|(_, _, second)| *second == 8));
    // Of two edits' refusals the earlier edit's comes, so the call orders 12, 3 and 4 alone.
    let call = in_order("call", &CALL_ORDER);
    all.extend(call.into_iter().filter(|(_, first, _)| [12, 3, 4].contains(first)));
    for by in [CROWDED, OVERLAPPING] {
        all.extend(in_order(by, &CALL_ORDER).into_iter().filter(|(_, first, _)| *first == 12));
    }
    all
}
