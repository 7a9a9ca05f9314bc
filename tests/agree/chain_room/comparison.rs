//! One case of chain_room: the library, or what stands in for it, is compared with the other implementation.

use super::asked::Asked;
use super::case::{Case, SEGMENT_SECONDS};
use super::{causes, edges, kinds, put};
use crate::build::BuildCall;
use crate::edits::Edit;
use crate::groups::Groups;
use crate::guarded::Guarded;
use crate::lists::{NUMBERS, START};
use crate::other::{chain_room_by, Caller, ChainRoom, Lent, CHAIN_ROOM_BY_PACKING_RULE, CHAIN_ROOM_PAPERS};
use crate::random::Random;
use crate::tally::Tally;

const FIRST_SEED: u64 = 300_968;

/// That no length fits is a success.
const ANSWERS: [u32; 2] = [0, 12];

/// What stands beside the buffer: a number that is nowhere in range, or zeros, which a list that is read too far takes
/// for good.
const GUARDS: [u32; 2] = [0xA5A5_A5A5, 0];

/// Every packing is tried for a segment of at most so many events, and that of the packing rule for a larger one.
const PACKED_EVENTS_MAX: usize = 64;

/// The call as both implementations have it: caller, list and pools, start.
pub type RoomCall = fn(Caller, &Lent, u32) -> ChainRoom;
pub type RoomSubject<'a> = &'a dyn Fn(Caller, &Lent, u32) -> ChainRoom;

/// The call that is compared, and the Edit and Build of an event that is put by its answer.
#[derive(Clone, Copy)]
pub struct Subject<'a> {
    pub chain_room: RoomSubject<'a>,
    pub edit: Edit,
    pub build: BuildCall,
}

/// What is compared, for which caller, and what came up so far.
pub struct Comparison<'a> {
    pub caller: Caller,
    pub subject: Subject<'a>,
    /// What the subject's answer is compared with.
    against: RoomSubject<'a>,
    pub tally: Tally,
    pub groups: Groups,
    guards: Random,
}

impl Comparison<'_> {
    pub fn new(caller: Caller, subject: Subject) -> Comparison {
        let kinds = [kinds::all(), causes::kinds(), edges::kinds(), put::kinds()].concat();
        Comparison {
            caller,
            subject,
            against: &every_length,
            tally: Tally::new(&ANSWERS, Vec::new(), kinds),
            groups: Groups::new(caller, FIRST_SEED),
            guards: Random::new(FIRST_SEED),
        }
    }

    /// The subject compared with itself: what shows is then no difference, but what a group asks of every answer.
    pub fn with_itself(caller: Caller, subject: Subject) -> Comparison {
        Comparison { against: subject.chain_room, ..Comparison::new(caller, subject) }
    }

    /// Both implementations answer alike. What is lent stays, and what is beside it.
    pub fn alike(&mut self, case: Case) -> Result<ChainRoom, String> {
        let lent_list = Guarded::new(&case.list.numbers, self.guards.pick(&GUARDS));
        let as_lent = lent_list.clone();
        let lent = case.lent_in(lent_list.inside());
        let wanted = (self.against)(self.caller, &lent, case.start);
        let got = (self.subject.chain_room)(self.caller, &lent, case.start);

        self.tally.cases += 1;
        self.tally.answer(wanted.number);
        let fault = if got != wanted {
            format!("answered {got:?}, and the other implementation {wanted:?}")
        } else if !ANSWERS.contains(&got.number) {
            format!("answered {got:?}, as the other implementation did; it has no such number")
        } else if lent_list != as_lent {
            "wrote to the list or beside it".to_string()
        } else if !case.pools.day.is_untouched() || !case.pools.series.is_untouched() {
            "wrote to a pool".to_string()
        } else {
            if got.number == 0 {
                kinds::count(&mut self.tally, &Asked::new(self.caller, case, got.length));
            }
            return Ok(got);
        };
        Err(self.describe(&fault, case))
    }

    /// The same, and the list is sound and the answer the one that the input was made for.
    pub fn gives(&mut self, length: Option<usize>, case: Case) -> Result<(), String> {
        self.answers(ChainRoom { number: 0, length }, case)
    }

    /// The same, and the list is unsound.
    pub fn refuses(&mut self, case: Case) -> Result<(), String> {
        self.answers(ChainRoom { number: 12, length: None }, case)
    }

    fn answers(&mut self, wanted: ChainRoom, case: Case) -> Result<(), String> {
        let got = self.alike(case)?;
        if got == wanted {
            return Ok(());
        }
        let fault = format!("answered {got:?}, as the other implementation did; the input is made for {wanted:?}");
        Err(self.describe(&fault, case))
    }

    pub fn describe(&self, fault: &str, case: Case) -> String {
        format!(
            "chain_room {fault}\n  {}, case {}\n  {}\n  start {}",
            self.groups.running(),
            self.tally.cases,
            case.list.describe(case.pools),
            case.start,
        )
    }
}

/// The other implementation's answer, by trying every length.
fn every_length(caller: Caller, lent: &Lent, start: u32) -> ChainRoom {
    let in_segment = |record: &&[u32]| record[START] / SEGMENT_SECONDS == start / SEGMENT_SECONDS;
    let events = lent.list.chunks_exact(NUMBERS).take(lent.count).filter(in_segment).count();
    let method = if events > PACKED_EVENTS_MAX { CHAIN_ROOM_BY_PACKING_RULE } else { CHAIN_ROOM_PAPERS };
    chain_room_by(method, caller, lent, start)
}
