//! One case of roll: the library, or what stands in for it, is compared with the other implementation.

use super::case::Case;
use super::outcome::Outcome;
use super::{causes, days, files, kinds, rebuilt};
use crate::build::BuildCall;
use crate::groups::Groups;
use crate::guarded::Guarded;
use crate::other::{self, Built, Caller, Lent, Previous, Rolled};
use crate::random::Random;
use crate::tally::Tally;

const FIRST_SEED: u64 = 300_868;

/// Never 1.
const ANSWERS: [u32; 3] = [0, 12, 31];

/// What stands beside the buffer: a number that is nowhere in range, or zeros, which a list that is read too far takes
/// for good.
const GUARDS: [u32; 2] = [0xA5A5_A5A5, 0];

/// Roll as both implementations have it: caller, list, count, day, series, base day.
pub type RollCall = fn(Caller, &mut [u32], usize, &[u8], &[u8], u32) -> Rolled;
pub type RollSubject<'a> = &'a dyn Fn(Caller, &mut [u32], usize, &[u8], &[u8], u32) -> Rolled;

pub type RebuildCall = fn(Caller, Previous, &Lent, u32, &mut [u8]) -> Built;

/// The roll that is compared, and the Build and Rebuild of the lists that it leaves.
#[derive(Clone, Copy)]
pub struct Subject<'a> {
    pub roll: RollSubject<'a>,
    pub build: BuildCall,
    pub rebuild: RebuildCall,
}

/// What is compared, for which caller, and what came up so far.
pub struct Comparison<'a> {
    pub caller: Caller,
    pub subject: Subject<'a>,
    /// What the subject's roll is compared with.
    against: RollSubject<'a>,
    pub tally: Tally,
    pub groups: Groups,
    guards: Random,
}

impl Comparison<'_> {
    pub fn new(caller: Caller, subject: Subject) -> Comparison {
        let kinds = [kinds::all(), causes::kinds(), days::kinds(), files::kinds(), rebuilt::kinds()].concat();
        Comparison {
            caller,
            subject,
            against: &other::roll,
            tally: Tally::new(&ANSWERS, causes::precedences(), kinds),
            groups: Groups::new(caller, FIRST_SEED),
            guards: Random::new(FIRST_SEED),
        }
    }

    /// The subject's roll compared with itself: what shows is then no difference, but what a group asks of every roll.
    pub fn with_itself(caller: Caller, subject: Subject) -> Comparison {
        Comparison { against: subject.roll, ..Comparison::new(caller, subject) }
    }

    /// Both implementations answer alike, and leave the whole buffer alike. What is lent to be read stays.
    pub fn alike(&mut self, case: Case) -> Result<Outcome, String> {
        let guard = self.guards.pick(&GUARDS);
        let Lent { day, series, .. } = case.lent();
        let call = |roll: RollSubject| {
            let mut lent = Guarded::new(&case.list.numbers, guard);
            let rolled = roll(self.caller, lent.inside_mut(), case.list.count, day, series, case.base_day);
            (Outcome::new(rolled, lent.inside()), lent)
        };
        let (wanted, wanted_lent) = call(self.against);
        let (got, got_lent) = call(self.subject.roll);

        self.tally.cases += 1;
        self.tally.answer(wanted.rolled.number);
        let fault = if let Err(difference) = got.same_as("the other implementation", &wanted) {
            difference
        } else if !ANSWERS.contains(&got.rolled.number) {
            format!("answered {:?}, as the other implementation did; roll has no such number", got.rolled)
        } else if got_lent != wanted_lent {
            "wrote beside the buffer".to_string()
        } else if !case.pools.day.is_untouched() || !case.pools.series.is_untouched() {
            "wrote to a pool".to_string()
        } else {
            return Ok(got);
        };
        Err(self.describe(&fault, case))
    }

    /// The same, and the list is rolled as the request says.
    pub fn rolls(&mut self, case: Case) -> Result<(), String> {
        let outcome = self.alike(case)?;
        self.is_wanted(&outcome, &Outcome::of_rolls(case, 1), case)?;
        kinds::count(&mut self.tally, self.caller, case, outcome.rolled.count);
        Ok(())
    }

    /// The same, and it is refused with this number, as the input was made for.
    pub fn refuses(&mut self, number: u32, case: Case) -> Result<(), String> {
        let outcome = self.alike(case)?;
        self.is_wanted(&outcome, &Outcome::of_refusal(case, number), case)
    }

    /// The outcome of this case is what the request says.
    fn is_wanted(&self, outcome: &Outcome, wanted: &Outcome, case: Case) -> Result<(), String> {
        outcome.same_as("by the request", wanted).map_err(|difference| self.describe(&difference, case))
    }

    pub fn describe(&self, fault: &str, case: Case) -> String {
        format!(
            "roll {fault}\n  {}, case {}\n  {}\n  base day {}",
            self.groups.running(),
            self.tally.cases,
            case.list.describe(case.pools),
            case.base_day,
        )
    }
}
