//! One case of Build and of Plan: the library, or what stands in for it, is compared with the other implementation.

use super::order::precedences;
use super::overlaps::kinds;
use super::refusals::version_kinds;
use super::request::Request;
use crate::groups::Groups;
use crate::guarded::Guarded;
use crate::lists::List;
use crate::other::{self, Built, Caller, Identity, Lent, Plan};
use crate::pools::Pools;
use crate::random::Random;
use crate::tally::Tally;

const FIRST_SEED: u64 = 300_568;

const ANSWERS: [u32; 6] = [0, 1, 2, 10, 11, 12];
const ENTRIES: [u32; 11] = [0, 1, 2, 3, 4, 5, 6, 7, 8, 254, 255];

pub type BuildCall = fn(Caller, &Lent, u32, Identity, &mut [u8]) -> Built;
pub type PlanCall = fn(Caller, &Lent, &mut Plan);

/// What is compared with the other implementation.
#[derive(Clone, Copy)]
pub struct Subject<'a> {
    pub build: &'a dyn Fn(Caller, &Lent, u32, Identity, &mut [u8]) -> Built,
    pub plan: &'a dyn Fn(Caller, &Lent, &mut Plan),
}

/// What is compared, for which caller, and what came up so far.
pub struct Comparison<'a> {
    pub caller: Caller,
    subject: Subject<'a>,
    pub tally: Tally,
    /// How many plans had each entry.
    pub entries: Tally,
    pub groups: Groups,
    guards: Random,
}

impl Comparison<'_> {
    pub fn new(caller: Caller, subject: Subject) -> Comparison {
        Comparison {
            caller,
            subject,
            tally: Tally::new(&ANSWERS, precedences(), [kinds("Build"), version_kinds()].concat()),
            entries: Tally::new(&ENTRIES, Vec::new(), kinds("Plan")),
            groups: Groups::new(caller, FIRST_SEED),
            guards: Random::new(FIRST_SEED),
        }
    }

    /// Both implementations answer alike, leave the whole output alike, and plan alike. Returns the answer and the
    /// output.
    pub fn alike(&mut self, pools: &Pools, list: &List, request: Request) -> Result<(Built, Vec<u8>), String> {
        let guard = self.guards.byte();
        let lent_list = Guarded::new(&list.numbers, u32::from(guard));
        let list_as_lent = lent_list.clone();
        let lent = lent(pools, list, lent_list.inside());
        let as_given = Guarded::new(&pattern(request.room, guard), guard);

        let mut wanted_output = as_given.clone();
        let wanted = other::build(self.caller, &lent, request.base_day, request.identity, wanted_output.inside_mut());
        let mut got_output = as_given;
        let got = (self.subject.build)(self.caller, &lent, request.base_day, request.identity, got_output.inside_mut());

        self.tally.cases += 1;
        self.tally.answer(wanted.number);
        let fault = if got != wanted {
            Some(format!("Build answered {got:?}, and the other implementation {wanted:?}"))
        } else if got_output != wanted_output {
            Some(difference("Build", "output", got_output.inside(), wanted_output.inside()))
        } else {
            self.planned(&lent, guard)
        };
        let fault = match fault {
            None if lent_list != list_as_lent => Some("a call wrote to the list".to_string()),
            None if !pools.day.is_untouched() || !pools.series.is_untouched() => {
                Some("a call wrote to a pool".to_string())
            }
            fault => fault,
        };
        match fault {
            None => Ok((got, got_output.inside().to_vec())),
            Some(fault) => Err(self.describe(&fault, pools, list, request)),
        }
    }

    /// What is wrong with the plan, if anything is.
    fn planned(&mut self, lent: &Lent, guard: u8) -> Option<String> {
        let wanted = other::plan(self.caller, lent);
        let mut got = Guarded::new(&pattern(wanted.len(), guard), guard);
        let plan = got.inside_mut().try_into().expect("a plan's length");
        (self.subject.plan)(self.caller, lent, plan);

        self.entries.cases += 1;
        let mut seen = [false; 256];
        wanted.iter().for_each(|entry| seen[usize::from(*entry)] = true);
        (0..256).filter(|entry| seen[*entry]).for_each(|entry| self.entries.answer(entry as u32));
        (got != Guarded::new(&wanted, guard)).then(|| difference("Plan", "plan", got.inside(), &wanted))
    }

    /// The same, and the number and value are the ones that the input was made for.
    pub fn answers(
        &mut self,
        (number, value): (u32, usize),
        pools: &Pools,
        list: &List,
        request: Request,
    ) -> Result<(), String> {
        let (built, _) = self.alike(pools, list, request)?;
        if built == (Built { number, value }) {
            return Ok(());
        }
        let fault = format!(
            "Build answered {built:?}, as the other implementation did; the input is made for {number} with {value}"
        );
        Err(self.describe(&fault, pools, list, request))
    }

    /// The list is unsound: 12, and 254 throughout the plan.
    pub fn unsound(&mut self, random: &mut Random, pools: &Pools, list: &List) -> Result<(), String> {
        let room = random.pick(&[0, 18, 20_000]);
        let request = Request::legal(random, room);
        self.answers((12, 0), pools, list, request)?;
        if other::plan(self.caller, &lent(pools, list, &list.numbers)) == [254; 512] {
            return Ok(());
        }
        Err(self.describe("Plan is not 254 throughout, as the other implementation's is not", pools, list, request))
    }

    /// This kind of list was tried, for both calls.
    pub fn kind(&mut self, kind: &'static str) {
        self.tally.kind(("Build", kind));
        self.entries.kind(("Plan", kind));
    }

    pub fn describe(&self, fault: &str, pools: &Pools, list: &List, request: Request) -> String {
        let (group, case) = (self.groups.running(), self.tally.cases);
        format!("{fault}\n  {group}, case {case}\n  {}\n  {request:?}", list.describe(pools))
    }
}

/// The list and the pools as a call gets them, with the list's numbers in this buffer.
pub fn lent<'a>(pools: &'a Pools, list: &List, numbers: &'a [u32]) -> Lent<'a> {
    Lent { list: numbers, count: list.count, day: pools.day.bytes(), series: pools.series.bytes() }
}

/// Bytes that differ from their neighbours and from one case to the next, so that one that is written shows.
fn pattern(length: usize, salt: u8) -> Vec<u8> {
    (0..length).map(|place| (place as u8).wrapping_mul(151).wrapping_add(salt)).collect()
}

fn difference(call: &str, buffer: &str, got: &[u8], wanted: &[u8]) -> String {
    match (0..wanted.len()).find(|place| got[*place] != wanted[*place]) {
        None => format!("{call} wrote beside the {buffer}"),
        Some(first) => format!(
            "{call} left {:02X} at byte {first} of the {buffer}, and the other implementation {:02X}",
            got[first], wanted[first]
        ),
    }
}
