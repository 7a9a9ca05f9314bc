//! One case of Rebuild: the library, or what stands in for it, is compared with the other implementation.

use super::case::Case;
use super::order::precedences;
use super::{changes, damaged_files, previous_files, rebuilt};
use crate::groups::Groups;
use crate::guarded::Guarded;
use crate::other::{self, Built, Caller, Lent, Previous};
use crate::random::Random;
use crate::tally::Tally;

const FIRST_SEED: u64 = 300_768;

/// Never 2, and never 27.
const ANSWERS: [u32; 12] = [0, 1, 10, 11, 12, 20, 21, 22, 23, 24, 25, 26];

pub type RebuildCall = fn(Caller, Previous, &Lent, u32, &mut [u8]) -> Built;

/// What is compared with the other implementation.
pub type Subject<'a> = &'a dyn Fn(Caller, Previous, &Lent, u32, &mut [u8]) -> Built;

/// What is compared, for which caller, and what came up so far.
pub struct Comparison<'a> {
    pub caller: Caller,
    subject: Subject<'a>,
    pub tally: Tally,
    pub groups: Groups,
    guards: Random,
}

impl Comparison<'_> {
    pub fn new(caller: Caller, subject: Subject) -> Comparison {
        let previous = [previous_files::kinds(), damaged_files::kinds()].concat();
        let kinds = [rebuilt::kinds(), changes::kinds(), previous].concat();
        Comparison {
            caller,
            subject,
            tally: Tally::new(&ANSWERS, precedences(), kinds),
            groups: Groups::new(caller, FIRST_SEED),
            guards: Random::new(FIRST_SEED),
        }
    }

    /// Both implementations answer alike, and leave the whole output alike. What is lent to be read stays. Returns the
    /// answer and the output.
    pub fn alike(&mut self, case: Case) -> Result<(Built, Vec<u8>), String> {
        let guard = self.guards.byte();
        let lent_file = Guarded::new(case.previous.file, guard);
        let lent_list = Guarded::new(&case.list.numbers, u32::from(guard));
        let (file_as_lent, list_as_lent) = (lent_file.clone(), lent_list.clone());
        let previous = Previous { file: lent_file.inside(), ..case.previous };
        let lent = case.lent(lent_list.inside());
        let as_given = Guarded::new(&pattern(case.room, guard), guard);

        let mut wanted_output = as_given.clone();
        let wanted = other::rebuild(self.caller, previous, &lent, case.base_day, wanted_output.inside_mut());
        let mut got_output = as_given;
        let got = (self.subject)(self.caller, previous, &lent, case.base_day, got_output.inside_mut());

        self.tally.cases += 1;
        self.tally.answer(wanted.number);
        let fault = if got != wanted {
            format!("answered {got:?}, and the other implementation {wanted:?}")
        } else if !ANSWERS.contains(&got.number) {
            format!("answered {got:?}, as the other implementation did; Rebuild has no such number")
        } else if got_output != wanted_output {
            difference(got_output.inside(), wanted_output.inside())
        } else if lent_file != file_as_lent {
            "wrote to the previous file".to_string()
        } else if lent_list != list_as_lent {
            "wrote to the list".to_string()
        } else if !case.pools.day.is_untouched() || !case.pools.series.is_untouched() {
            "wrote to a pool".to_string()
        } else {
            return Ok((got, got_output.inside().to_vec()));
        };
        Err(self.describe(&fault, case))
    }

    /// The same, and the number and value are the ones that the input was made for.
    pub fn answers(&mut self, (number, value): (u32, usize), case: Case) -> Result<(), String> {
        let (built, _) = self.alike(case)?;
        if built == (Built { number, value }) {
            return Ok(());
        }
        let fault =
            format!("answered {built:?}, as the other implementation did; the input is made for {number} with {value}");
        Err(self.describe(&fault, case))
    }

    pub fn describe(&self, fault: &str, case: Case) -> String {
        let hex: String = case.previous.file.iter().take(32).map(|byte| format!("{byte:02X}")).collect();
        format!(
            "Rebuild {fault}\n  {}, case {}\n  {}\n  base day {}, output of {} bytes\n  previous file of {} bytes, \
             base day {}, first {hex}",
            self.groups.running(),
            self.tally.cases,
            case.list.describe(case.pools),
            case.base_day,
            case.room,
            case.previous.file.len(),
            case.previous.base_day,
        )
    }
}

/// Bytes that differ from their neighbours and from one case to the next, so that one that is written shows.
fn pattern(length: usize, salt: u8) -> Vec<u8> {
    (0..length).map(|place| (place as u8).wrapping_mul(151).wrapping_add(salt)).collect()
}

fn difference(got: &[u8], wanted: &[u8]) -> String {
    match (0..wanted.len()).find(|place| got[*place] != wanted[*place]) {
        None => "wrote beside the output".to_string(),
        Some(first) => format!(
            "left {:02X} at byte {first} of the output, and the other implementation {:02X}",
            got[first], wanted[first]
        ),
    }
}
