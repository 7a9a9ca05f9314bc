//! One case of Read: the library, or what stands in for it, is compared with the other implementation.

use super::file::File;
use super::order::precedences;
use super::{overlaps, versions};
use crate::build::BuildCall;
use crate::groups::Groups;
use crate::guarded::Guarded;
use crate::lists::NUMBERS;
use crate::other::{self, Caller, Reading};
use crate::random::Random;
use crate::tally::Tally;

const FIRST_SEED: u64 = 300_668;

const ANSWERS: [u32; 10] = [0, 1, 20, 21, 22, 23, 24, 25, 26, 27];

/// Enough for every file, of either caller: 01, "a file is accepted".
pub const RECORDS_MAX: usize = 12_288;

pub type ReadCall = fn(Caller, &[u8], u32, &mut [u32]) -> Reading;
pub type CheckCall = fn(Caller, &[u8], u32) -> Reading;

/// What is compared with the other implementation, and the Build whose files it reads.
#[derive(Clone, Copy)]
pub struct Subject<'a> {
    pub build: BuildCall,
    pub read: &'a dyn Fn(Caller, &[u8], u32, &mut [u32]) -> Reading,
    pub check: &'a dyn Fn(Caller, &[u8], u32) -> Reading,
}

/// What is compared, for which caller, and what came up so far.
pub struct Comparison<'a> {
    pub caller: Caller,
    pub subject: Subject<'a>,
    pub tally: Tally,
    pub groups: Groups,
    guards: Random,
}

impl Comparison<'_> {
    pub fn new(caller: Caller, subject: Subject) -> Comparison {
        Comparison {
            caller,
            subject,
            tally: Tally::new(&ANSWERS, precedences(), [overlaps::kinds(), versions::kinds()].concat()),
            groups: Groups::new(caller, FIRST_SEED),
            guards: Random::new(FIRST_SEED),
        }
    }

    /// Check and Read answer alike, and Read leaves the whole record buffer alike: of an accepted file with buffers of
    /// many lengths, of a refused one with one of any length. Returns what check did.
    pub fn alike(&mut self, file: &[u8], base_day: u32) -> Result<Reading, String> {
        let lent = Guarded::new(file, self.guards.byte());
        let as_lent = lent.clone();
        let checked = self.checked(lent.inside(), base_day)?;
        for room in self.rooms(checked) {
            let (reading, _) = self.read(lent.inside(), base_day, room)?;
            let short = room < NUMBERS * checked.count;
            let is_same =
                if short { (reading.number, reading.value) == (27, checked.count) } else { reading == checked };
            if !is_same {
                let fault = format!("Read answered {reading:?}, and check {checked:?}");
                return Err(self.describe(&fault, file, base_day, Some(room)));
            }
        }
        if lent != as_lent {
            return Err(self.describe("a call wrote to the file", file, base_day, None));
        }
        Ok(checked)
    }

    /// The same, and the number and value are the ones that the input was made for.
    pub fn answers(&mut self, (number, value): (u32, usize), file: &[u8], base_day: u32) -> Result<(), String> {
        let checked = self.alike(file, base_day)?;
        if (checked.number, checked.value) == (number, value) {
            return Ok(());
        }
        let fault = format!(
            "check answered {checked:?}, as the other implementation did; the input is made for {number} with {value}"
        );
        Err(self.describe(&fault, file, base_day, None))
    }

    /// The same of Read alone, with a record buffer of so many numbers.
    pub fn read_answers(
        &mut self,
        (number, value): (u32, usize),
        file: &[u8],
        base_day: u32,
        room: usize,
    ) -> Result<(), String> {
        let (reading, _) = self.read(file, base_day, room)?;
        if (reading.number, reading.value) == (number, value) {
            return Ok(());
        }
        let fault = format!(
            "Read answered {reading:?}, as the other implementation did; the input is made for {number} with {value}"
        );
        Err(self.describe(&fault, file, base_day, Some(room)))
    }

    /// The file is refused with this number, for its section in this place.
    pub fn refused(&mut self, number: u32, place: usize, file: &File) -> Result<(), String> {
        self.answers((number, file.offset(place)), &file.bytes(), file.base_day)
    }

    /// The file is accepted.
    pub fn accepted(&mut self, file: &File) -> Result<(), String> {
        self.answers((0, file.events()), &file.bytes(), file.base_day)
    }

    /// Both implementations of Read answer alike, and leave the whole record buffer alike, which has so many numbers.
    /// Returns the answer and the buffer.
    pub fn read(&mut self, file: &[u8], base_day: u32, room: usize) -> Result<(Reading, Vec<u32>), String> {
        let guard = self.guards.number();
        let as_given = Guarded::new(&pattern(room, guard), guard);
        let mut wanted_records = as_given.clone();
        let wanted = other::read(self.caller, file, base_day, wanted_records.inside_mut());
        let mut got_records = as_given;
        let got = (self.subject.read)(self.caller, file, base_day, got_records.inside_mut());

        self.count(wanted.number);
        let fault = if got != wanted {
            format!("Read answered {got:?}, and the other implementation {wanted:?}")
        } else if got_records != wanted_records {
            difference(got_records.inside(), wanted_records.inside())
        } else {
            return Ok((got, got_records.inside().to_vec()));
        };
        Err(self.describe(&fault, file, base_day, Some(room)))
    }

    fn checked(&mut self, file: &[u8], base_day: u32) -> Result<Reading, String> {
        let wanted = other::check(self.caller, file, base_day);
        let got = (self.subject.check)(self.caller, file, base_day);
        self.count(wanted.number);
        if got == wanted {
            return Ok(got);
        }
        let fault = format!("check answered {got:?}, and the other implementation {wanted:?}");
        Err(self.describe(&fault, file, base_day, None))
    }

    fn count(&mut self, number: u32) {
        self.tally.cases += 1;
        self.tally.answer(number);
    }

    /// The lengths of record buffers to be tried.
    fn rooms(&mut self, checked: Reading) -> Vec<usize> {
        if checked.number != 0 {
            let any = self.guards.below(100);
            return vec![self.guards.pick(&[0, any, any, RECORDS_MAX])];
        }
        let need = NUMBERS * checked.count;
        let more = need + 1 + self.guards.below(20);
        let mut rooms = vec![0, need.saturating_sub(1), need, more, RECORDS_MAX];
        rooms.dedup();
        rooms
    }

    pub fn describe(&self, fault: &str, file: &[u8], base_day: u32, room: Option<usize>) -> String {
        let hex: String = file.iter().take(64).map(|byte| format!("{byte:02X}")).collect();
        let records = room.map_or(String::new(), |room| format!(", record buffer of {room} numbers"));
        format!(
            "{fault}\n  {}, case {}\n  base day {base_day}{records}, file of {} bytes, first {hex}",
            self.groups.running(),
            self.tally.cases,
            file.len(),
        )
    }
}

/// Numbers that differ from their neighbours and from one case to the next, so that one that is written shows.
fn pattern(length: usize, salt: u32) -> Vec<u32> {
    (0..length).map(|place| (place as u32).wrapping_mul(0x9E37_79B1).wrapping_add(salt)).collect()
}

fn difference(got: &[u32], wanted: &[u32]) -> String {
    match (0..wanted.len()).find(|place| got[*place] != wanted[*place]) {
        None => "Read wrote beside the record buffer".to_string(),
        Some(first) => format!(
            "Read left {} at number {first} of the record buffer, and the other implementation {}",
            got[first], wanted[first]
        ),
    }
}
