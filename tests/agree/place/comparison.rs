//! One search: the library's, or what stands in for it, is compared with the other implementation's.

use crate::guarded::Guarded;
use crate::lists::{List, NUMBERS, START};
use crate::other::{self, Place};
use crate::random::Random;

pub const SEED: u64 = 101_211;

/// What stands beside the buffer: a start that is later than most, than none, and than all others.
const GUARDS: [u32; 3] = [0xA5A5_A5A5, 0, u32::MAX];

/// The search as both implementations have it: list, count, start.
pub type Search = fn(&[u32], usize, u32) -> Place;

/// What is compared, and how often so far.
pub struct Comparison {
    search: Search,
    pub searches: usize,
    group: &'static str,
    guards: Random,
}

impl Comparison {
    pub fn new(search: Search) -> Comparison {
        Comparison { search, searches: 0, group: "", guards: Random::new(SEED) }
    }

    pub fn begin(&mut self, group: &'static str) -> Random {
        self.group = group;
        Random::new(SEED)
    }

    /// Both find the place of each of these starts alike, and the list stays as it was lent, and what is beside it.
    pub fn alike(&mut self, list: &List, starts: &[u32]) -> Result<(), String> {
        let lent = Guarded::new(&list.numbers, self.guards.pick(&GUARDS));
        let as_lent = lent.clone();
        for start in starts {
            let got = (self.search)(lent.inside(), list.count, *start);
            let wanted = other::place(&list.numbers, list.count, *start);
            self.searches += 1;
            if got != wanted {
                let fault = format!("found {got:?}, and the other implementation {wanted:?}");
                return Err(self.describe(&fault, list, *start));
            }
        }
        if lent != as_lent {
            let fault = format!("wrote to the list or beside it, in one of {} searches", starts.len());
            return Err(self.describe(&fault, list, starts.last().copied().unwrap_or_default()));
        }
        Ok(())
    }

    /// The same for one start, and the place and the number looked at are the ones that the input was made for.
    pub fn finds(&mut self, wanted: Place, list: &List, start: u32) -> Result<(), String> {
        self.alike(list, &[start])?;
        let got = self.found(list, start);
        if got == wanted {
            return Ok(());
        }
        let fault = format!("found {got:?}, as the other implementation did; the input is made for {wanted:?}");
        Err(self.describe(&fault, list, start))
    }

    /// What the search compared finds.
    pub fn found(&self, list: &List, start: u32) -> Place {
        (self.search)(&list.numbers, list.count, start)
    }

    fn describe(&self, fault: &str, list: &List, start: u32) -> String {
        let starts: Vec<_> = list.numbers.chunks_exact(NUMBERS).map(|record| record[START]).take(24).collect();
        format!(
            "place of {start}: {fault}\n  group {}, seed {SEED}, search {}\n  count {}, buffer of {} numbers, first \
             starts {starts:?}",
            self.group,
            self.searches,
            list.count,
            list.numbers.len(),
        )
    }
}
