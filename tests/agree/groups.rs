//! Groups of cases, each with a seed of its own, so that a case is found again by its caller, group and number.

use crate::other::Caller;
use crate::random::Random;

/// The first seed of the cable caller's groups is so far behind that of broadcast's.
const CALLERS_APART: u64 = 1_000;

pub struct Groups {
    caller: Caller,
    first_seed: u64,
    /// The groups so far and their seeds, the running one last.
    begun: Vec<(&'static str, u64)>,
}

impl Groups {
    pub fn new(caller: Caller, broadcast_seed: u64) -> Groups {
        let first_seed = match caller {
            Caller::Broadcast => broadcast_seed,
            Caller::Cable => broadcast_seed + CALLERS_APART,
        };
        Groups { caller, first_seed, begun: Vec::new() }
    }

    pub fn begin(&mut self, name: &'static str) -> Random {
        let seed = self.first_seed + self.begun.len() as u64;
        self.begun.push((name, seed));
        Random::new(seed)
    }

    /// The caller, and the running group's name and seed.
    pub fn running(&self) -> String {
        let (name, seed) = self.begun.last().copied().unwrap_or_default();
        format!("for {}, group {name}, seed {seed}", self.caller)
    }

    pub fn seeds(&self) -> String {
        let seeds: Vec<_> = self.begun.iter().map(|(name, seed)| format!("{name} {seed}")).collect();
        seeds.join(", ")
    }
}
