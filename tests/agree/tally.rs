//! How often each answer came up, and each precedence and each kind of input was tried, so that a run that misses one
//! fails.

use std::collections::BTreeMap;

/// Two refusals that one input asks for, by the command that breaks both rules or by the whole call: the first one
/// comes.
pub type Precedence = (&'static str, u32, u32);

/// A call, or a command, and what it is tried on.
pub type Kind = (&'static str, &'static str);

pub struct Tally {
    pub cases: usize,
    /// What must come up stands here from the start, with 0.
    answers: BTreeMap<u32, usize>,
    precedences: BTreeMap<Precedence, usize>,
    kinds: BTreeMap<Kind, usize>,
}

impl Tally {
    /// The answers, precedences and kinds that must come up.
    pub fn new(answers: &[u32], precedences: Vec<Precedence>, kinds: Vec<Kind>) -> Tally {
        Tally {
            cases: 0,
            answers: answers.iter().map(|number| (*number, 0)).collect(),
            precedences: precedences.into_iter().map(|precedence| (precedence, 0)).collect(),
            kinds: kinds.into_iter().map(|kind| (kind, 0)).collect(),
        }
    }

    pub fn answer(&mut self, number: u32) {
        *self.answers.entry(number).or_default() += 1;
    }

    pub fn precedence(&mut self, precedence: Precedence) {
        *self.precedences.entry(precedence).or_default() += 1;
    }

    pub fn kind(&mut self, kind: Kind) {
        *self.kinds.entry(kind).or_default() += 1;
    }

    /// Those of these kinds that came up.
    pub fn came_up(&mut self, by: &'static str, kinds: &[(&'static str, bool)]) {
        kinds.iter().filter(|(_, came_up)| *came_up).for_each(|(kind, _)| self.kind((by, kind)));
    }

    /// The answers, precedences and kinds that never came up.
    pub fn missing(&self) -> Vec<String> {
        let answers = self.answers.iter().filter(|(_, times)| **times == 0);
        let precedences = self.precedences.iter().filter(|(_, times)| **times == 0);
        let kinds = self.kinds.iter().filter(|(_, times)| **times == 0);
        answers
            .map(|(number, _)| format!("answer {number}"))
            .chain(precedences.map(|((by, first, second), _)| format!("{first} before {second} ({by})")))
            .chain(kinds.map(|((by, kind), _)| format!("{kind} ({by})")))
            .collect()
    }

    /// The answers with how often each came up.
    pub fn answers(&self) -> String {
        let answers: Vec<_> = self.answers.iter().map(|(number, times)| format!("{number}: {times}")).collect();
        answers.join(", ")
    }

    /// How often each precedence was tried, if there are any.
    pub fn precedences(&self) -> Option<String> {
        let least = self.precedences.values().min()?;
        Some(format!("{} of two refusals, each tried {least} times or more", self.precedences.len()))
    }

    /// The same for the kinds.
    pub fn kinds(&self) -> Option<String> {
        let least = self.kinds.values().min()?;
        Some(format!("{} kinds, each tried {least} times or more", self.kinds.len()))
    }
}

/// Each of these kinds for a call or a command.
pub fn each_kind(by: &'static str, kinds: impl IntoIterator<Item = &'static str>) -> Vec<Kind> {
    kinds.into_iter().map(|kind| (by, kind)).collect()
}

/// Each two of an order of checks.
pub fn in_order(by: &'static str, order: &[u32]) -> Vec<Precedence> {
    let pairs = (0..order.len()).flat_map(|k| order[k + 1..].iter().map(move |second| (by, order[k], *second)));
    pairs.collect()
}
