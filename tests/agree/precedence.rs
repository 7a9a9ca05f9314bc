//! Which refusal comes where more than one could: 01, "Checks run in this order". Edits before the refused one stay.

use crate::breaking;
use crate::edits::{Comparison, ORDER, PUT_TAGGED};
use crate::held::Held;
use crate::lists::List;
use crate::other::Caller;
use crate::pools::Pools;
use crate::random::Random;
use crate::scripts::{bytes, unstruck, Command};
use crate::unsound::unsound;

pub fn run(comparison: &mut Comparison) -> Result<(), String> {
    let random = &mut comparison.groups.begin("precedence");
    for (day, series) in [(200, 90), (0, 30), (30, 0), (0, 0)] {
        let pools = Pools::of_lengths(random, day, series);
        for _ in 0..24 {
            for choice in 1..1 << ORDER.len() {
                let broken: Vec<_> = (0..ORDER.len()).filter(|k| choice >> k & 1 == 1).map(|k| ORDER[k]).collect();
                put(comparison, random, &pools, &broken)?;
            }
            for broken in [&[5][..], &[6], &[30], &[5, 6], &[6, 30]] {
                move_one(comparison, random, &pools, broken)?;
            }
            withdraw(comparison, random, &pools)?;
        }
    }
    let pools = Pools::of_lengths(random, 3_000, 2_000);
    for broken in [&[9][..], &[5, 9], &[9, 6], &[9, 30], &[9, 8], &[9, 6, 30, 8]].repeat(24) {
        put_tagged(comparison, random, &pools, broken)?;
    }
    Ok(())
}

fn put(comparison: &mut Comparison, random: &mut Random, pools: &Pools, broken: &[u32]) -> Result<(), String> {
    let ready = Ready::new(comparison.caller, random, pools, broken.contains(&8));
    let edit = breaking::put(random, pools, &ready.held, broken);
    ready.refuse(comparison, random, pools, "PUT", edit, broken)
}

fn put_tagged(comparison: &mut Comparison, random: &mut Random, pools: &Pools, broken: &[u32]) -> Result<(), String> {
    let ready = Ready::new(comparison.caller, random, pools, broken.contains(&8));
    let edit = breaking::put_tagged(random, pools, &ready.held, broken);
    ready.refuse(comparison, random, pools, PUT_TAGGED, edit, broken)
}

fn move_one(comparison: &mut Comparison, random: &mut Random, pools: &Pools, broken: &[u32]) -> Result<(), String> {
    let full = random.one_in(2);
    let ready = Ready::new(comparison.caller, random, pools, full);
    let edit = breaking::move_one(random, &ready.held, broken);
    ready.refuse(comparison, random, pools, "MOVE", edit, broken)
}

fn withdraw(comparison: &mut Comparison, random: &mut Random, pools: &Pools) -> Result<(), String> {
    let full = random.one_in(2);
    let ready = Ready::new(comparison.caller, random, pools, full);
    let edit = breaking::withdraw(random, &ready.held);
    ready.refuse(comparison, random, pools, "WITHDRAW", edit, &[6])
}

/// A list and edits that are carried out on it, after which it has two events or more and is full or not.
struct Ready {
    list: List,
    before: Vec<Command>,
    held: Held,
}

impl Ready {
    fn new(caller: Caller, random: &mut Random, pools: &Pools, full: bool) -> Ready {
        let limit = 3 + random.below(6);
        let count = 1 + random.below(limit);
        let numbers = 6 * limit + random.below(6);
        let list = List::sound(random, pools, count, numbers);
        let mut held = Held::by(caller, &list);
        let edits = random.below(6);
        let mut before = held.edits(random, pools, edits);
        before.extend(held.ready(random, pools, full));
        Ready { list, before, held }
    }

    /// The edit, which breaks these rules, is refused by the first of them; and a broken form, an UNDO with nothing to
    /// strike and an unsound list come before it.
    fn refuse(
        &self,
        comparison: &mut Comparison,
        random: &mut Random,
        pools: &Pools,
        command: &'static str,
        edit: Command,
        broken: &[u32],
    ) -> Result<(), String> {
        let first = broken[0];
        let mut commands = self.before.clone();
        commands.push(edit);
        commands.extend((0..random.below(3)).map(|_| self.held.any_edit(random, pools)));
        let script = bytes(&commands);
        comparison.answers((first, bytes(&self.before).len()), pools, &self.list, &script)?;
        for second in &broken[1..] {
            comparison.tally.precedence((command, first, *second));
        }

        let cut = [&script, breaking::form(random)].concat();
        comparison.answers((3, script.len()), pools, &self.list, &cut)?;
        self.tally_call(comparison, 3, broken);

        let undo_first = [vec![0x04], script.clone()].concat();
        comparison.answers((4, 0), pools, &self.list, &undo_first)?;
        let undo_last = [script.clone(), vec![0x04; unstruck(&commands) + 1]].concat();
        comparison.answers((4, undo_last.len() - 1), pools, &self.list, &undo_last)?;
        self.tally_call(comparison, 4, broken);

        let undo_then_cut = [vec![0x04], cut.clone()].concat();
        comparison.answers((3, 1 + script.len()), pools, &self.list, &undo_then_cut)?;
        comparison.tally.precedence(("call", 3, 4));

        let scripts = [(script, first), (cut, 3), (undo_first, 4), (undo_last, 4)];
        self.refuse_unsound(comparison, random, pools, &scripts)?;
        self.tally_call(comparison, 12, broken);
        Ok(())
    }

    /// The call's refusal came, and those of the edit did not.
    fn tally_call(&self, comparison: &mut Comparison, first: u32, broken: &[u32]) {
        broken.iter().for_each(|second| comparison.tally.precedence(("call", first, *second)));
    }

    /// Scripts, each with the refusal that it gets on a sound list, on unsound ones.
    fn refuse_unsound(
        &self,
        comparison: &mut Comparison,
        random: &mut Random,
        pools: &Pools,
        scripts: &[(Vec<u8>, u32)],
    ) -> Result<(), String> {
        let lists = unsound(comparison.caller, random, pools, &self.list);
        for (script, second) in scripts {
            let place = random.below(lists.len());
            comparison.answers((12, 0), pools, &lists[place].1, script)?;
            comparison.tally.precedence(("call", 12, *second));
        }
        Ok(())
    }
}
