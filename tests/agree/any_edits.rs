//! Makers of edits of any kind, carried out, refused or struck, and of scripts that are carried out around them.

use crate::held::Held;
use crate::lists::{record, DURATION, DURATION_MAX, ID, MARKS, OFFSET, START, START_END};
use crate::pools::Pools;
use crate::random::Random;
use crate::scripts::Command;
use crate::times::Times;

impl Held {
    /// An edit with likely values, carried out or refused. Nothing here changes.
    pub fn any_edit(&self, random: &mut Random, pools: &Pools) -> Command {
        let none = (0, Times { start: 0, duration: 1 });
        let (held_id, held) = if self.count() == 0 { none } else { self.event(random) };
        let new_id = self.new_id(random);
        let id = random.pick(&[held_id, held_id, new_id, new_id, new_id, 0, 1, 65_535]);
        let limit = random.pick(&[0, START_END - 1, START_END, u32::MAX]);
        let into = held.start + random.below(held.duration as usize) as u32;
        let end = random.pick(&[64, START_END as usize]);
        let any = random.below(end) as u32;
        let start = random.pick(&[held.start, into, held.end(), any, any, any, 1, 2, limit]);
        match random.below(4) {
            0 => Command::Withdraw(id),
            1 => Command::Move(id, start),
            _ => {
                let mut record = record(random, pools);
                record[ID] = id;
                let short = 1 + random.below(60) as u32;
                let duration = random.pick(&[1, short, short, record[DURATION]]);
                record[START..MARKS].copy_from_slice(&[start, duration]);
                if random.one_in(4) {
                    record[DURATION] = random.pick(&[0, 1, DURATION_MAX, DURATION_MAX + 1, u32::MAX]);
                }
                if random.one_in(8) {
                    record[MARKS] = random.pick(&[7, 8, 10, 255]);
                }
                if random.one_in(4) {
                    let parts = pools.of_marks(record[MARKS]).no_chains(random);
                    record[OFFSET..].copy_from_slice(&random.pick(&parts));
                }
                Command::Put(record)
            }
        }
    }

    /// So many commands with likely values, UNDO among them, carried out or refused.
    pub fn likely(&self, random: &mut Random, pools: &Pools, commands: usize) -> Vec<Command> {
        let command = |_| if random.one_in(4) { Command::Undo } else { self.any_edit(random, pools) };
        (0..commands).map(command).collect()
    }

    /// Edits of any kind that UNDO strikes, nested at random.
    pub fn struck(&self, random: &mut Random, pools: &Pools) -> Vec<Command> {
        let mut commands = Vec::new();
        let mut open = 0;
        for _ in 0..random.below(8) {
            if open > 0 && random.one_in(2) {
                commands.push(Command::Undo);
                open -= 1;
            } else {
                commands.push(self.any_edit(random, pools));
                open += 1;
            }
        }
        commands.resize(commands.len() + open, Command::Undo);
        commands
    }

    /// So many edits that are carried out, with struck ones between them.
    pub fn edits(&mut self, random: &mut Random, pools: &Pools, edits: usize) -> Vec<Command> {
        let mut commands = self.struck(random, pools);
        for _ in 0..edits {
            commands.push(self.edit(random, pools));
            if random.one_in(3) {
                commands.extend(self.struck(random, pools));
            }
        }
        commands
    }

    /// Edits that are carried out, after which the list has two events or more and is full or not. The limit is 3 or
    /// more.
    pub fn ready(&mut self, random: &mut Random, pools: &Pools, full: bool) -> Vec<Command> {
        let mut commands = Vec::new();
        while self.count() < 2 || full && !self.is_full() {
            commands.push(self.put(random, pools));
        }
        if !full && self.is_full() {
            commands.push(self.withdraw(random));
        }
        commands
    }
}
