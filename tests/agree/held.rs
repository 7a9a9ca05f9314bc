//! Makers of commands that fit a list and are carried out.

use crate::lists::{record, List, ID, MARKS, NUMBERS, START};
use crate::other::Caller;
use crate::pools::Pools;
use crate::random::Random;
use crate::scripts::Command;
use crate::times::Times;
use crate::timetable::Timetable;
use std::collections::HashSet;

/// The ids and times that a list holds while a script is written for it.
pub struct Held {
    events: Vec<(u32, Times)>,
    ids: HashSet<u32>,
    pub timetable: Timetable,
    limit: usize,
}

impl Held {
    pub fn by(caller: Caller, list: &List) -> Held {
        let events: Vec<_> = (0..list.count).map(|place| (list.get(place, ID), list.times(place))).collect();
        Held {
            ids: events.iter().map(|event| event.0).collect(),
            timetable: Timetable::of(events.iter().map(|event| event.1)),
            events,
            limit: caller.sizes().events.min(list.numbers.len() / NUMBERS),
        }
    }

    pub fn count(&self) -> usize {
        self.events.len()
    }

    pub fn is_full(&self) -> bool {
        self.events.len() == self.limit
    }

    /// Id and times of some event. The list is not empty.
    pub fn event(&self, random: &mut Random) -> (u32, Times) {
        random.pick(&self.events)
    }

    /// The times of some event other than this one. The list has two events or more.
    pub fn other_times(&self, random: &mut Random, own: Times) -> Times {
        loop {
            let (_, times) = self.event(random);
            if times != own {
                return times;
            }
        }
    }

    /// The times of some event, if there is one.
    pub fn some_times(&self, random: &mut Random) -> Option<Times> {
        (!self.events.is_empty()).then(|| self.event(random).1)
    }

    pub fn new_id(&self, random: &mut Random) -> u32 {
        loop {
            let end = random.pick(&[64, 65_536]);
            let id = random.below(end) as u32;
            if !self.ids.contains(&id) {
                return id;
            }
        }
    }

    /// Times that no event overlaps.
    pub fn free(&self, random: &mut Random) -> Times {
        let beside = self.some_times(random);
        self.timetable.free(random, beside)
    }

    /// Times that overlap those of some event. The list is not empty.
    pub fn overlapping(&self, random: &mut Random) -> Times {
        let own = self.event(random).1;
        let overlaps = self.timetable.neighbours(own).overlaps(random);
        random.pick(&overlaps).1
    }

    /// PUT that is carried out, on a list that is not full.
    pub fn put(&mut self, random: &mut Random, pools: &Pools) -> Command {
        let record = record(random, pools);
        let times = self.free(random);
        let id = self.new_id(random);
        self.put_as(record, id, times)
    }

    /// PUT of the record with this id and these times, which are new and free.
    pub fn put_as(&mut self, mut record: [u32; NUMBERS], id: u32, times: Times) -> Command {
        record[ID] = id;
        record[START..MARKS].copy_from_slice(&times.numbers());
        self.insert(id, times);
        Command::Put(record)
    }

    /// WITHDRAW that is carried out, on a list that is not empty.
    pub fn withdraw(&mut self, random: &mut Random) -> Command {
        Command::Withdraw(self.remove(random.below(self.count())).0)
    }

    /// WITHDRAW of this event.
    pub fn withdraw_id(&mut self, id: u32) -> Command {
        self.remove(self.place(id));
        Command::Withdraw(id)
    }

    /// MOVE that is carried out, at times onto the event's own start, on a list that is not empty.
    pub fn move_one(&mut self, random: &mut Random) -> Command {
        let (id, own) = self.remove(random.below(self.count()));
        let beside = self.some_times(random);
        let times = if random.one_in(4) { own } else { self.timetable.free_for(random, own, beside) };
        self.insert(id, times);
        Command::Move(id, times.start)
    }

    /// MOVE of this event to a start from which on there is room for it.
    pub fn move_id(&mut self, id: u32, start: u32) -> Command {
        let (_, own) = self.remove(self.place(id));
        self.insert(id, Times { start, ..own });
        Command::Move(id, start)
    }

    /// An edit that is carried out. The limit is not 0.
    pub fn edit(&mut self, random: &mut Random, pools: &Pools) -> Command {
        let is_empty = self.events.is_empty();
        match random.below(3) {
            0 if !self.is_full() => self.put(random, pools),
            1 if !is_empty => self.withdraw(random),
            _ if !is_empty => self.move_one(random),
            _ => self.put(random, pools),
        }
    }

    fn insert(&mut self, id: u32, times: Times) {
        self.events.push((id, times));
        self.ids.insert(id);
        self.timetable.insert(times);
    }

    fn place(&self, id: u32) -> usize {
        self.events.iter().position(|event| event.0 == id).expect("the id is held")
    }

    fn remove(&mut self, place: usize) -> (u32, Times) {
        let (id, times) = self.events.swap_remove(place);
        self.ids.remove(&id);
        self.timetable.remove(times);
        (id, times)
    }
}
