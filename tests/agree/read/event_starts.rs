//! Events that start outside their section's segment, or at an hour that no day has: 24.

use super::comparison::Comparison;
use super::event_fields::{digits, get, number, put, set_start, start, DAY, START};
use super::file::File;
use super::given::Given;
use super::layout::rival;
use super::victim::{self, Victim};
use crate::build::BASE_DAY_MAX;
use crate::lineup::{Lineup, SEGMENT_SECONDS};
use crate::other::Caller;
use crate::random::Random;

const DAYS: i64 = 64;
const DAY_SECONDS: i64 = 86_400;
const TABLE_SECONDS: i64 = 4 * DAY_SECONDS;

pub fn run(comparison: &mut Comparison) -> Result<(), String> {
    let random = &mut comparison.groups.begin("event starts");
    for file in victim::files(comparison.caller, random) {
        let mut victim = Victim::new(comparison, random, &file);
        victim.hours()?;
        victim.days()?;
        other_days(comparison, random, &file)?;
    }
    for day in [1, 4, 63] {
        let file = first_hour(comparison.caller, random, day);
        Victim::new(comparison, random, &file).hours()?;
    }
    Ok(())
}

/// An event in the first hour of this day of the window, which is not the day before's hour 24.
fn first_hour(caller: Caller, random: &mut Random, day: i64) -> File {
    let mut lineup = Lineup::new();
    let start = DAY_SECONDS * day + random.below(3_600) as i64;
    lineup.event(random, start as u32, 0);
    let given = Given::new(caller, random, lineup);
    rival(random, &given)
}

impl Victim<'_, '_> {
    /// Hours from 24 on in a start, also for the same moment, by the day before.
    fn hours(&mut self) -> Result<(), String> {
        for two in [0x24, 0x25, 0x29, 0x30, 0x47, 0x99] {
            self.refused(|section, event| section[event + START] = two)?;
        }
        let section = &self.file.sections[self.place];
        let day = u16::from_be_bytes(get(section, self.event + DAY));
        let [hours, minutes, seconds] = get::<3>(section, self.event + START).map(number);
        for days in (1..=3).filter(|days| *days <= day) {
            let same = digits([hours + 24 * u32::from(days), minutes, seconds]);
            self.refused(|section, event| {
                put(section, event + DAY, &(day - days).to_be_bytes());
                put(section, event + START, &same);
            })?;
        }
        Ok(())
    }

    /// Starts in other segments, of this table and of others, and outside the base day's range.
    fn days(&mut self) -> Result<(), String> {
        let own = start(&self.file.sections[self.place], self.event);
        let segment = i64::from(SEGMENT_SECONDS);
        let others = [segment, 8 * segment, TABLE_SECONDS, DAY_SECONDS, DAYS * DAY_SECONDS, 2 * DAYS * DAY_SECONDS];
        for other in others.into_iter().flat_map(|other| [own - other, own + other]) {
            self.refused(|section, event| set_start(section, event, other))?;
        }
        let first = own - (own - DAY_SECONDS * i64::from(self.file.base_day)) % segment;
        for beside in [first - 1, first + segment] {
            self.refused(|section, event| set_start(section, event, beside))?;
        }
        for day in [0, 1, 255, 256, 65_535].into_iter().filter(|day| i64::from(*day) != own / DAY_SECONDS) {
            self.refused(|section, event| put(section, event + DAY, &(day as u16).to_be_bytes()))?;
        }
        Ok(())
    }
}

/// Under another base day each start is in another segment, or outside the range.
fn other_days(comparison: &mut Comparison, random: &mut Random, file: &File) -> Result<(), String> {
    let place = file.places_with(1)[0];
    let any = random.below(BASE_DAY_MAX as usize + 1) as u32;
    let beside = [file.base_day.saturating_sub(1), file.base_day + 1];
    let others = [0, any, BASE_DAY_MAX].into_iter().chain(beside);
    for base_day in others.filter(|day| *day != file.base_day && *day <= BASE_DAY_MAX) {
        comparison.answers((24, file.offset(place)), &file.bytes(), base_day)?;
    }
    for base_day in [BASE_DAY_MAX + 1, 65_536, file.base_day + 65_536, u32::MAX] {
        comparison.answers((1, 0), &file.bytes(), base_day)?;
    }
    Ok(())
}
