//! Events with a field that is out of range, and with fields at their limits: 24, and no refusal.

use super::comparison::Comparison;
use super::event_fields::{digits, duration, get, number, put, start, DURATION, START, STATUS};
use super::file::File;
use super::victim::{self, Victim};

pub fn run(comparison: &mut Comparison) -> Result<(), String> {
    let random = &mut comparison.groups.begin("event values");
    for file in victim::files(comparison.caller, random) {
        let mut victim = Victim::new(comparison, random, &file);
        victim.no_digits(START)?;
        victim.no_digits(DURATION)?;
        victim.sixtieths()?;
        victim.durations()?;
        victim.statuses()?;
    }
    Ok(())
}

impl Victim<'_, '_> {
    /// Each half byte that is no digit, in each of six places.
    fn no_digits(&mut self, field: usize) -> Result<(), String> {
        for byte in field..field + 3 {
            for digit in 0xA..=0xF {
                self.refused(|section, event| section[event + byte] = section[event + byte] & 0xF0 | digit)?;
                self.refused(|section, event| section[event + byte] = section[event + byte] & 0x0F | digit << 4)?;
            }
        }
        // Ten and a digit, as if it were one more of the digit before.
        let [hours, minutes, seconds]: [u8; 3] = get(&self.file.sections[self.place], self.event + field);
        for (place, two) in [hours, minutes, seconds].into_iter().enumerate() {
            if two & 0x0F < 6 && two >> 4 > 0 {
                self.refused(|section, event| section[event + field + place] = two - 0x10 + 0x0A)?;
            }
        }
        Ok(())
    }

    /// Minutes and seconds from 60 on.
    fn sixtieths(&mut self) -> Result<(), String> {
        for byte in [START + 1, START + 2, DURATION + 1, DURATION + 2] {
            for two in [0x60, 0x61, 0x69, 0x70, 0x99] {
                self.refused(|section, event| section[event + byte] = two)?;
            }
        }
        // The same moment with a minute or an hour too many in the field below.
        let [hours, minutes, seconds] = get::<3>(&self.file.sections[self.place], self.event + START).map(number);
        if minutes > 0 && seconds < 40 {
            let same = digits([hours, minutes - 1, seconds + 60]);
            self.refused(|section, event| put(section, event + START, &same))?;
        }
        if hours > 0 && minutes < 40 {
            let same = digits([hours - 1, minutes + 60, seconds]);
            self.refused(|section, event| put(section, event + START, &same))?;
        }
        Ok(())
    }

    fn durations(&mut self) -> Result<(), String> {
        self.refused(|section, event| put(section, event + DURATION, &[0; 3]))?;
        for digits in [[0, 0, 1], [0, 1, 0], [1, 0, 0], [0x99, 0x59, 0x59], [0x24, 0x00, 0x00]] {
            let changed = self.file.with(self.place, |section| put(section, self.event + DURATION, &digits));
            match self.overlapped(&changed) {
                Some(later) => self.comparison.refused(24, later, &changed)?,
                None => self.comparison.accepted(&changed)?,
            }
        }
        Ok(())
    }

    /// The section of the next event, if it begins before the event is over.
    fn overlapped(&self, changed: &File) -> Option<usize> {
        let events = changed.all_events();
        let own = events.iter().position(|event| *event == (self.place, self.event))?;
        let (later, next) = *events.get(own + 1)?;
        let section = &changed.sections[self.place];
        let end = start(section, self.event) + i64::from(duration(section, self.event));
        (start(&changed.sections[later], next) < end).then_some(later)
    }

    /// Each running_status and free_CA_mode.
    fn statuses(&mut self) -> Result<(), String> {
        for status in 0..16 {
            let change = |section: &mut [u8], event: usize| {
                section[event + STATUS] = section[event + STATUS] & 0x0F | status << 4;
            };
            match status >> 1 {
                0 | 5 => self.accepted(change)?,
                _ => self.refused(change)?,
            }
        }
        Ok(())
    }
}
