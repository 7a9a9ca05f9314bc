//! Event loops that do not end with their section, chains that are none, and sections without events that are not
//! alone: 24.

use super::comparison::Comparison;
use super::event_fields::{chain_length, set_chain_length, EVENT_FRONT};
use super::file::{File, CRC, FRONT};
use super::given::Given;
use super::layout::{rival, Layout};
use crate::random::Random;

pub fn run(comparison: &mut Comparison) -> Result<(), String> {
    let random = &mut comparison.groups.begin("event loops");
    for segments in [&[(0, 1)][..], &[(0, 4), (2, 3)], &[(1, 6), (33, 5), (65, 2)]].repeat(3) {
        let given = Given::short(comparison.caller, random, segments);
        let file = rival(random, &given);
        for place in file.places_with(1) {
            ends(comparison, random, &file, place)?;
            chains(comparison, random, &file, place)?;
        }
    }
    for _ in 0..12 {
        without_events(comparison, random)?;
    }
    Ok(())
}

/// Stray bytes behind the last event, and chain lengths that the section does not have.
fn ends(comparison: &mut Comparison, random: &mut Random, file: &File, place: usize) -> Result<(), String> {
    for stray in 1..EVENT_FRONT {
        for byte in [0x00, 0xFF, random.byte()] {
            let longer = file.with(place, |section| {
                let end = section.len() - CRC;
                section.splice(end..end, vec![byte; stray]);
            });
            comparison.refused(24, place, &longer)?;
        }
    }
    let last = *file.events_in(place).last().expect("an event");
    let own = chain_length(&file.sections[place], last);
    for cut in 1..own + EVENT_FRONT {
        let shorter = file.with(place, |section| {
            let end = section.len() - CRC;
            section.drain(end - cut..end);
        });
        comparison.refused(24, place, &shorter)?;
    }
    for length in [own + 1, own + 2, own + 12, own + 256, 4_095] {
        let longer = file.with(place, |section| set_chain_length(section, last, length));
        comparison.refused(24, place, &longer)?;
    }
    for event in file.events_in(place) {
        for length in [0, 1, 2, 12, 20] {
            let changed = file.with(place, |section| set_chain_length(section, event, length));
            comparison.alike(&changed.bytes(), file.base_day)?;
        }
    }
    Ok(())
}

/// Chains with a byte too many, one too few, and a descriptor whose length is off.
fn chains(comparison: &mut Comparison, random: &mut Random, file: &File, place: usize) -> Result<(), String> {
    let event = random.pick(&file.events_in(place));
    let own = chain_length(&file.sections[place], event);
    let chain = event + EVENT_FRONT;
    let byte_more = file.with(place, |section| {
        section.insert(chain + own, 0);
        set_chain_length(section, event, own + 1);
    });
    comparison.refused(24, place, &byte_more)?;
    for length in [2, 3, 9] {
        let replaced = |descriptor_length: usize| {
            file.with(place, |section| {
                section.splice(chain..chain + own, vec![0x4D; length]);
                section[chain + 1] = descriptor_length as u8;
                set_chain_length(section, event, length);
            })
        };
        comparison.accepted(&replaced(length - 2))?;
        comparison.refused(24, place, &replaced(length - 1))?;
        comparison.refused(24, place, &replaced(255))?;
    }
    Ok(())
}

/// A section without events in a segment of several, first or later, is not alone; in a segment of its own it is.
fn without_events(comparison: &mut Comparison, random: &mut Random) -> Result<(), String> {
    let given = Given::short(comparison.caller, random, &[(0, 1), (1, 6), (2, 1)]);
    let counts = random.pick(&[&[1, 1, 4][..], &[3, 3], &[2, 1, 1, 2], &[1, 1, 1, 1, 1, 1]]);
    let cuts = [(0, vec![1]), (1, counts.to_vec()), (2, vec![1])].into();
    let file = Layout::of(cuts).file(&given);
    let emptied = |place| file.with(place, |section: &mut Vec<u8>| drop(section.drain(FRONT..section.len() - CRC)));
    comparison.accepted(&file)?;
    comparison.accepted(&emptied(0))?;
    comparison.accepted(&emptied(file.last()))?;
    for place in 1..file.last() {
        comparison.refused(24, place, &emptied(place))?;
    }
    Ok(())
}
