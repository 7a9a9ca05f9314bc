//! Events that do not follow each other, and ids that come again: 24.

use super::comparison::Comparison;
use super::event_fields::{duration, get, put, set_start, start, ID};
use super::file::File;
use super::given::Given;
use super::layout::{rival, Layout};
use crate::random::Random;

pub fn run(comparison: &mut Comparison) -> Result<(), String> {
    let random = &mut comparison.groups.begin("event order");
    for segments in [&[(0, 1)][..], &[(0, 4), (2, 3)], &[(1, 6), (33, 5), (65, 2)]].repeat(3) {
        let given = Given::short(comparison.caller, random, segments);
        let file = rival(random, &given);
        order_in_section(comparison, &file)?;
        ids(comparison, random, &file)?;
    }
    for _ in 0..12 {
        order_of_sections(comparison, random)?;
    }
    many_ids(comparison, random)
}

/// Starts that are equal, and that fall, inside a section.
fn order_in_section(comparison: &mut Comparison, file: &File) -> Result<(), String> {
    for place in file.places_with(2) {
        let events = file.events_in(place);
        for two in events.windows(2) {
            let starts = [two[0], two[1]].map(|event| start(&file.sections[place], event));
            let equal = file.with(place, |section| set_start(section, two[1], starts[0]));
            comparison.refused(24, place, &equal)?;
            let fall = file.with(place, |section| {
                set_start(section, two[0], starts[1]);
                set_start(section, two[1], starts[0]);
            });
            comparison.refused(24, place, &fall)?;
        }
    }
    Ok(())
}

/// Starts that are equal to the last one of the section before, or before it, or before its event is over; and one in
/// the very second in which it is.
fn order_of_sections(comparison: &mut Comparison, random: &mut Random) -> Result<(), String> {
    let given = Given::short(comparison.caller, random, &[(0, 2), (2, 7)]);
    let counts = random.pick(&[&[1, 1, 5][..], &[3, 4], &[2, 2, 3], &[6, 1]]);
    let cuts = [(0, vec![2]), (2, counts.to_vec())].into();
    let file = Layout::of(cuts).file(&given);
    comparison.accepted(&file)?;
    for place in 3..file.sections.len() {
        let before = *file.events_in(place - 1).last().expect("an event");
        let latest = start(&file.sections[place - 1], before);
        let end = latest + i64::from(duration(&file.sections[place - 1], before));
        let first = file.events_in(place)[0];
        for back in [1, end - latest, end - latest + 1, end - latest + 2] {
            let changed = file.with(place, |section| set_start(section, first, end - back));
            let number = comparison.alike(&changed.bytes(), file.base_day)?.number;
            if number != 24 {
                let fault = format!("a start {back} seconds before the last section's end is {number}");
                return Err(comparison.describe(&fault, &changed.bytes(), file.base_day, None));
            }
        }
        comparison.accepted(&file.with(place, |section| set_start(section, first, end)))?;
    }
    Ok(())
}

/// Each id again: later in the section, in a later section, and in a later table.
fn ids(comparison: &mut Comparison, random: &mut Random, file: &File) -> Result<(), String> {
    let all = file.all_events();
    for (k, (place, event)) in all.iter().enumerate() {
        for (earlier_place, earlier) in &all[..k] {
            let id: [u8; 2] = get(&file.sections[*earlier_place], earlier + ID);
            comparison.refused(24, *place, &file.with(*place, |section| put(section, event + ID, &id)))?;
            // An id of which one byte, or all bits but one, are the same.
            let near = [[id[0], random.byte()], [random.byte(), id[1]], [id[0] ^ 1 << random.below(8), id[1]]];
            let changed = file.with(*place, |section| put(section, event + ID, &random.pick(&near)));
            comparison.alike(&changed.bytes(), file.base_day)?;
        }
    }
    Ok(())
}

/// The caller's most events, with ids of which each has neighbours one bit away; and each of some of them again,
/// anywhere behind.
fn many_ids(comparison: &mut Comparison, random: &mut Random) -> Result<(), String> {
    let part = comparison.caller.sizes().events / 8;
    let given = Given::short(comparison.caller, random, &[(0, 4 * part), (5, 3 * part), (40, part)]);
    let file = rival(random, &given);
    let first_bits = random.number() as u16 & 0xF800;
    let mut next = first_bits;
    let mut close = file.clone();
    for place in 0..file.sections.len() {
        let events = file.events_in(place);
        close = close.with(place, |section| {
            for event in events {
                put(section, event + ID, &next.to_be_bytes());
                next = next.wrapping_add(1);
            }
        });
    }
    comparison.accepted(&close)?;
    let places = close.places_with(1);
    for _ in 0..12 {
        let place = random.pick(&places);
        let event = random.pick(&close.events_in(place));
        let own = u16::from_be_bytes(get(&close.sections[place], event + ID));
        if own > first_bits {
            let earlier = first_bits + random.below(usize::from(own - first_bits)) as u16;
            let again = close.with(place, |section| put(section, event + ID, &earlier.to_be_bytes()));
            comparison.refused(24, place, &again)?;
        }
        let bit = close.with(place, |section| put(section, event + ID, &(own ^ 0x8000).to_be_bytes()));
        comparison.accepted(&bit)?;
    }
    Ok(())
}
