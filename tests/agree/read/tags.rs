//! Descriptors with the forbidden tag (02, W-202): 24 for their section, wherever they stand. The highest legal tag is
//! accepted, and so is the forbidden one's byte elsewhere in a chain.

use super::built::round_trip;
use super::comparison::Comparison;
use super::event_fields::{descriptors, put_descriptor};
use super::file::File;
use super::given::Given;
use super::layout::rival;
use super::order::{END_ORDER, SECTION_ORDER, TAGGED};
use super::scene::Scene;
use crate::lineup::Lineup;
use crate::lists::{List, MARKS};
use crate::other::Caller;
use crate::pools::{Pool, Pools};
use crate::random::Random;
use crate::stock::{FORBIDDEN_TAG, HIGHEST_LEGAL_TAG};
use crate::tagged::ends_and_one_between;

pub fn run(comparison: &mut Comparison) -> Result<(), String> {
    let random = &mut comparison.groups.begin("tags");
    let caller = comparison.caller;
    for given in [several(caller, random), full_of_the_byte(caller, random)] {
        let built = given.built().expect("a few events are packable");
        for file in [built, rival(random, &given)] {
            in_file(comparison, random, &file)?;
        }
        round_trip(comparison, random, given)?;
    }
    for _ in 0..3 {
        for number in SECTION_ORDER.into_iter().filter(|number| *number != 24) {
            in_section(comparison, random, number)?;
        }
        at_end(comparison, random)?;
    }
    Ok(())
}

/// Chains of several lengths, in Build's file also in the first section and in the last.
fn several(caller: Caller, random: &mut Random) -> Given {
    let mut lineup = Lineup::new();
    let longest = caller.sizes().chain_max();
    let segments = [(0, &[2, 40, 0][..]), (1, &[300, 3, 700]), (3, &[12]), (33, &[0, longest, 60])];
    for (index, lengths) in segments {
        lineup.segment(random, index, lengths);
    }
    Given::new(caller, random, lineup)
}

/// Chains with the forbidden tag's byte wherever else it may be, two of them as long as their pools.
fn full_of_the_byte(caller: Caller, random: &mut Random) -> Given {
    let pools = Pools { day: Pool::of_forbidden_bytes(random), series: Pool::of_forbidden_bytes(random) };
    let mut list = List::sound(random, &pools, 6, 6 * 6);
    for (place, marks) in [(0, 1), (5, 6)] {
        let length = pools.of_marks(marks).bytes().len() as u32;
        list.set(place, MARKS, &[marks, 0, length]);
    }
    Given::of(caller, random, pools, list)
}

/// The tag for the first descriptor of each event, one between and the last, and for one more in front of them.
fn in_file(comparison: &mut Comparison, random: &mut Random, file: &File) -> Result<(), String> {
    comparison.accepted(file)?;
    for place in file.places_with(1) {
        for event in file.events_in(place) {
            let starts = descriptors(&file.sections[place], event);
            for descriptor in ends_and_one_between(random, starts.len()) {
                both_tags(comparison, file, place, |section, tag| section[starts[descriptor]] = tag)?;
            }
            // A full section has no room for one more.
            if file.sections[place].len() + 2 <= comparison.caller.sizes().section {
                both_tags(comparison, file, place, |section, tag| put_descriptor(section, event, tag))?;
            }
        }
    }
    Ok(())
}

/// The forbidden tag in a section is 24, or 21 if CRC_32 does not cover it; the highest legal one is accepted.
fn both_tags(
    comparison: &mut Comparison,
    file: &File,
    place: usize,
    put: impl Fn(&mut Vec<u8>, u8),
) -> Result<(), String> {
    comparison.refused(24, place, &file.with(place, |section| put(section, FORBIDDEN_TAG)))?;
    comparison.refused(21, place, &file.with_raw(place, |section| put(section, FORBIDDEN_TAG)))?;
    comparison.accepted(&file.with(place, |section| put(section, HIGHEST_LEGAL_TAG)))
}

/// Both tags in a section that asks for one more refusal: of it and 24 the first one comes, and without 24 it does.
fn in_section(comparison: &mut Comparison, random: &mut Random, number: u32) -> Result<(), String> {
    let victim = random.below(2);
    let scene = Scene::new(comparison.caller, random, (number == 26).then_some(victim));
    for (tag, first) in [(FORBIDDEN_TAG, number.min(24)), (HIGHEST_LEGAL_TAG, number)] {
        let scene = scene.clone().with_tag(random, victim, tag).broken(random, victim, &[number]);
        comparison.refused(first, scene.victims[victim], &scene.file)?;
    }
    comparison.tally.precedence((TAGGED, number.min(24), number.max(24)));
    Ok(())
}

/// Both tags in a file that ends early, with a record buffer that is short.
fn at_end(comparison: &mut Comparison, random: &mut Random) -> Result<(), String> {
    let mut scene = Scene::new(comparison.caller, random, None);
    scene.file.sections.truncate(scene.victims[1] + 1);
    let [tagged, legal] = [FORBIDDEN_TAG, HIGHEST_LEGAL_TAG].map(|tag| scene.clone().with_tag(random, 1, tag).file);
    comparison.refused(24, scene.victims[1], &tagged)?;
    comparison.read_answers((24, tagged.offset(scene.victims[1])), &tagged.bytes(), tagged.base_day, 0)?;
    comparison.answers((25, legal.bytes().len()), &legal.bytes(), legal.base_day)?;
    for second in END_ORDER {
        comparison.tally.precedence((TAGGED, 24, second));
    }
    Ok(())
}
