//! Previous files with a section that Read refuses: its number and offset, and the output stays.

use super::case::Case;
use super::comparison::Comparison;
use crate::other::{Caller, Previous};
use crate::random::Random;
use crate::read::{rival, File, Given, Scene};
use crate::stock::FORBIDDEN_TAG;
use crate::tally::{each_kind, Kind};

pub const PREVIOUS: &str = "a previous file";
const BROKEN: [(&str, u32); 6] = [
    ("refused with 20", 20),
    ("refused with 21", 21),
    ("refused with 22", 22),
    ("refused with 23", 23),
    ("refused with 24", 24),
    ("refused with 26", 26),
];
const TAG: &str = "with tag 0xFF: 24";
const OVERLAP: &str = "with an overlap: 24";
const VERSION: &str = "with two versions in a table: 22";
const OTHER_CALLER: &str = "of the other caller";

pub fn kinds() -> Vec<Kind> {
    each_kind(PREVIOUS, BROKEN.map(|(kind, _)| kind).into_iter().chain([TAG, OVERLAP, VERSION, OTHER_CALLER]))
}

pub fn run(comparison: &mut Comparison) -> Result<(), String> {
    let random = &mut comparison.groups.begin("previous files");
    for _ in 0..12 {
        for (kind, number) in BROKEN {
            broken(comparison, random, kind, number)?;
        }
        of_the_requests(comparison, random)?;
    }
    of_the_other(comparison, random)
}

/// A case with some packable events, and an output that is long enough.
fn refused(
    comparison: &mut Comparison,
    random: &mut Random,
    kind: &'static str,
    answer: (u32, usize),
    file: &File,
) -> Result<(), String> {
    let given = Given::short(comparison.caller, random, &[(0, 2), (32, 1)]);
    let bytes = file.bytes();
    let previous = Previous { file: &bytes, base_day: file.base_day };
    comparison.answers(answer, Case::of(previous, &given, 500))?;
    comparison.tally.kind((PREVIOUS, kind));
    Ok(())
}

/// One section breaks a rule.
fn broken(comparison: &mut Comparison, random: &mut Random, kind: &'static str, number: u32) -> Result<(), String> {
    let victim = random.below(2);
    let limit_in = (number == 26).then_some(victim);
    let scene = Scene::new(comparison.caller, random, limit_in).broken(random, victim, &[number]);
    let offset = scene.file.offset(scene.victims[victim]);
    refused(comparison, random, kind, (number, offset), &scene.file)
}

/// One section breaks a rule of 02: W-202, W-204 and W-208.
fn of_the_requests(comparison: &mut Comparison, random: &mut Random) -> Result<(), String> {
    let victim = random.below(2);
    let scene = Scene::new(comparison.caller, random, None);
    let scenes = [
        (TAG, 24, scene.clone().with_tag(random, victim, FORBIDDEN_TAG)),
        (OVERLAP, 24, scene.clone().with_overlap(random, victim, 1)),
        (VERSION, 22, scene.with_version(random, victim)),
    ];
    for (kind, number, scene) in scenes {
        let offset = scene.file.offset(scene.victims[victim]);
        refused(comparison, random, kind, (number, offset), &scene.file)?;
    }
    Ok(())
}

/// Files within the other caller's sizes: cable's are broadcast's too, and broadcast's can be 20 or 26 for cable.
fn of_the_other(comparison: &mut Comparison, random: &mut Random) -> Result<(), String> {
    let other = comparison.caller.other();
    for events in [1, 80, 83, 84, 256, 257].into_iter().filter(|events| *events <= other.sizes().events) {
        let given = Given::short(other, random, &[(0, events)]);
        let file = rival(random, &given);
        let bytes = file.bytes();
        let own = Given::short(comparison.caller, random, &[(0, 2)]);
        let case = Case::of(Previous { file: &bytes, base_day: given.base_day }, &own, 500);
        let (built, _) = comparison.alike(case)?;
        let is_wanted = built.number == 0 || comparison.caller == Caller::Cable && [20, 26].contains(&built.number);
        if !is_wanted {
            return Err(format!("Rebuild answered {built:?} to a file of {other}"));
        }
        comparison.tally.kind((PREVIOUS, OTHER_CALLER));
    }
    Ok(())
}
