//! Which refusal comes where a section has an overlap (02, W-204) and asks for another: 01, "Checks run in this order".

use super::comparison::Comparison;
use super::order::{END_ORDER, OVERLAP, SECTION_ORDER};
use super::scene::Scene;
use crate::random::Random;

pub fn run(comparison: &mut Comparison) -> Result<(), String> {
    let random = &mut comparison.groups.begin("overlap order");
    for _ in 0..6 {
        for number in SECTION_ORDER.into_iter().filter(|number| *number != 24) {
            in_section(comparison, random, number)?;
        }
        at_end(comparison, random)?;
    }
    Ok(())
}

/// Of the section's other refusal and 24 the first one comes, and without overlap the other does.
fn in_section(comparison: &mut Comparison, random: &mut Random, number: u32) -> Result<(), String> {
    let victim = random.below(2);
    let scene = Scene::new(comparison.caller, random, (number == 26).then_some(victim));
    let many = 2 + random.below(1_000) as u32;
    for (seconds, first) in [(1, number.min(24)), (many, number.min(24)), (0, number)] {
        let scene = scene.clone().with_overlap(random, victim, seconds).broken(random, victim, &[number]);
        comparison.refused(first, scene.victims[victim], &scene.file)?;
    }
    comparison.answers((1, 0), &scene.with_overlap(random, victim, 1).file.bytes(), 65_473)?;
    comparison.tally.precedence((OVERLAP, 1, 24));
    comparison.tally.precedence((OVERLAP, number.min(24), number.max(24)));
    Ok(())
}

/// The same in a file that ends early, with a record buffer that is short.
fn at_end(comparison: &mut Comparison, random: &mut Random) -> Result<(), String> {
    let mut scene = Scene::new(comparison.caller, random, None);
    scene.file.sections.truncate(scene.victims[1] + 1);
    let [overlap, touching] = [1, 0].map(|seconds| scene.clone().with_overlap(random, 1, seconds).file);
    comparison.refused(24, scene.victims[1], &overlap)?;
    comparison.read_answers((24, overlap.offset(scene.victims[1])), &overlap.bytes(), overlap.base_day, 0)?;
    comparison.answers((25, touching.bytes().len()), &touching.bytes(), touching.base_day)?;
    for second in END_ORDER {
        comparison.tally.precedence((OVERLAP, 24, second));
    }
    Ok(())
}
