//! Files that ask for several refusals: 01, "Checks run in this order".

use super::comparison::Comparison;
use super::order::{END_ORDER, SECTION_ORDER};
use super::scene::Scene;
use crate::random::Random;

pub fn run(comparison: &mut Comparison) -> Result<(), String> {
    let random = &mut comparison.groups.begin("precedence");
    for _ in 0..3 {
        for choice in 1..1 << SECTION_ORDER.len() {
            let broken: Vec<_> =
                (0..SECTION_ORDER.len()).filter(|k| choice >> k & 1 == 1).map(|k| SECTION_ORDER[k]).collect();
            in_section(comparison, random, &broken)?;
        }
        for first in SECTION_ORDER {
            for second in SECTION_ORDER {
                of_sections(comparison, random, first, second)?;
            }
            at_end(comparison, random, first)?;
        }
        early_and_short(comparison, random)?;
    }
    Ok(())
}

/// A section that breaks these rules is refused by the first.
fn in_section(comparison: &mut Comparison, random: &mut Random, broken: &[u32]) -> Result<(), String> {
    let victim = random.below(2);
    let limit_in = broken.contains(&26).then_some(victim);
    let scene = Scene::new(comparison.caller, random, limit_in).broken(random, victim, broken);
    comparison.refused(broken[0], scene.victims[victim], &scene.file)?;
    comparison.answers((1, 0), &scene.file.bytes(), 65_473)?;
    comparison.tally.precedence(("call", 1, broken[0]));
    for second in &broken[1..] {
        comparison.tally.precedence(("section", broken[0], *second));
    }
    Ok(())
}

/// Of two sections that are refused the earlier one is.
fn of_sections(comparison: &mut Comparison, random: &mut Random, first: u32, second: u32) -> Result<(), String> {
    let limit_in = [first, second].iter().position(|number| *number == 26);
    let scene =
        Scene::new(comparison.caller, random, limit_in).broken(random, 1, &[second]).broken(random, 0, &[first]);
    comparison.refused(first, scene.victims[0], &scene.file)?;
    comparison.tally.precedence(("earlier section", first, second));
    Ok(())
}

/// A section's refusal comes before that of a file that ends early, and of a record buffer that is short.
fn at_end(comparison: &mut Comparison, random: &mut Random, first: u32) -> Result<(), String> {
    let limit_in = (first == 26).then_some(0);
    let mut scene = Scene::new(comparison.caller, random, limit_in).broken(random, 0, &[first]);
    let offset = scene.file.offset(scene.victims[0]);
    scene.file.sections.truncate(scene.victims[0] + 1 + random.below(3));
    comparison.answers((first, offset), &scene.file.bytes(), scene.file.base_day)?;
    comparison.read_answers((first, offset), &scene.file.bytes(), scene.file.base_day, 0)?;
    for second in END_ORDER {
        comparison.tally.precedence(("end", first, second));
    }
    Ok(())
}

/// A file that ends early is refused for that, whatever the record buffer; a base day is refused before both.
fn early_and_short(comparison: &mut Comparison, random: &mut Random) -> Result<(), String> {
    let mut file = Scene::new(comparison.caller, random, None).file;
    let whole = file.bytes();
    file.sections.pop();
    let early = file.bytes();
    for room in [0, 5, 11] {
        comparison.read_answers((25, early.len()), &early, file.base_day, room)?;
        comparison.read_answers((1, 0), &early, 65_473, room)?;
        comparison.read_answers((1, 0), &whole, 65_473, room)?;
    }
    for precedence in [("end", 25, 27), ("call", 1, 25), ("call", 1, 27)] {
        comparison.tally.precedence(precedence);
    }
    Ok(())
}
