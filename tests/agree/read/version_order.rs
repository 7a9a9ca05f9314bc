//! Which refusal comes where a section has another version than its table (02, W-208) and asks for another: 01, "Checks
//! run in this order".

use super::comparison::Comparison;
use super::order::{END_ORDER, SECTION_ORDER, VERSION};
use super::scene::Scene;
use crate::random::Random;

pub fn run(comparison: &mut Comparison) -> Result<(), String> {
    let random = &mut comparison.groups.begin("version order");
    for _ in 0..6 {
        for number in SECTION_ORDER.into_iter().filter(|number| *number != 22) {
            in_section(comparison, random, number)?;
        }
        at_end(comparison, random)?;
    }
    Ok(())
}

/// Of the section's other refusal and 22 the first one comes, and with its table's version the other does.
fn in_section(comparison: &mut Comparison, random: &mut Random, number: u32) -> Result<(), String> {
    let victim = random.below(2);
    let scene = Scene::new(comparison.caller, random, (number == 26).then_some(victim));
    let same = scene.clone().broken(random, victim, &[number]);
    comparison.refused(number, same.victims[victim], &same.file)?;
    let other = scene.with_version(random, victim).broken(random, victim, &[number]);
    comparison.answers((1, 0), &other.file.bytes(), 65_473)?;
    comparison.tally.precedence((VERSION, 1, 22));
    if other.is_in_its_table(victim) || number == 20 {
        comparison.refused(number.min(22), other.victims[victim], &other.file)?;
        comparison.tally.precedence((VERSION, number.min(22), number.max(22)));
        return Ok(());
    }
    // The first section of a table has any version.
    comparison.refused(23, other.victims[victim], &other.file)
}

/// The same in a file that ends early, with a record buffer that is short.
fn at_end(comparison: &mut Comparison, random: &mut Random) -> Result<(), String> {
    let mut scene = Scene::new(comparison.caller, random, None);
    scene.file.sections.truncate(scene.victims[1] + 1);
    let same = scene.file.clone();
    let other = scene.clone().with_version(random, 1).file;
    comparison.refused(22, scene.victims[1], &other)?;
    comparison.read_answers((22, other.offset(scene.victims[1])), &other.bytes(), other.base_day, 0)?;
    comparison.answers((25, same.bytes().len()), &same.bytes(), same.base_day)?;
    for second in END_ORDER {
        comparison.tally.precedence((VERSION, 22, second));
    }
    Ok(())
}
