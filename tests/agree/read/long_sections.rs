//! Sections of the caller's size, and longer ones (02, W-206: "a longer section is refusal 20"), which are refused
//! whatever else they break: 01, "Checks run in this order".

use super::comparison::Comparison;
use super::event_fields::set_chain_length;
use super::file::{set_twelve_bits, CRC, FRONT, SECTION_LENGTH};
use super::given::Given;
use super::layout::rival;
use super::order::{END_ORDER, LONG, SECTION_ORDER};
use super::scene::Scene;
use crate::build::seal;
use crate::lineup::Lineup;
use crate::other::Caller;
use crate::random::Random;

/// The longest section that its length can say.
const SAID_MAX: usize = 3 + 0xFFF;

pub fn run(comparison: &mut Comparison) -> Result<(), String> {
    let random = &mut comparison.groups.begin("long sections");
    longest(comparison, random)?;
    let others = &SECTION_ORDER[1..];
    for _ in 0..3 {
        for choice in 0..1 << others.len() {
            let broken: Vec<_> = (0..others.len()).filter(|k| choice >> k & 1 == 1).map(|k| others[k]).collect();
            in_section(comparison, random, &broken)?;
        }
        at_end(comparison, random)?;
    }
    Ok(())
}

/// Lengths of sections that are too long for the caller: by one byte, by a few, by any number and by as many as can be.
fn too_long(caller: Caller, random: &mut Random) -> [usize; 5] {
    let size = caller.sizes().section;
    [size + 1, size + 2, size + 1 + random.below(SAID_MAX - size), SAID_MAX - 1, SAID_MAX]
}

/// Sections filled to the last byte; and longer by a chain of so many bytes more, with CRC_32 right and wrong.
fn longest(comparison: &mut Comparison, random: &mut Random) -> Result<(), String> {
    let sizes = comparison.caller.sizes();
    let mut lineup = Lineup::new();
    lineup.segment(random, 0, &[sizes.chain_max()]);
    lineup.segment(random, 1, &[sizes.chain_max()]);
    let given = Given::new(comparison.caller, random, lineup);
    let file = rival(random, &given);
    comparison.accepted(&file)?;
    for place in [0, 1] {
        for length in too_long(comparison.caller, random) {
            let more = length - sizes.section;
            let longer = file.with(place, |section| {
                let end = section.len() - CRC;
                section.splice(end..end, vec![0; more]);
                set_chain_length(section, FRONT, sizes.chain_max() + more);
            });
            comparison.refused(20, place, &longer)?;
            comparison.refused(20, place, &longer.with_raw(place, |section| section[length - 1] ^= 1))?;
        }
    }
    Ok(())
}

/// A section that breaks these rules and is too long.
fn in_section(comparison: &mut Comparison, random: &mut Random, broken: &[u32]) -> Result<(), String> {
    let victim = random.below(2);
    let limit_in = broken.contains(&26).then_some(victim);
    let scene = Scene::new(comparison.caller, random, limit_in).broken(random, victim, broken);
    let lengths = too_long(comparison.caller, random);
    let scene = lengthened(&scene, victim, random.pick(&lengths), !broken.contains(&21));
    comparison.refused(20, scene.victims[victim], &scene.file)?;
    comparison.answers((1, 0), &scene.file.bytes(), 65_473)?;
    comparison.tally.precedence((LONG, 1, 20));
    for second in broken {
        comparison.tally.precedence((LONG, 20, *second));
    }
    Ok(())
}

/// A section that is too long in a file that ends early, with a record buffer that is short.
fn at_end(comparison: &mut Comparison, random: &mut Random) -> Result<(), String> {
    for length in too_long(comparison.caller, random) {
        let Scene { mut file, victims } = lengthened(&Scene::new(comparison.caller, random, None), 1, length, true);
        file.sections.truncate(victims[1] + 1);
        let offset = file.offset(victims[1]);
        comparison.answers((20, offset), &file.bytes(), file.base_day)?;
        comparison.read_answers((20, offset), &file.bytes(), file.base_day, 0)?;
    }
    for second in END_ORDER {
        comparison.tally.precedence((LONG, 20, second));
    }
    Ok(())
}

/// Makes one of the two sections so long. Its CRC_32 is made anew, or left wrong.
fn lengthened(scene: &Scene, victim: usize, length: usize, crc_is_right: bool) -> Scene {
    let file = scene.file.with_raw(scene.victims[victim], |section| {
        let end = section.len() - CRC;
        section.splice(end..end, vec![0; length - section.len()]);
        set_twelve_bits(section, SECTION_LENGTH, length - 3);
        if crc_is_right {
            seal(section, 0);
        }
    });
    Scene { file, ..*scene }
}
