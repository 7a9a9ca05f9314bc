//! The forbidden tag (02, W-202), in a list that is built and planned: refused for every descriptor of the part, and
//! for none beside it.

use super::comparison::Comparison;
use crate::lists::{List, MARKS};
use crate::pools::Pools;
use crate::random::Random;
use crate::tagged::Tagged;

pub fn run(comparison: &mut Comparison) -> Result<(), String> {
    let random = &mut comparison.groups.begin("tags");
    // Chains that fit a section.
    let lengths = [2, 3, 12, 60, 257, 600, comparison.caller.sizes().chain_max()];
    for Tagged { pools, parts } in Tagged::all(random, &lengths) {
        for (part, is_chain) in parts {
            let list = List::sound(random, &pools, 3, 6 * 3);
            for place in 0..3 {
                let list = list.with(place, MARKS, &part);
                if is_chain {
                    written(comparison, random, &pools, &list)?;
                } else {
                    comparison.unsound(random, &pools, &list)?;
                }
            }
        }
    }
    Ok(())
}

fn written(comparison: &mut Comparison, random: &mut Random, pools: &Pools, list: &List) -> Result<(), String> {
    match comparison.cuts(random, pools, list)? {
        Some(_) => Ok(()),
        None => Err(format!("three events are unpackable\n  {}", list.describe(pools))),
    }
}
