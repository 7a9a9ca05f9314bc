//! Chains of many lengths, and parts that miss being one by a byte, in PUT and in a lent list.

use crate::edits::Comparison;
use crate::held::Held;
use crate::lists::List;
use crate::pools::{Pool, Pools};
use crate::random::Random;
use crate::scripts::{bytes, Command};
use crate::stock::FORBIDDEN_TAG;

pub fn run(comparison: &mut Comparison) -> Result<(), String> {
    let random = &mut comparison.groups.begin("chains");
    // Those that a section of the one caller or the other just holds are nothing special here.
    for length in (0..=600).chain(988..=1_000).chain(4_060..=4_072).chain([65_535]) {
        for marks in [1, 6] {
            if length == 1 {
                let byte = Pool::new(&[random.byte()], vec![0, 1]);
                part(comparison, random, marks, byte, [0, 1], Some(false))?;
            } else {
                near(comparison, random, marks, length)?;
            }
        }
    }
    for length in [70_000, 200_000] {
        beyond_put(comparison, random, length)?;
    }
    far(comparison, random)
}

/// Parts of a pool of this length that are longer than PUT's length can be, in a list: whole, broken at their end, and
/// with the forbidden tag.
fn beyond_put(comparison: &mut Comparison, random: &mut Random, length: usize) -> Result<(), String> {
    let chain = Pool::of_length(random, length);
    let descriptors = chain.descriptors();
    // The most descriptors that are left out on either side.
    for out in [0, 2, 8, 32].repeat(5) {
        let [first, end] = [random.below(out + 1), descriptors - random.below(out + 1)];
        let broken = chain.with_length_off(end - 1);
        let tagged = chain.with_tag(first + random.below(end - first), FORBIDDEN_TAG);
        let no_chains = [(&chain, -1), (&chain, 1), (&broken, 0), (&tagged, 0)];
        let no_chains = no_chains.map(|(pool, more)| (pool, more, (12, 0)));
        for (pool, more, answer) in [(&chain, 0, (0, 1))].into_iter().chain(no_chains) {
            let [offset, length] = pool.between(first, end, more);
            let marks = random.pick(&[1, 6]);
            let pools = chosen(random, marks, pool.clone());
            let list = List { numbers: vec![1, 2, 3, marks, offset, length], count: 1 };
            comparison.answers(answer, &pools, &list, &[])?;
        }
    }
    Ok(())
}

/// Parts that start far inside their pools, in lists and in PUT.
fn far(comparison: &mut Comparison, random: &mut Random) -> Result<(), String> {
    let pools = Pools::of_lengths(random, 200_000, 5_000_000);
    for _ in 0..60 {
        let list = List::sound(random, &pools, 12, 6 * 40);
        let mut held = Held::by(comparison.caller, &list);
        let script = bytes(&held.edits(random, &pools, 60));
        comparison.answers((0, held.count()), &pools, &list, &script)?;
    }
    Ok(())
}

/// A chain of this length at the end of its pool or before more, and parts around it.
fn near(comparison: &mut Comparison, random: &mut Random, marks: u32, length: usize) -> Result<(), String> {
    let front_length = random.pick(&[0, 2, 3, 30]);
    let front = Pool::of_length(random, front_length);
    let chain = Pool::of_length(random, length);
    let at_end = || front.followed_by(&chain);
    let offset = front_length as u32;
    let length = length as u32;
    part(comparison, random, marks, at_end(), [offset, length], Some(true))?;
    if length < 65_535 {
        part(comparison, random, marks, at_end(), [offset, length + 1], Some(false))?;
        let back = Pool::of_length(random, 2);
        let before_more = || at_end().followed_by(&back);
        part(comparison, random, marks, before_more(), [offset, length], Some(true))?;
        part(comparison, random, marks, before_more(), [offset, length + 1], Some(false))?;
    }
    if length > 0 {
        part(comparison, random, marks, at_end(), [offset, length - 1], Some(false))?;
        let last_off = chain.with_length_off(chain.descriptors() - 1);
        part(comparison, random, marks, front.followed_by(&last_off), [offset, length], Some(false))?;
        // Wrong bytes further in can end well by chance.
        let some_off = chain.with_length_off(random.below(chain.descriptors()));
        part(comparison, random, marks, front.followed_by(&some_off), [offset, length], None)?;
    }
    Ok(())
}

/// A part of the pool that the marks choose, in PUT and in a list; whether it is a chain, where that is known.
fn part(
    comparison: &mut Comparison,
    random: &mut Random,
    marks: u32,
    pool: Pool,
    [offset, length]: [u32; 2],
    is_chain: Option<bool>,
) -> Result<(), String> {
    let pools = chosen(random, marks, pool);
    let record = [258, 86_400, 3_600, marks, offset, length];
    let empty = List { numbers: vec![9; 8], count: 0 };
    let list = List { numbers: record.to_vec(), count: 1 };
    let put = bytes(&[Command::Put(record)]);
    match is_chain {
        Some(true) => {
            comparison.answers((0, 1), &pools, &empty, &put)?;
            comparison.answers((0, 1), &pools, &list, &[])
        }
        Some(false) => {
            comparison.answers((9, 0), &pools, &empty, &put)?;
            comparison.answers((12, 0), &pools, &list, &[])
        }
        None => {
            comparison.alike(&pools, &empty, &put)?;
            comparison.alike(&pools, &list, &[]).map(drop)
        }
    }
}

/// Pools of which the marks choose this one.
fn chosen(random: &mut Random, marks: u32, pool: Pool) -> Pools {
    let unused = Pool::of_length(random, 7);
    if marks & 2 == 0 {
        Pools { day: pool, series: unused }
    } else {
        Pools { day: unused, series: pool }
    }
}
