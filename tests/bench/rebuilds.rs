//! Rebuild from the file that Build makes, beside Build twice: of the same list, and with one event changed.

use crate::inputs::{largest, rows, Input, BASE_DAY, IDENTITY};
use crate::library;
use crate::other::{self, Built, Lent, Previous};
use crate::random::Random;
use crate::table::shortest;
use std::hint::black_box;
use std::time::Instant;

pub fn run(inputs: &[Input]) {
    rows("Rebuild, the same list, MB of a file", inputs, same_times);
    rows("Rebuild, an event changed", inputs.iter().filter(|input| input.lent().count > 0), changed_times);
    rows("Build twice", inputs, build_twice_times);
}

/// One call of the library with the largest input, of which one event is changed.
pub fn once(random: &mut Random) {
    let input = largest(random);
    let (file, changed) = (input.file(), input.changed());
    let previous = Previous { file: &file, base_day: BASE_DAY };
    let mut output = vec![0; input.size];
    let built = library::rebuild(input.caller, previous, &input.lent_as(&changed), BASE_DAY, &mut output);
    assert_eq!(built.number, 0, "a refusal");
}

fn same_times(input: &Input) -> [f64; 2] {
    times(input, &input.lent())
}

fn changed_times(input: &Input) -> [f64; 2] {
    times(input, &input.lent_as(&input.changed()))
}

fn times(input: &Input, lent: &Lent) -> [f64; 2] {
    let file = input.file();
    let previous = Previous { file: &file, base_day: BASE_DAY };
    let mut outputs = [vec![0; input.size], vec![0; input.size]];
    let built = Built { number: 0, value: input.size };
    assert_eq!(library::rebuild(input.caller, previous, lent, BASE_DAY, &mut outputs[0]), built, "a refusal");
    assert_eq!(other::rebuild(input.caller, previous, lent, BASE_DAY, &mut outputs[1]), built, "a refusal");
    assert!(outputs[0] == outputs[1], "the two disagree");
    let output = &mut outputs[0];
    [library::rebuild, other::rebuild].map(|rebuild| {
        shortest(|| {
            let begun = Instant::now();
            black_box(rebuild(input.caller, black_box(previous), black_box(lent), BASE_DAY, output));
            begun.elapsed()
        })
    })
}

fn build_twice_times(input: &Input) -> [f64; 2] {
    let lent = input.lent();
    let mut output = vec![0; input.size];
    [library::build, other::build].map(|build| {
        shortest(|| {
            let begun = Instant::now();
            for _ in 0..2 {
                black_box(build(input.caller, black_box(&lent), BASE_DAY, IDENTITY, &mut output));
            }
            begun.elapsed()
        })
    })
}
