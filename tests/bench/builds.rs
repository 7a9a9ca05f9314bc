//! Build and Plan.

use crate::inputs::{largest, rows, Input, BASE_DAY, IDENTITY};
use crate::library;
use crate::other::{self, Built, Caller, Lent, Plan};
use crate::random::Random;
use crate::table::shortest;
use std::hint::black_box;
use std::time::Instant;

pub fn run(inputs: &[Input]) {
    rows("Build, MB of the file", inputs, build_times);
    rows("Plan, MB of the file it plans", inputs, plan_times);
}

/// One call of the library with the largest input: Build, and Plan.
pub fn once(random: &mut Random) {
    let input = largest(random);
    let mut output = vec![0; input.size];
    let built = library::build(input.caller, &input.lent(), BASE_DAY, IDENTITY, &mut output);
    assert_eq!(built.number, 0, "a refusal");
}

pub fn once_planned(random: &mut Random) {
    let input = largest(random);
    let mut plan = [0; 512];
    library::plan(input.caller, &input.lent(), &mut plan);
    assert!(plan == other::plan(input.caller, &input.lent()), "the two disagree");
}

fn build_times(input: &Input) -> [f64; 2] {
    let lent = input.lent();
    let mut outputs = [vec![0; input.size], vec![0; input.size]];
    let built = Built { number: 0, value: input.size };
    assert_eq!(library::build(input.caller, &lent, BASE_DAY, IDENTITY, &mut outputs[0]), built, "a refusal");
    assert_eq!(other::build(input.caller, &lent, BASE_DAY, IDENTITY, &mut outputs[1]), built, "a refusal");
    assert!(outputs[0] == outputs[1], "the two disagree");
    let output = &mut outputs[0];
    [library::build, other::build].map(|build| {
        shortest(|| {
            let begun = Instant::now();
            black_box(build(input.caller, black_box(&lent), BASE_DAY, IDENTITY, output));
            begun.elapsed()
        })
    })
}

fn plan_times(input: &Input) -> [f64; 2] {
    let lent = input.lent();
    let calls: [fn(Caller, &Lent, &mut Plan); 2] =
        [library::plan, |caller, lent, plan| *plan = other::plan(caller, lent)];
    let plans = calls.map(|call| {
        let mut plan = [0; 512];
        call(input.caller, &lent, &mut plan);
        plan
    });
    assert!(plans[0] == plans[1], "the two disagree");
    calls.map(|call| {
        let mut plan = [0; 512];
        shortest(|| {
            let begun = Instant::now();
            call(input.caller, black_box(&lent), black_box(&mut plan));
            begun.elapsed()
        })
    })
}
