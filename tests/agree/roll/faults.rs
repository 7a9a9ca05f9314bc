//! The self-check's faults of a roll, each as a roll that stands in for the library.

use super::comparison::RollCall;
use super::{left_faults, method_faults, order_faults, refusal_faults, soundness_faults};
use crate::other::{roll_by, Caller, RollMethod, Rolled};

pub type Fault = (&'static str, Box<dyn Fn(Caller, &mut [u32], usize, &[u8], &[u8], u32) -> Rolled>);

/// Of the events that stay, and of the base day: they show also in what is built of the list.
pub fn of_events() -> Vec<Fault> {
    let by_method = method_faults::EVENTS.into_iter().map(by_method);
    by_method.chain(left_faults::EVENTS.into_iter().map(by_change)).collect()
}

/// Of the other numbers of the buffer, and of the answer.
pub fn of_buffer() -> Vec<Fault> {
    left_faults::BUFFER.into_iter().map(by_change).collect()
}

/// Of what is refused, and of what a refusal returns and leaves.
pub fn of_refusals() -> Vec<Fault> {
    let by_call = order_faults::ALL.into_iter().chain(soundness_faults::ALL).map(by_call);
    let by_method = method_faults::REFUSALS.into_iter().map(by_method);
    by_call.chain(by_method).chain(refusal_faults::ALL.into_iter().map(by_refusal)).collect()
}

fn by_call((fault, call): (&'static str, RollCall)) -> Fault {
    (fault, Box::new(call))
}

fn by_method((fault, method): (&'static str, RollMethod)) -> Fault {
    let call = move |caller, list: &mut [u32], count, day: &[u8], series: &[u8], base_day| {
        roll_by(method, caller, list, count, day, series, base_day)
    };
    (fault, Box::new(call))
}

fn by_change((fault, change): (&'static str, left_faults::Change)) -> Fault {
    let call = move |caller, list: &mut [u32], count, day: &[u8], series: &[u8], base_day| {
        left_faults::changed(change, caller, list, count, day, series, base_day)
    };
    (fault, Box::new(call))
}

fn by_refusal((fault, change): (&'static str, refusal_faults::Change)) -> Fault {
    let call = move |caller, list: &mut [u32], count, day: &[u8], series: &[u8], base_day| {
        refusal_faults::changed(change, caller, list, count, day, series, base_day)
    };
    (fault, Box::new(call))
}
