//! The search for the place of a start: in the middle of a list, and behind all of it.

use crate::library;
use crate::lists::{rising, NUMBERS, START_END};
use crate::other::{self, Place};
use crate::random::Random;
use crate::table::{head, row, shortest};
use std::hint::black_box;
use std::time::Instant;

const LISTS: [(&str, usize); 3] = [("256 records", 256), ("1,024 records", 1_024), ("2,048 records", 2_048)];
/// A search takes less than a clock tells apart.
const CALLS: u32 = 100;

pub fn run(random: &mut Random) {
    head("place, MB of the records looked at");
    for (name, count) in LISTS {
        let (list, starts) = list(random, count);
        let (middle, last) = (starts[count / 2 - 1], starts[count - 1]);
        search_row(&format!("{name}, the middle"), &list, middle, Place { place: count / 2, looked: count / 2 + 1 });
        search_row(&format!("{name}, behind all"), &list, last, Place { place: count, looked: count });
    }
}

/// One call of the library with the largest list and a start behind all of it.
pub fn once(random: &mut Random) {
    let (_, count) = LISTS[LISTS.len() - 1];
    let (list, starts) = list(random, count);
    let behind_all = Place { place: count, looked: count };
    assert_eq!(library::place(&list, count, starts[count - 1]), behind_all, "not behind all");
}

/// A list of so many records, and their starts, which rise.
fn list(random: &mut Random, count: usize) -> (Vec<u32>, Vec<u32>) {
    let starts: Vec<_> = rising(random, count, START_END as usize).into_iter().collect();
    let list = starts.iter().flat_map(|start| [random.number(), *start, 1, 0, 0, 0]).collect();
    (list, starts)
}

fn search_row(name: &str, list: &[u32], start: u32, wanted: Place) {
    let times = [library::place, other::place].map(|place| {
        assert_eq!(place(list, list.len() / NUMBERS, start), wanted, "the two disagree");
        shortest(|| {
            let begun = Instant::now();
            for _ in 0..CALLS {
                black_box(place(black_box(list), list.len() / NUMBERS, black_box(start)));
            }
            begun.elapsed() / CALLS
        })
    });
    row(name, size_of::<[u32; NUMBERS]>() * wanted.looked, times, None);
}
