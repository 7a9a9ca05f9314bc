//! Places that were found by hand.

use super::comparison::Comparison;
use super::shapes::with_starts;
use crate::other::Place;

/// Starts of a list; then starts to be placed, each with its place and how many records are looked at.
type Known = (&'static [u32], &'static [(u32, usize, usize)]);

const LISTS: [Known; 9] = [
    (&[], &[(0, 0, 0), (1, 0, 0), (u32::MAX, 0, 0)]),
    (&[7], &[(0, 0, 1), (6, 0, 1), (7, 1, 1), (8, 1, 1), (u32::MAX, 1, 1)]),
    (&[10, 20, 30], &[(9, 0, 1), (10, 1, 2), (11, 1, 2), (19, 1, 2), (20, 2, 3), (29, 2, 3), (30, 3, 3), (31, 3, 3)]),
    // Behind an equal start, and behind all of several.
    (&[10, 20, 20, 20, 30], &[(10, 1, 2), (19, 1, 2), (20, 4, 5), (21, 4, 5), (30, 5, 5)]),
    (&[5, 5, 5], &[(4, 0, 1), (5, 3, 3), (6, 3, 3)]),
    // Not sorted: the first later one counts, whatever stands behind it.
    (&[30, 20, 10], &[(5, 0, 1), (10, 0, 1), (29, 0, 1), (30, 3, 3), (31, 3, 3)]),
    (&[10, 40, 20, 30], &[(9, 0, 1), (10, 1, 2), (20, 1, 2), (30, 1, 2), (39, 1, 2), (40, 4, 4)]),
    (&[20, 10, 30, 5], &[(10, 0, 1), (19, 0, 1), (20, 2, 3), (29, 2, 3), (30, 4, 4)]),
    // The ends of the range, and of its halves.
    (
        &[0, 0x7FFF_FFFF, 0x8000_0000, u32::MAX],
        &[
            (0, 1, 2),
            (0x7FFF_FFFE, 1, 2),
            (0x7FFF_FFFF, 2, 3),
            (0x8000_0000, 3, 4),
            (u32::MAX - 1, 3, 4),
            (u32::MAX, 4, 4),
        ],
    ),
];

pub fn run(comparison: &mut Comparison) -> Result<(), String> {
    let random = &mut comparison.begin("known");
    for (starts, answers) in LISTS {
        let list = with_starts(random, starts, 0);
        for (start, place, looked) in answers {
            comparison.finds(Place { place: *place, looked: *looked }, &list, *start)?;
        }
    }
    Ok(())
}
