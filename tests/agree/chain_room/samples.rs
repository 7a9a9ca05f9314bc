//! How much text still fits, in raw numbers: 02, W-201 and W-206.

use super::case::Case;
use super::comparison::Comparison;
use crate::lineup::Lineup;
use crate::other::Caller;
use crate::random::Random;

/// What it is, the starts and chain lengths of the list's events, the start, and what fits.
type Sample = (&'static str, &'static [(u32, usize)], u32, Option<usize>);

/// Seven events with the longest chain that a section of the caller holds.
const SEVEN: [(u32, usize); 7] =
    [(0, 4_066), (10, 4_066), (20, 4_066), (30, 4_066), (40, 4_066), (50, 4_066), (60, 4_066)];
const SEVEN_CABLE: [(u32, usize); 7] = [(0, 994), (10, 994), (20, 994), (30, 994), (40, 994), (50, 994), (60, 994)];

const BROADCAST: [Sample; 17] = [
    ("no events", &[], 0, Some(4_066)),
    ("no events, the window's last second", &[], 5_529_599, Some(4_066)),
    ("no events, past the last segment", &[], 5_529_600, None),
    ("no events, the highest number", &[], u32::MAX, None),
    ("taken", &[(68_400, 0)], 68_400, None),
    ("the second before", &[(68_400, 0)], 68_399, Some(4_066)),
    ("the second behind", &[(68_400, 0)], 68_401, Some(4_066)),
    ("the window's last second, taken", &[(5_529_599, 0)], 5_529_599, None),
    ("a full section", &[(0, 4_066)], 1, Some(4_066)),
    ("a chain too long", &[(0, 4_067)], 1, None),
    ("a chain too long in the segment before", &[(10_799, 4_067)], 10_800, Some(4_066)),
    ("a chain too long in the next segment", &[(10_800, 4_067)], 10_799, Some(4_066)),
    ("behind seven", &SEVEN, 70, Some(4_066)),
    ("before seven", &SEVEN, 1, Some(4_066)),
    ("in another segment than seven", &SEVEN, 21_600, Some(4_066)),
    ("a taken start among seven", &SEVEN, 30, None),
    ("past the last segment, behind seven", &SEVEN, 5_529_600, None),
];

const CABLE: [Sample; 10] = [
    ("no events", &[], 0, Some(994)),
    ("no events, the window's last second", &[], 5_529_599, Some(994)),
    ("no events, past the last segment", &[], 5_529_600, None),
    ("taken", &[(68_400, 0)], 68_400, None),
    ("a full section", &[(0, 994)], 1, Some(994)),
    ("a chain too long", &[(0, 995)], 1, None),
    ("a chain too long in the segment before", &[(10_799, 995)], 10_800, Some(994)),
    ("behind seven", &SEVEN_CABLE, 70, Some(994)),
    ("a taken start among seven", &SEVEN_CABLE, 30, None),
    ("past the last segment, behind seven", &SEVEN_CABLE, 5_529_600, None),
];

/// The chain of an event that takes half of a section.
const HALF: usize = 2_027;
const HALF_CABLE: usize = 491;

/// The chain length of an eighth event behind seven, and what fits behind it and before it. With 4,053 bytes 13 are
/// left: 0 and not 1.
const EIGHTH: [(usize, Option<usize>); 6] =
    [(4_066, None), (4_055, None), (4_054, Some(0)), (4_053, Some(0)), (4_052, Some(2)), (4_051, Some(3))];
const EIGHTH_CABLE: [(usize, Option<usize>); 6] =
    [(994, None), (983, None), (982, Some(0)), (981, Some(0)), (980, Some(2)), (979, Some(3))];

pub fn run(comparison: &mut Comparison) -> Result<(), String> {
    let random = &mut comparison.groups.begin("samples");
    let (samples, seven, eighth, half) = match comparison.caller {
        Caller::Broadcast => (&BROADCAST[..], SEVEN, EIGHTH, HALF),
        Caller::Cable => (&CABLE[..], SEVEN_CABLE, EIGHTH_CABLE, HALF_CABLE),
    };
    for (name, events, start, length) in samples {
        one(comparison, random, events, *start, *length).map_err(|fault| format!("{name}: {fault}"))?;
    }
    for (eighth, length) in eighth {
        let events = [&seven[..], &[(70, eighth)]].concat();
        for start in [69, 71] {
            one(comparison, random, &events, start, length)
                .map_err(|fault| format!("an eighth with {eighth} bytes: {fault}"))?;
        }
        // In no other section are bytes left.
        one(comparison, random, &events, 55, None).map_err(|fault| format!("amid seven: {fault}"))?;
    }
    let nine = [&seven[..], &[(70, seven[0].1), (80, 0)]].concat();
    for start in [5, 75, 90] {
        one(comparison, random, &nine, start, None).map_err(|fault| format!("nine: {fault}"))?;
    }
    // The new event takes the sixteenth half, wherever it stands: those behind it go on by one.
    let halves: Vec<_> = (0..15).map(|place| (10 * place, half)).collect();
    for start in [5, 15, 75, 135, 145] {
        one(comparison, random, &halves, start, Some(half)).map_err(|fault| format!("fifteen halves: {fault}"))?;
    }
    Ok(())
}

fn one(
    comparison: &mut Comparison,
    random: &mut Random,
    events: &[(u32, usize)],
    start: u32,
    length: Option<usize>,
) -> Result<(), String> {
    let mut lineup = Lineup::new();
    for (start, length) in events {
        lineup.event(random, *start, *length);
    }
    let (pools, list) = &lineup.lend(random);
    comparison.gives(length, Case { pools, list, start })
}
