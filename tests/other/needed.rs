//! How many sections, each with so many bytes for events, hold events of these bytes in this order: at the fewest of all
//! packings (02, W-201), and by the packing rule (01, "Build, Read"). Nothing if an event is too long for a section.

/// Looks at every packing: the last section of the first events may begin at every place from which on it holds the
/// rest of them.
pub fn fewest_sections(room: usize, events: &[usize]) -> Option<usize> {
    // For the first events, by how many they are.
    let mut fewest: Vec<Option<usize>> = vec![None; events.len() + 1];
    fewest[0] = Some(0);
    for end in 1..=events.len() {
        let mut bytes = 0;
        for first in (0..end).rev() {
            bytes += events[first];
            if bytes > room {
                break;
            }
            if let Some(before) = fewest[first] {
                fewest[end] = Some(fewest[end].map_or(before + 1, |fewest| fewest.min(before + 1)));
            }
        }
    }
    fewest[events.len()]
}

/// Each section takes as many of the next events as fit.
pub fn filled_sections(room: usize, events: &[usize]) -> Option<usize> {
    let mut sections = 1;
    let mut left = room;
    for bytes in events {
        if *bytes > left {
            sections += 1;
            left = room;
        }
        left = left.checked_sub(*bytes)?;
    }
    Some(sections)
}
