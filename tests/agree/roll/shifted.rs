//! What the sections of a file hold, and whether those after a roll hold what those before it did, by a comparison
//! apart from both implementations: 02, W-205.

use crate::build::sections;

/// Sections of a segment, segments of a table, and all segments.
const SECTIONS_MAX: usize = 8;
const TABLE_SEGMENTS: usize = 32;
const SEGMENTS: usize = 512;

/// A day has so many segments.
pub const DAY_SEGMENTS: usize = 8;

// What a section has in front of its events and behind them.
const FRONT: usize = 14;
const CRC: usize = 4;

/// The event bytes of every section that a file can have, empty for those that it has not.
pub struct Held<'a> {
    /// By table and section_number.
    tables: Vec<[&'a [u8]; 256]>,
}

impl<'a> Held<'a> {
    pub fn of(file: &'a [u8]) -> Result<Held<'a>, String> {
        let mut tables = vec![[&[][..]; 256]; SEGMENTS / TABLE_SEGMENTS];
        for section in sections(file)? {
            let bytes = section.bytes;
            let table = usize::from(bytes[0]).checked_sub(0x50).and_then(|table| tables.get_mut(table));
            let table = table.ok_or_else(|| format!("left a section with table_id {}", bytes[0]))?;
            table[usize::from(bytes[6])] = &bytes[FRONT..bytes.len() - CRC];
        }
        Ok(Held { tables })
    }

    /// Those of the k-th section of the segment with this index, counted from 0; past 511 none.
    pub fn section(&self, index: usize, k: usize) -> &'a [u8] {
        let table = self.tables.get(index / TABLE_SEGMENTS);
        table.map_or(&[], |table| table[SECTIONS_MAX * (index % TABLE_SEGMENTS) + k])
    }

    /// How many sections of the segment with this index have events.
    pub fn sections(&self, index: usize) -> usize {
        (0..SECTIONS_MAX).filter(|k| !self.section(index, *k).is_empty()).count()
    }

    /// Each section holds what the one eight indexes later did before; or else which one does not.
    pub fn is_of_day_after(&self, before: &Held) -> Result<(), String> {
        for index in 0..SEGMENTS {
            for k in 0..SECTIONS_MAX {
                let (now, was) = (self.section(index, k), before.section(index + DAY_SEGMENTS, k));
                if now != was {
                    let first = now.iter().zip(was).take_while(|(now, was)| now == was).count();
                    return Err(format!(
                        "left section {k} of segment {index} with {} bytes of events, and that of segment {} had {}; \
                         they differ from byte {first} on",
                        now.len(),
                        index + DAY_SEGMENTS,
                        was.len(),
                    ));
                }
            }
        }
        Ok(())
    }
}
