//! A small reader of a built file's sections, apart from both implementations: where they are cut, and what they hold.

use crate::other::crc32_by_table;

const FRONT: usize = 14;
const CRC: usize = 4;
const EVENT_FRONT: usize = 12;

/// Table, section number and number of events.
pub type Cut = (u8, u8, usize);

pub struct Section<'a> {
    pub bytes: &'a [u8],
}

impl Section<'_> {
    /// Where its events start, in the section.
    pub fn events(&self) -> Vec<usize> {
        let end = self.bytes.len() - CRC;
        let mut starts = Vec::new();
        let mut at = FRONT;
        while at < end {
            starts.push(at);
            at += EVENT_FRONT + twelve_bits(self.bytes, at + 10);
        }
        starts
    }

    pub fn cut(&self) -> Cut {
        (self.bytes[0], self.bytes[6], self.events().len())
    }
}

/// The 12 low bits of two bytes.
fn twelve_bits(bytes: &[u8], at: usize) -> usize {
    usize::from(bytes[at] & 0x0F) << 8 | usize::from(bytes[at + 1])
}

/// The length of the section that these bytes begin with.
pub fn section_length(bytes: &[u8]) -> usize {
    3 + twelve_bits(bytes, 1)
}

/// The file's sections, over each of which CRC_32 leaves 0.
pub fn sections(file: &[u8]) -> Result<Vec<Section<'_>>, String> {
    let mut sections = Vec::new();
    let mut offset = 0;
    while offset < file.len() {
        let rest = &file[offset..];
        let Some(bytes) = rest.get(..3).and_then(|front| rest.get(..section_length(front))) else {
            return Err(format!("left a section cut at offset {offset}"));
        };
        if bytes.len() < FRONT + CRC || crc32_by_table(bytes) != 0 {
            return Err(format!("left a section at offset {offset} over which CRC_32 is not 0"));
        }
        sections.push(Section { bytes });
        offset += bytes.len();
    }
    Ok(sections)
}
