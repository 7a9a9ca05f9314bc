//! Files with an event to be changed.

use super::comparison::Comparison;
use super::file::File;
use super::given::Given;
use super::layout::rival;
use crate::build::BASE_DAY_MAX;
use crate::other::Caller;
use crate::random::Random;

/// Segments of so many events each, by segment index.
const FILES: [&[(usize, usize)]; 5] =
    [&[(0, 1)], &[(0, 4), (2, 3)], &[(7, 3), (8, 2)], &[(31, 3), (32, 6), (40, 1)], &[(511, 5)]];

/// Rivals' files under the least base day, one between and the last.
pub fn files(caller: Caller, random: &mut Random) -> Vec<File> {
    let mut files = Vec::new();
    for segments in FILES {
        for base_day in [0, 49_273, BASE_DAY_MAX] {
            let mut given = Given::short(caller, random, segments);
            given.base_day = base_day;
            files.push(rival(random, &given));
        }
    }
    files
}

/// An event of a file that is accepted.
pub struct Victim<'a, 'b> {
    pub comparison: &'a mut Comparison<'b>,
    pub file: &'a File,
    pub place: usize,
    pub event: usize,
}

impl<'a, 'b> Victim<'a, 'b> {
    /// Some event of the file.
    pub fn new(comparison: &'a mut Comparison<'b>, random: &mut Random, file: &'a File) -> Victim<'a, 'b> {
        let (place, event) = random.pick(&file.all_events());
        Victim { comparison, file, place, event }
    }

    pub fn refused(&mut self, change: impl FnOnce(&mut [u8], usize)) -> Result<(), String> {
        let changed = self.file.with(self.place, |section| change(section, self.event));
        self.comparison.refused(24, self.place, &changed)
    }

    pub fn accepted(&mut self, change: impl FnOnce(&mut [u8], usize)) -> Result<(), String> {
        self.comparison.accepted(&self.file.with(self.place, |section| change(section, self.event)))
    }
}
