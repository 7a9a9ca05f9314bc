//! What a rebuilt file is to be: Build's, under versions that a comparison of the tables gives.

use super::case::Case;
use super::comparison::Comparison;
use super::fates::{self, Fate, Fates};
use crate::other::{self, Built, Identity, Triplet};
use crate::read::File;
use crate::tally::{each_kind, Kind};

const TABLE: &str = "a table";
const KEPT: &str = "kept";
const RAISED: &str = "raised";
const RAISED_TO_0: &str = "raised from 31 to 0";
const NEW: &str = "not there before";
const GONE: &str = "not there any more";

/// A file that was rebuilt, and what became of each table.
pub struct Rebuilt {
    pub file: Vec<u8>,
    pub fates: Fates,
}

pub fn kinds() -> Vec<Kind> {
    each_kind(TABLE, [KEPT, RAISED, RAISED_TO_0, NEW, GONE])
}

impl Comparison<'_> {
    /// The previous file is accepted. In an output that is just long enough the new one is as Build writes it under the
    /// previous service, stream and network, with the versions that a comparison of the tables gives. Nothing if Build
    /// refuses the list.
    pub fn rebuilt(&mut self, case: Case) -> Result<Option<Rebuilt>, String> {
        let Some(draft) = self.built(case, [0; 16]) else {
            self.alike(case)?;
            return Ok(None);
        };
        let previous = File::of(case.previous.file, case.previous.base_day);
        let fates = fates::fates(&previous, &File::of(&draft, case.base_day));
        let versions = fates::versions(&previous, fates);
        let wanted = self.built(case, versions);
        let case = Case { room: draft.len(), ..case };
        let (built, file) = self.alike(case)?;
        if built.number != 0 || Some(&file) != wanted.as_ref() {
            let fault =
                format!("answered {built:?}, and left another file than Build does under versions {versions:?}");
            return Err(self.describe(&fault, case));
        }
        self.count(&previous, fates);
        Ok(Some(Rebuilt { file, fates }))
    }

    /// The same, and what becomes of the tables is what the input was made for.
    pub fn rebuilt_with(&mut self, wanted: Fates, case: Case) -> Result<Vec<u8>, String> {
        let fault = match self.rebuilt(case)? {
            Some(Rebuilt { file, fates }) if fates == wanted => return Ok(file),
            Some(Rebuilt { fates, .. }) => format!("left tables {fates:?}; the input is made for {wanted:?}"),
            None => "refused the list; the input is made to be packable".to_string(),
        };
        Err(self.describe(&fault, case))
    }

    /// What Build writes under the previous service, stream and network and these versions, unless it refuses the list.
    fn built(&self, case: Case, versions: [u8; 16]) -> Option<Vec<u8>> {
        let lent = case.lent(&case.list.numbers);
        let identity = Identity { triplet: triplet(case.previous.file), versions };
        let build = |output: &mut [u8]| other::build(self.caller, &lent, case.base_day, identity, output);
        let Built { number: 11, value: need } = build(&mut []) else {
            return None;
        };
        let mut output = vec![0; need];
        build(&mut output);
        Some(output)
    }

    fn count(&mut self, previous: &File, fates: Fates) {
        for (table, fate) in fates.into_iter().enumerate() {
            let kind = match fate {
                Fate::Absent => continue,
                Fate::Kept => KEPT,
                Fate::Raised if fates::version(previous, table) == 31 => RAISED_TO_0,
                Fate::Raised => RAISED,
                Fate::New => NEW,
                Fate::Gone => GONE,
            };
            self.tally.kind((TABLE, kind));
        }
    }
}

/// That of the first section of a file.
fn triplet(file: &[u8]) -> Triplet {
    let id = |at: usize| u16::from_be_bytes([file[at], file[at + 1]]);
    Triplet { service_id: id(3), transport_stream_id: id(8), original_network_id: id(10) }
}
