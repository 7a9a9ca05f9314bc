//! Read, with a record buffer and without: 01, "Build, Read" and "When a call says no", and 02, W-204, W-206 and W-208.

use super::before::Before;
use super::caller::{Caller, Sizes};
use super::event::NUMBERS;
use super::received::{frame, Frame, Received};
use super::rules::{Rule, RULES, RUNNING_STATUS_OFF_AIR};
use super::section::Identity;

const BASE_DAY_MAX: u32 = 65_472;
const FREE_CA_MODE: u32 = 1;
const OFF_AIR: u32 = 4;

const BASE_DAY_ABOVE: u32 = 1;
const SECTION_CUT: u32 = 20;
const ENDS_EARLY: u32 = 25;
const RECORDS_SHORT: u32 = 27;

/// 01's number and value, and of an accepted file the count of its events and its identity.
#[derive(Clone, Copy, Debug, PartialEq)]
pub struct Reading {
    pub number: u32,
    pub value: usize,
    pub count: usize,
    pub identity: Identity,
}

/// The caller's sizes, how a section is found, and what is asked of it.
pub struct Asked<'a> {
    pub sizes: fn(Caller) -> Sizes,
    pub frame: Frame,
    pub rules: &'a [Rule],
}

/// What an accepted file carries.
struct Carried {
    identity: Identity,
    records: Vec<[u32; NUMBERS]>,
}

pub const READ_PAPERS: Asked = Asked { sizes: Caller::sizes, frame, rules: &RULES };

pub fn read(caller: Caller, file: &[u8], base_day: u32, buffer: &mut [u32]) -> Reading {
    read_by(&READ_PAPERS, caller, file, base_day, buffer)
}

/// Read without a record buffer.
pub fn check(caller: Caller, file: &[u8], base_day: u32) -> Reading {
    check_by(&READ_PAPERS, caller, file, base_day)
}

/// Read by other rules than the papers': the self-check's faults have their own.
pub fn read_by(asked: &Asked, caller: Caller, file: &[u8], base_day: u32, buffer: &mut [u32]) -> Reading {
    match carried(asked, caller, file, base_day) {
        Ok(carried) => {
            let count = carried.records.len();
            let Some(front) = buffer.get_mut(..NUMBERS * count) else {
                return refused(RECORDS_SHORT, count);
            };
            front.copy_from_slice(carried.records.as_flattened());
            accepted(&carried)
        }
        Err((number, value)) => refused(number, value),
    }
}

/// The same without a record buffer.
pub fn check_by(asked: &Asked, caller: Caller, file: &[u8], base_day: u32) -> Reading {
    match carried(asked, caller, file, base_day) {
        Ok(carried) => accepted(&carried),
        Err((number, value)) => refused(number, value),
    }
}

fn accepted(carried: &Carried) -> Reading {
    let count = carried.records.len();
    Reading { number: 0, value: count, count, identity: carried.identity }
}

/// A refusal, which returns no count and no identity.
pub fn refused(number: u32, value: usize) -> Reading {
    Reading { number, value, count: 0, identity: Identity::default() }
}

/// What the file carries, or number and value of its refusal.
fn carried(asked: &Asked, caller: Caller, file: &[u8], base_day: u32) -> Result<Carried, (u32, usize)> {
    if base_day > BASE_DAY_MAX {
        return Err((BASE_DAY_ABOVE, 0));
    }
    let sizes = (asked.sizes)(caller);
    let mut before = Before::new(sizes);
    let mut records = Vec::new();
    let mut offset = 0;
    while offset < file.len() {
        let bytes = (asked.frame)(sizes, &file[offset..]).ok_or((SECTION_CUT, offset))?;
        let section = Received::new(bytes, base_day);
        if let Some(broken) = asked.rules.iter().find(|rule| !(rule.holds)(&section, &before)) {
            return Err((broken.number, offset));
        }
        records.extend(section_records(&section, offset));
        before.push(&section);
        offset += bytes.len();
    }
    match before.section {
        Some((triplet, _)) if before.is_end() => {
            // 02, W-208: "Read gives 0 for absent tables."
            let versions = before.versions.map(|version| version.unwrap_or(0));
            Ok(Carried { identity: Identity { triplet, versions }, records })
        }
        _ => Err((ENDS_EARLY, file.len())),
    }
}

/// The records of the events of the section that stands at this offset.
fn section_records<'a>(section: &'a Received, offset: usize) -> impl Iterator<Item = [u32; NUMBERS]> + 'a {
    section.events.iter().map(move |event| {
        let off_air = if event.running_status == RUNNING_STATUS_OFF_AIR { OFF_AIR } else { 0 };
        let free_ca = if event.free_ca { FREE_CA_MODE } else { 0 };
        let chain_at = offset + event.chain_at;
        let length = event.chain.len() as u32;
        [event.id.into(), event.start as u32, event.duration, off_air | free_ca, chain_at as u32, length]
    })
}
