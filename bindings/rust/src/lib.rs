//! Chirdaluko from Rust: safe functions on slices over the library's C face (include/chirdaluko.h), with an enum for
//! the answers of each call. Standard library only; it allocates nothing. It is a package that links the static library
//! by itself (build.rs), and this file alone can be a module: README.md, "How to link", has the commands, and
//! docs/MANUAL.md shows every call at work.
//!
//! Each call but [`place`] and [`crc32`] takes first which [`Caller`] it serves. What a call returns and leaves is
//! proved. Slices keep all that the C face asks for: pointers that are not null, lengths that are true, and written
//! buffers that overlap nothing else. Any value of any argument is taken.
//!
//! An answer that is none of a call's, an unknown number or a value that its number does not come with, panics: the
//! library is proved to return no such answer, so it is then of another version than this file, and no program could
//! go on from there. Link a library of the same major version, and of this minor version or a later one: 6.1 has no
//! `eit_chain_room`, and 6.0 no `eit_roll`. One before 6 has no `eit_rebuild`, either, and calls of the same names that
//! take and return something else, and what they do then is undefined.
//!
//! ```
//! use chirdaluko::{build, check, edit, place, read, BuildRefusal, Caller, Identity, Place, Pools, Record};
//!
//! let caller = Caller::Broadcast;
//! // PUT: id 1, at 12:45:00, for 1:45:30, no marks, no descriptors.
//! let script = [0x01, 0, 1, 0, 0, 0xB3, 0x4C, 0, 0, 0x18, 0xBA, 0, 0, 0, 0, 0, 0, 0];
//! let pools = Pools { day: &[], series: &[] };
//! let mut list = [0; 6];
//! let count = edit(caller, &mut list, 0, pools, &script).unwrap();
//! assert_eq!(count, 1);
//! // A programme at 14:30:30, when it is over, would stand behind it.
//! assert_eq!(place(&list, count, 52_230), Place { place: 1, looked: 1 });
//!
//! let identity = Identity { service_id: 1, transport_stream_id: 2, original_network_id: 3, versions: [0; 16] };
//! let mut out = [0; 200];
//! let need = build(caller, &list, count, pools, 49_273, identity, &mut []);
//! assert_eq!(need, Err(BuildRefusal::OutputShort { needed: 102 }));
//! let length = build(caller, &list, count, pools, 49_273, identity, &mut out).unwrap();
//! let file = &out[..length];
//!
//! assert_eq!(check(caller, file, 49_273).unwrap().identity, identity);
//! let mut numbers = [0; 6];
//! let reading = read(caller, file, 49_273, &mut numbers).unwrap();
//! assert_eq!(reading.count, 1);
//! let record = Record::from(numbers);
//! assert_eq!((record.id, record.start, record.duration), (1, 45_900, 6_330));
//! ```

use std::error::Error;
use std::fmt::{self, Display, Formatter};

/// Whom a call serves. The two differ in their sizes alone. Serve one with all calls that belong together, in the
/// standby generator, too: the same list can be packed otherwise for the other. What is made for cable is taken for
/// broadcast, but a list or file that is made for broadcast can be refused for cable.
#[derive(Clone, Copy, Debug, PartialEq, Eq)]
#[repr(u8)]
pub enum Caller {
    Broadcast = 0,
    Cable = 1,
}

impl Caller {
    /// Events in a list or file.
    pub const fn events_max(self) -> usize {
        match self {
            Caller::Broadcast => 2_048,
            Caller::Cable => 256,
        }
    }

    /// Bytes in a section.
    pub const fn section_max(self) -> usize {
        match self {
            Caller::Broadcast => 4_096,
            Caller::Cable => 1_024,
        }
    }

    /// Descriptor bytes of one event that a section can hold: 18 bytes are the section's own, and 12 the event's.
    pub const fn chain_max(self) -> usize {
        self.section_max() - 18 - 12
    }

    /// Bytes that hold every file: sixteen tables of 256 sections.
    pub const fn file_max(self) -> usize {
        16 * 256 * self.section_max()
    }
}

/// Numbers in a record.
pub const RECORD: usize = 6;
/// Numbers that hold every list of either caller.
pub const NUMBERS_MAX: usize = RECORD * Caller::Broadcast.events_max();
/// A record's id.
pub const ID_MAX: u32 = 65_535;
/// 64 days in seconds: a record's start is below.
pub const WINDOW_SECONDS: u32 = 5_529_600;
/// A record's duration, 99:59:59; the least is 1.
pub const DURATION_MAX: u32 = 359_999;
/// The one tag that no descriptor may have: NorDig Rules of Operation, Table 1, forbid it. docs/MANUAL.md, "Tag 0xFF",
/// says what to do about a list or file that has it.
pub const FORBIDDEN_TAG: u8 = 0xFF;
/// The last base day: a Modified Julian Date.
pub const BASE_DAY_MAX: u32 = 65_472;
/// The last version of a table; the next one is 0.
pub const VERSION_MAX: u8 = 31;
/// Tables, 0x50 to 0x5F, each with a version of its own.
pub const TABLES: usize = 16;
/// Seconds in a day.
pub const DAY_SECONDS: u32 = 86_400;
/// Seconds in a segment: three hours.
pub const SEGMENT_SECONDS: u32 = 10_800;
/// Segments in a table: four days.
pub const TABLE_SEGMENTS: usize = 32;
/// Segments in the sixteen tables.
pub const SEGMENTS: usize = 512;
/// Sections in a segment.
pub const SEGMENT_SECTIONS_MAX: usize = 8;

/// The two pools of descriptors that an event list refers to.
#[derive(Clone, Copy, Debug)]
pub struct Pools<'a> {
    pub day: &'a [u8],
    /// For records with [`Record::SERIES_POOL`].
    pub series: &'a [u8],
}

/// An event record. A list is a buffer of these as six numbers each, and a count; in a sound list each event's start +
/// duration is at most the next one's start.
#[derive(Clone, Copy, Debug, Default, PartialEq, Eq)]
pub struct Record {
    /// At most [`ID_MAX`].
    pub id: u32,
    /// Seconds after midnight UTC of the base day, below [`WINDOW_SECONDS`].
    pub start: u32,
    /// Seconds, 1 to [`DURATION_MAX`].
    pub duration: u32,
    /// A sum of the three marks, or 0.
    pub marks: u32,
    /// Where its descriptors begin in their pool.
    pub offset: u32,
    /// How many bytes they have: whole descriptors, none with [`FORBIDDEN_TAG`].
    pub chain_length: u32,
}

impl Record {
    /// A mark: free_CA_mode is 1.
    pub const FREE_CA: u32 = 1;
    /// A mark: the descriptors lie in the series pool.
    pub const SERIES_POOL: u32 = 2;
    /// A mark: running_status is 5, off air.
    pub const OFF_AIR: u32 = 4;
}

impl From<[u32; RECORD]> for Record {
    fn from([id, start, duration, marks, offset, chain_length]: [u32; RECORD]) -> Record {
        Record { id, start, duration, marks, offset, chain_length }
    }
}

impl From<Record> for [u32; RECORD] {
    fn from(record: Record) -> [u32; RECORD] {
        let Record { id, start, duration, marks, offset, chain_length } = record;
        [id, start, duration, marks, offset, chain_length]
    }
}

/// Whose schedule a file is, the same in every section, and the versions of its tables.
#[derive(Clone, Copy, Debug, Default, PartialEq, Eq)]
pub struct Identity {
    pub service_id: u16,
    pub transport_stream_id: u16,
    pub original_network_id: u16,
    /// `versions[k]` is that of table 0x50 + k, at most [`VERSION_MAX`]. Those of tables that a file does not have are
    /// 0 in what [`read`] and [`check`] return, and [`build`] looks at them, too.
    pub versions: [u8; TABLES],
}

/// The file that a rebuilt one follows, and the base day that it was made with.
#[derive(Clone, Copy, Debug)]
pub struct Previous<'a> {
    pub file: &'a [u8],
    pub base_day: u32,
}

/// The cause of a refusal in words, by its number: those of the C face's `eit_cause`.
pub fn cause(number: u32) -> &'static str {
    match number {
        0 => "success",
        1 => "the base day is above 65,472",
        2 => "a version is above 31",
        3 => "the script has an unknown command, or ends within a command's operands",
        4 => "UNDO with no edit before it that is not yet struck",
        5 => "PUT, MOVE: start, duration or marks out of range",
        6 => "PUT: the list has the id already; WITHDRAW, MOVE: it has not",
        8 => "PUT: the list is at its limit",
        9 => "PUT: the descriptors lie outside their pool, do not end where their part ends, or one has tag 0xFF",
        10 => "a segment needs a ninth section, or has an event with over 4,066 bytes of descriptors, for cable 994",
        11 => "the output is shorter than the file",
        12 => "the list is not sound",
        20 => "a section is truncated, or its table_id or section_length is out of range",
        21 => "a section's CRC_32 is wrong",
        22 => {
            "a fixed bit is wrong, last_table_id is out of range, it or the service, stream or network is not the \
             one before, or the version differs within its table"
        }
        23 => "a section is missing, doubled or out of order, or its table is past last_table_id",
        24 => "a section's events break a rule",
        25 => "the file ends before the last section of last_table_id, or is empty",
        26 => "the file has more than 2,048 events, for cable 256",
        27 => "the record buffer is shorter than six numbers for each event",
        30 => "PUT, MOVE: the event would overlap another one",
        31 => "the base day is 65,472 or more: there is none after it",
        _ => "an unknown number: no call of this version returns it",
    }
}

/// Why Edit says no. `offset` is that of the refused command's byte in the script, `count` the records that the list
/// has now.
///
/// `Unsound`, `BrokenScript` and `NothingToUndo` leave the list as it was, the others as the edits before the refused
/// one made it.
#[derive(Clone, Copy, Debug, PartialEq, Eq)]
pub enum EditRefusal {
    /// 12: the list is not sound; one descriptor with [`FORBIDDEN_TAG`] is enough, or one event that begins before the
    /// one before it ends.
    Unsound { count: usize },
    /// 3: the script has an unknown command, or ends within a command's operands.
    BrokenScript { offset: usize, count: usize },
    /// 4: UNDO with no edit before it that is not yet struck.
    NothingToUndo { offset: usize, count: usize },
    /// 5: PUT, MOVE: start, duration or marks out of range.
    OutOfRange { offset: usize, count: usize },
    /// 9: PUT: the descriptors lie outside their pool, do not end where their part ends, or one has tag 0xFF.
    NoChain { offset: usize, count: usize },
    /// 6: PUT: the list has the id already; WITHDRAW, MOVE: it has not.
    WrongId { offset: usize, count: usize },
    /// 30: PUT, MOVE: the event would overlap another one. Touching is legal, and so is a moved event's own old time.
    Overlap { offset: usize, count: usize },
    /// 8: PUT: the list is at its limit.
    ListFull { offset: usize, count: usize },
}

impl EditRefusal {
    /// The number, the value and the count that the C face returns for it.
    fn answer(self) -> (u32, usize, usize) {
        match self {
            EditRefusal::BrokenScript { offset, count } => (3, offset, count),
            EditRefusal::NothingToUndo { offset, count } => (4, offset, count),
            EditRefusal::OutOfRange { offset, count } => (5, offset, count),
            EditRefusal::WrongId { offset, count } => (6, offset, count),
            EditRefusal::ListFull { offset, count } => (8, offset, count),
            EditRefusal::NoChain { offset, count } => (9, offset, count),
            EditRefusal::Unsound { count } => (12, 0, count),
            EditRefusal::Overlap { offset, count } => (30, offset, count),
        }
    }

    pub fn number(self) -> u32 {
        self.answer().0
    }

    /// The offset of the refused command's byte; 0 for `Unsound`.
    pub fn value(self) -> usize {
        self.answer().1
    }

    /// How many records the list has now.
    pub fn count(self) -> usize {
        self.answer().2
    }
}

/// Why chain_room says no.
#[derive(Clone, Copy, Debug, PartialEq, Eq)]
pub enum ChainRoomRefusal {
    /// 12: the list is not sound; one descriptor with [`FORBIDDEN_TAG`] is enough, or one event that begins before the
    /// one before it ends.
    Unsound,
}

impl ChainRoomRefusal {
    pub fn number(self) -> u32 {
        match self {
            ChainRoomRefusal::Unsound => 12,
        }
    }

    /// 0: the cause has none.
    pub fn value(self) -> usize {
        0
    }
}

/// Why roll says no. Each leaves list, count and base day as they were.
#[derive(Clone, Copy, Debug, PartialEq, Eq)]
pub enum RollRefusal {
    /// 31: the base day is 65,472 or more: there is none after it.
    LastBaseDay,
    /// 12: the list is not sound; one descriptor with [`FORBIDDEN_TAG`] is enough, or one event that begins before the
    /// one before it ends.
    Unsound,
}

impl RollRefusal {
    pub fn number(self) -> u32 {
        match self {
            RollRefusal::Unsound => 12,
            RollRefusal::LastBaseDay => 31,
        }
    }

    /// 0: neither cause has one.
    pub fn value(self) -> usize {
        0
    }
}

/// Why Build says no. Each leaves the output as it was.
#[derive(Clone, Copy, Debug, PartialEq, Eq)]
pub enum BuildRefusal {
    /// 1: the base day is above 65,472.
    BaseDay,
    /// 2: a version is above 31, be it that of a table that the file does not have.
    Version,
    /// 12: the list is not sound; one descriptor with [`FORBIDDEN_TAG`] is enough, or one event that begins before the
    /// one before it ends.
    Unsound,
    /// 10: the lowest segment index, 0 to 511, that needs a ninth section, or has an event with over
    /// [`Caller::chain_max`] bytes of descriptors.
    Unpackable { segment: usize },
    /// 11: the output is shorter than the file, which has so many bytes.
    OutputShort { needed: usize },
}

impl BuildRefusal {
    /// The refusal with this number and value, if Build has one.
    fn of(number: u32, value: usize) -> Option<BuildRefusal> {
        let refusal = match number {
            1 => BuildRefusal::BaseDay,
            2 => BuildRefusal::Version,
            10 => BuildRefusal::Unpackable { segment: value },
            11 => BuildRefusal::OutputShort { needed: value },
            12 => BuildRefusal::Unsound,
            _ => return None,
        };
        (refusal.answer() == (number, value)).then_some(refusal)
    }

    /// The number and the value that the C face returns for it.
    fn answer(self) -> (u32, usize) {
        match self {
            BuildRefusal::BaseDay => (1, 0),
            BuildRefusal::Version => (2, 0),
            BuildRefusal::Unpackable { segment } => (10, segment),
            BuildRefusal::OutputShort { needed } => (11, needed),
            BuildRefusal::Unsound => (12, 0),
        }
    }

    pub fn number(self) -> u32 {
        self.answer().0
    }

    /// The segment index or the bytes needed; 0 where the cause has neither.
    pub fn value(self) -> usize {
        self.answer().1
    }
}

/// Why Read or check says no. `offset` is that of the section in the file. Each leaves the record buffer as it was.
#[derive(Clone, Copy, Debug, PartialEq, Eq)]
pub enum ReadRefusal {
    /// 1: the base day is above 65,472.
    BaseDay,
    /// 20: a section is truncated, or its table_id or section_length is out of range.
    Frame { offset: usize },
    /// 21: a section's CRC_32 is wrong.
    Crc { offset: usize },
    /// 22: a fixed bit is wrong, last_table_id is out of range, it or the service, stream or network is not the one
    /// before, or the version differs from that of an earlier section of its table, wherever that stood.
    Header { offset: usize },
    /// 23: a section is missing, doubled or out of order, or its table is past last_table_id.
    Numbering { offset: usize },
    /// 24: a section's events break a rule; a descriptor with [`FORBIDDEN_TAG`] does, and an event that begins before
    /// the one before it ends, in whatever section that stands.
    EventLoop { offset: usize },
    /// 26: the file has more than [`Caller::events_max`] events; the section has the first one more.
    EventLimit { offset: usize },
    /// 25: the file, of so many bytes, ends before the last section of last_table_id, or is empty.
    EarlyEnd { file_length: usize },
    /// 27: the record buffer is shorter than six numbers for each of so many events. Check never says it.
    RecordsShort { events: usize },
}

impl ReadRefusal {
    /// The refusal with this number and value, if Read has one.
    fn of(number: u32, value: usize) -> Option<ReadRefusal> {
        let refusal = match number {
            1 => ReadRefusal::BaseDay,
            20 => ReadRefusal::Frame { offset: value },
            21 => ReadRefusal::Crc { offset: value },
            22 => ReadRefusal::Header { offset: value },
            23 => ReadRefusal::Numbering { offset: value },
            24 => ReadRefusal::EventLoop { offset: value },
            25 => ReadRefusal::EarlyEnd { file_length: value },
            26 => ReadRefusal::EventLimit { offset: value },
            27 => ReadRefusal::RecordsShort { events: value },
            _ => return None,
        };
        (refusal.answer() == (number, value)).then_some(refusal)
    }

    /// The number and the value that the C face returns for it.
    fn answer(self) -> (u32, usize) {
        match self {
            ReadRefusal::BaseDay => (1, 0),
            ReadRefusal::Frame { offset } => (20, offset),
            ReadRefusal::Crc { offset } => (21, offset),
            ReadRefusal::Header { offset } => (22, offset),
            ReadRefusal::Numbering { offset } => (23, offset),
            ReadRefusal::EventLoop { offset } => (24, offset),
            ReadRefusal::EarlyEnd { file_length } => (25, file_length),
            ReadRefusal::EventLimit { offset } => (26, offset),
            ReadRefusal::RecordsShort { events } => (27, events),
        }
    }

    pub fn number(self) -> u32 {
        self.answer().0
    }

    /// The section's offset, the file's length or the number of events; 0 for `BaseDay`.
    pub fn value(self) -> usize {
        self.answer().1
    }
}

/// Why rebuild says no. Each leaves the output as it was.
#[derive(Clone, Copy, Debug, PartialEq, Eq)]
pub enum RebuildRefusal {
    /// The previous file is refused, as [`check`] refuses it: never with [`ReadRefusal::RecordsShort`].
    Previous(ReadRefusal),
    /// The previous file is accepted, and the new one cannot be built: never with [`BuildRefusal::Version`].
    Build(BuildRefusal),
}

impl RebuildRefusal {
    /// The refusal with this number and value, if rebuild has one. 1 can be about either base day, and the previous
    /// one is looked at first.
    fn of(number: u32, value: usize, previous_base_day: u32) -> Option<RebuildRefusal> {
        match number {
            1 if previous_base_day <= BASE_DAY_MAX => BuildRefusal::of(number, value).map(RebuildRefusal::Build),
            10..=12 => BuildRefusal::of(number, value).map(RebuildRefusal::Build),
            1 | 20..=26 => ReadRefusal::of(number, value).map(RebuildRefusal::Previous),
            _ => None,
        }
    }

    pub fn number(self) -> u32 {
        match self {
            RebuildRefusal::Previous(refusal) => refusal.number(),
            RebuildRefusal::Build(refusal) => refusal.number(),
        }
    }

    /// That of the previous file's or of Build's refusal.
    pub fn value(self) -> usize {
        match self {
            RebuildRefusal::Previous(refusal) => refusal.value(),
            RebuildRefusal::Build(refusal) => refusal.value(),
        }
    }
}

/// A list that was rolled: how many records it has now, and the base day that their starts count from.
#[derive(Clone, Copy, Debug, PartialEq, Eq)]
pub struct Rolled {
    pub count: usize,
    pub base_day: u32,
}

/// Where a start belongs in a list.
#[derive(Clone, Copy, Debug, PartialEq, Eq)]
pub struct Place {
    /// How many records stand before the place.
    pub place: usize,
    /// How many records are looked at: place + 1, or all of them if none has a later start.
    pub looked: usize,
}

/// What an accepted file has: how many events, and its identity.
#[derive(Clone, Copy, Debug, PartialEq, Eq)]
pub struct Reading {
    pub count: usize,
    pub identity: Identity,
}

/// What one of Plan's counts says of its segment.
#[derive(Clone, Copy, Debug, PartialEq, Eq)]
pub enum Planned {
    /// 0: outside its table's range.
    Outside,
    /// 1 to 8: so many; a segment without events has 1.
    Sections(u8),
    /// 254: the list is unsound, and every count says so.
    Unsound,
    /// 255: Build says that the segment is unpackable.
    Unpackable,
}

impl Planned {
    pub fn of(count: u8) -> Planned {
        match count {
            0 => Planned::Outside,
            1..=8 => Planned::Sections(count),
            254 => Planned::Unsound,
            255 => Planned::Unpackable,
            _ => unknown("eit_plan", count.into(), 0),
        }
    }

    pub fn number(self) -> u8 {
        match self {
            Planned::Outside => 0,
            Planned::Sections(count) => count,
            Planned::Unsound => 254,
            Planned::Unpackable => 255,
        }
    }
}

/// Carries an edit script out on a list of `count` records, in place, and returns the new count. The list can come to
/// hold as many records as its buffer has six numbers, at most [`Caller::events_max`]. Numbers that no edit changes
/// stay.
///
/// Scripts that are accepted one after the other, for one caller and with the same pools, each on the list that the one
/// before it left, are accepted as one script, joined in that order, and leave the same list. A script that is accepted
/// need not be so in parts.
pub fn edit(caller: Caller, list: &mut [u32], count: usize, pools: Pools, script: &[u8]) -> Result<usize, EditRefusal> {
    let Pools { day, series } = pools;
    // Each pointer comes with the length of its own slice, and is not null even if the slice is empty. The one slice
    // that is written overlaps no other.
    let EitEdited { number, value, count } = unsafe {
        eit_edit(
            caller,
            list.as_mut_ptr(),
            list.len(),
            count,
            day.as_ptr(),
            day.len(),
            series.as_ptr(),
            series.len(),
            script.as_ptr(),
            script.len(),
        )
    };
    let offset = value;
    let refusal = match number {
        0 if value == count => return Ok(count),
        3 => EditRefusal::BrokenScript { offset, count },
        4 => EditRefusal::NothingToUndo { offset, count },
        5 => EditRefusal::OutOfRange { offset, count },
        6 => EditRefusal::WrongId { offset, count },
        8 => EditRefusal::ListFull { offset, count },
        9 => EditRefusal::NoChain { offset, count },
        12 => EditRefusal::Unsound { count },
        30 => EditRefusal::Overlap { offset, count },
        _ => unknown("eit_edit", number, value),
    };
    if refusal.answer() != (number, value, count) {
        unknown("eit_edit", number, value);
    }
    Err(refusal)
}

/// Searches the place of a start in a list of `count` records, from the front: before the first record with a later
/// start, so behind one with the same start; behind the last record if none has a later start. Records that the buffer
/// has no six numbers for are left out. In a sound list it is the place where [`edit`] inserts a PUT of that start, and
/// the records before and at the place show whether the event would overlap another one. Whether the list is sound is
/// not looked at.
pub fn place(list: &[u32], count: usize, start: u32) -> Place {
    // As in `edit`.
    let EitPlace { place, looked } = unsafe { eit_place(list.as_ptr(), list.len(), count, start) };
    Place { place, looked }
}

/// How much text still fits: the most bytes of descriptors that one more event at `start` can have for its segment to
/// stay packable, 0 to [`Caller::chain_max`], or `None` if no event fits there. Longer descriptors do not fit, whatever
/// sections the segment's events are packed in, and everything up to the answer does. It is never 1, since no
/// descriptors have one byte. No event fits where the start is one of the list's, where it is [`WINDOW_SECONDS`] or
/// more, or where not even an event without descriptors does.
///
/// The answer is about the bytes of that segment only: not about whether [`edit`] would put the event (it may overlap
/// another one, or the list be full), nor about other segments. If the event is put, its segment is
/// [`BuildRefusal::Unpackable`] to [`build`] exactly if its descriptors have more bytes.
///
/// ```
/// use chirdaluko::{chain_room, Caller, ChainRoomRefusal, Pools, WINDOW_SECONDS};
///
/// let pools = Pools { day: &[], series: &[] };
/// // A film from 19:00:00 to 21:00:00; one more at 21:00:00 can have as many bytes as a section holds.
/// let list = [1, 68_400, 7_200, 0, 0, 0];
/// assert_eq!(chain_room(Caller::Broadcast, &list, 1, pools, 75_600), Ok(Some(4_066)));
/// assert_eq!(chain_room(Caller::Cable, &list, 1, pools, 75_600), Ok(Some(994)));
/// // The start is taken; it is past the last segment.
/// assert_eq!(chain_room(Caller::Broadcast, &list, 1, pools, 68_400), Ok(None));
/// assert_eq!(chain_room(Caller::Broadcast, &list, 1, pools, WINDOW_SECONDS), Ok(None));
///
/// // The buffer has no two records.
/// assert_eq!(chain_room(Caller::Broadcast, &list, 2, pools, 75_600), Err(ChainRoomRefusal::Unsound));
/// ```
pub fn chain_room(
    caller: Caller,
    list: &[u32],
    count: usize,
    pools: Pools,
    start: u32,
) -> Result<Option<usize>, ChainRoomRefusal> {
    let Pools { day, series } = pools;
    // As in `edit`.
    let EitRoom { number, fits, length } = unsafe {
        eit_chain_room(
            caller,
            list.as_ptr(),
            list.len(),
            count,
            day.as_ptr(),
            day.len(),
            series.as_ptr(),
            series.len(),
            start,
        )
    };
    let length = length as usize;
    match (number, fits) {
        (0, 1) if length != 1 && length <= caller.chain_max() => Ok(Some(length)),
        (0, 0) if length == 0 => Ok(None),
        (12, 0) if length == 0 => Err(ChainRoomRefusal::Unsound),
        _ => unknown("eit_chain_room", number, length),
    }
}

/// Moves a list of `count` records to the next base day, in place, as a generator does at midnight. Records that start
/// on the base day, below [`DAY_SECONDS`], leave, even if their programme runs over midnight. The others stay in
/// their order, each with [`DAY_SECONDS`] taken off its start, so that every event that stays keeps its date and time.
/// The records from the new count to the old one become zeros, and the numbers behind them stay.
///
/// A sound list stays sound. A list that [`build`] writes before a roll is never [`BuildRefusal::Unpackable`] after it,
/// and the k-th section of a segment then holds the same event bytes as the k-th of the segment eight indexes later did
/// before.
///
/// ```
/// use chirdaluko::{roll, Caller, Pools, RollRefusal, Rolled};
///
/// let caller = Caller::Broadcast;
/// let pools = Pools { day: &[], series: &[] };
/// // At 23:30:00 for an hour, so over midnight; at 01:00:00 of the next day for an hour; and a number behind the list.
/// let mut list = [1, 84_600, 3_600, 0, 0, 0, 2, 90_000, 3_600, 0, 0, 0, 7];
/// assert_eq!(roll(caller, &mut list, 2, pools, 49_273), Ok(Rolled { count: 1, base_day: 49_274 }));
/// assert_eq!(list, [2, 3_600, 3_600, 0, 0, 0, 0, 0, 0, 0, 0, 0, 7]);
///
/// assert_eq!(roll(caller, &mut list, 1, pools, 65_472), Err(RollRefusal::LastBaseDay));
/// ```
pub fn roll(
    caller: Caller,
    list: &mut [u32],
    count: usize,
    pools: Pools,
    base_day: u32,
) -> Result<Rolled, RollRefusal> {
    let Pools { day, series } = pools;
    // As in `edit`.
    let said = unsafe {
        eit_roll(
            caller,
            list.as_mut_ptr(),
            list.len(),
            count,
            day.as_ptr(),
            day.len(),
            series.as_ptr(),
            series.len(),
            base_day,
        )
    };
    let EitRolled { number, value, .. } = said;
    let outcome = match number {
        0 => Ok(Rolled { count: value.min(count), base_day: base_day.saturating_add(1) }),
        12 => Err(RollRefusal::Unsound),
        31 => Err(RollRefusal::LastBaseDay),
        _ => unknown("eit_roll", number, value),
    };
    // A refusal leaves what was given.
    let left = outcome.unwrap_or(Rolled { count, base_day });
    if (value, said.count, said.base_day) != (outcome.map_or(0, |rolled| rolled.count), left.count, left.base_day) {
        unknown("eit_roll", number, value);
    }
    outcome
}

/// Writes the file of sections of a list of `count` records to the front of `out`, and returns the file's length. The
/// bytes behind the file stay. [`Caller::file_max`] bytes are always enough.
pub fn build(
    caller: Caller,
    list: &[u32],
    count: usize,
    pools: Pools,
    base_day: u32,
    identity: Identity,
    out: &mut [u8],
) -> Result<usize, BuildRefusal> {
    let Pools { day, series } = pools;
    // As in `edit`.
    let EitBuilt { number, value } = unsafe {
        eit_build(
            caller,
            list.as_ptr(),
            list.len(),
            count,
            day.as_ptr(),
            day.len(),
            series.as_ptr(),
            series.len(),
            base_day,
            identity.service_id,
            identity.transport_stream_id,
            identity.original_network_id,
            &identity.versions,
            out.as_mut_ptr(),
            out.len(),
        )
    };
    match number {
        0 => Ok(value),
        _ => Err(BuildRefusal::of(number, value).unwrap_or_else(|| unknown("eit_build", number, value))),
    }
}

/// Build after a change: writes the file of a new list to the front of `out`, under the previous file's service, stream
/// and network, and returns its length. A table of which all bytes but version and CRC_32 are the previous file's keeps
/// its version; another one has the old version plus 1, after [`VERSION_MAX`] it is 0; a table that the previous file
/// lacks has version 0. last_table_id is among the bytes: where it changes, every table has a new version. All else is
/// as [`build`] writes it, and the bytes behind the file stay. A pool may be the previous file.
///
/// ```
/// use chirdaluko::{build, check, rebuild, BuildRefusal, Caller, Identity, Pools, Previous};
/// use chirdaluko::{ReadRefusal, RebuildRefusal};
///
/// let (caller, base_day) = (Caller::Broadcast, 49_273);
/// let pools = Pools { day: &[], series: &[] };
/// // Two programmes of a minute: on the first day, in table 0x50, and on the fifth, in table 0x51.
/// let mut list = [1, 0, 60, 0, 0, 0, 2, 345_600, 60, 0, 0, 0];
/// let mut versions = [0; 16];
/// (versions[0], versions[1]) = (7, 31);
/// let identity = Identity { service_id: 1, transport_stream_id: 2, original_network_id: 3, versions };
/// let mut on_air = [0; 60];
/// assert_eq!(build(caller, &list, 2, pools, base_day, identity, &mut on_air), Ok(60));
///
/// // The second is to last a second more: its table alone has a new version.
/// list[8] = 61;
/// let mut out = [0; 60];
/// let previous = Previous { file: &on_air, base_day };
/// assert_eq!(rebuild(caller, previous, &list, 2, pools, base_day, &mut out), Ok(60));
/// versions[1] = 0;
/// assert_eq!(check(caller, &out, base_day).unwrap().identity, Identity { versions, ..identity });
///
/// let said = rebuild(caller, previous, &list, 2, pools, base_day, &mut []);
/// assert_eq!(said, Err(RebuildRefusal::Build(BuildRefusal::OutputShort { needed: 60 })));
/// let truncated = Previous { file: &on_air[..59], base_day };
/// let said = rebuild(caller, truncated, &list, 2, pools, base_day, &mut out);
/// assert_eq!(said, Err(RebuildRefusal::Previous(ReadRefusal::Frame { offset: 30 })));
/// ```
pub fn rebuild(
    caller: Caller,
    previous: Previous,
    list: &[u32],
    count: usize,
    pools: Pools,
    base_day: u32,
    out: &mut [u8],
) -> Result<usize, RebuildRefusal> {
    let Pools { day, series } = pools;
    // As in `edit`.
    let EitBuilt { number, value } = unsafe {
        eit_rebuild(
            caller,
            previous.file.as_ptr(),
            previous.file.len(),
            previous.base_day,
            list.as_ptr(),
            list.len(),
            count,
            day.as_ptr(),
            day.len(),
            series.as_ptr(),
            series.len(),
            base_day,
            out.as_mut_ptr(),
            out.len(),
        )
    };
    let refusal = || RebuildRefusal::of(number, value, previous.base_day);
    match number {
        0 => Ok(value),
        _ => Err(refusal().unwrap_or_else(|| unknown("eit_rebuild", number, value))),
    }
}

/// Writes how many sections Build makes of each segment: the 32 segments of table 0x50, then those of 0x51, up to 0x5F.
/// [`Planned::of`] tells what a count says.
pub fn plan(caller: Caller, list: &[u32], count: usize, pools: Pools, counts: &mut [u8; SEGMENTS]) {
    let Pools { day, series } = pools;
    // As in `edit`; the length of the counts is in their type.
    unsafe {
        eit_plan(
            caller,
            list.as_ptr(),
            list.len(),
            count,
            day.as_ptr(),
            day.len(),
            series.as_ptr(),
            series.len(),
            counts,
        )
    }
}

/// Reads a file of sections into `records`, six numbers for each event. They are a sound list with the file as day
/// pool. The numbers behind them stay. [`NUMBERS_MAX`] numbers are always enough.
pub fn read(caller: Caller, file: &[u8], base_day: u32, records: &mut [u32]) -> Result<Reading, ReadRefusal> {
    // As in `edit`.
    reading("eit_read", unsafe {
        eit_read(caller, file.as_ptr(), file.len(), base_day, records.as_mut_ptr(), records.len())
    })
}

/// Read without a record buffer: it writes nothing, and never says [`ReadRefusal::RecordsShort`].
pub fn check(caller: Caller, file: &[u8], base_day: u32) -> Result<Reading, ReadRefusal> {
    // As in `edit`.
    reading("eit_check", unsafe { eit_check(caller, file.as_ptr(), file.len(), base_day) })
}

/// CRC_32 as sections have it; over a whole section it is 0.
pub fn crc32(bytes: &[u8]) -> u32 {
    // As in `edit`.
    unsafe { eit_crc32(bytes.as_ptr(), bytes.len()) }
}

fn reading(call: &str, said: EitReading) -> Result<Reading, ReadRefusal> {
    let EitReading { number, value, count, service_id, transport_stream_id, original_network_id, versions } = said;
    let identity = Identity { service_id, transport_stream_id, original_network_id, versions };
    if number == 0 && value == count {
        return Ok(Reading { count, identity });
    }
    match ReadRefusal::of(number, value) {
        Some(ReadRefusal::RecordsShort { .. }) if call != "eit_read" => unknown(call, number, value),
        Some(refusal) if (count, identity) == (0, Identity::default()) => Err(refusal),
        _ => unknown(call, number, value),
    }
}

fn unknown(call: &str, number: u32, value: usize) -> ! {
    panic!("the Rust wrapper does not know the answer {number} {value} of {call}: the library is of another version")
}

/// The number, its cause in words, and what the value means.
impl Display for EditRefusal {
    fn fmt(&self, to: &mut Formatter) -> fmt::Result {
        let (number, offset, count) = self.answer();
        write!(to, "refused {number}: {}", cause(number))?;
        match self {
            EditRefusal::Unsound { .. } => Ok(()),
            _ => write!(to, " (command at offset {offset}, {count} records held)"),
        }
    }
}

/// The number, and its cause in words.
impl Display for ChainRoomRefusal {
    fn fmt(&self, to: &mut Formatter) -> fmt::Result {
        write!(to, "refused {}: {}", self.number(), cause(self.number()))
    }
}

/// The number, and its cause in words.
impl Display for RollRefusal {
    fn fmt(&self, to: &mut Formatter) -> fmt::Result {
        write!(to, "refused {}: {}", self.number(), cause(self.number()))
    }
}

/// The number, its cause in words, and what the value means.
impl Display for BuildRefusal {
    fn fmt(&self, to: &mut Formatter) -> fmt::Result {
        write!(to, "refused {}: {}", self.number(), cause(self.number()))?;
        match self {
            BuildRefusal::BaseDay | BuildRefusal::Version | BuildRefusal::Unsound => Ok(()),
            BuildRefusal::Unpackable { segment } => write!(to, " (segment {segment})"),
            BuildRefusal::OutputShort { needed } => write!(to, " ({needed} bytes needed)"),
        }
    }
}

/// The number, its cause in words, and what the value means.
impl Display for ReadRefusal {
    fn fmt(&self, to: &mut Formatter) -> fmt::Result {
        write!(to, "refused {}: {}", self.number(), cause(self.number()))?;
        match self {
            ReadRefusal::BaseDay => Ok(()),
            ReadRefusal::EarlyEnd { file_length } => write!(to, " (the file has {file_length} bytes)"),
            ReadRefusal::RecordsShort { events } => write!(to, " ({events} events)"),
            _ => write!(to, " (section at offset {})", self.value()),
        }
    }
}

/// Whether it is about the previous file, and then as the refusal of Read or Build is displayed.
impl Display for RebuildRefusal {
    fn fmt(&self, to: &mut Formatter) -> fmt::Result {
        match self {
            RebuildRefusal::Previous(refusal) => write!(to, "previous file {refusal}"),
            RebuildRefusal::Build(refusal) => write!(to, "{refusal}"),
        }
    }
}

impl Error for EditRefusal {}
impl Error for ChainRoomRefusal {}
impl Error for RollRefusal {}
impl Error for BuildRefusal {}
impl Error for ReadRefusal {}
impl Error for RebuildRefusal {}

#[repr(C)]
struct EitEdited {
    number: u32,
    value: usize,
    count: usize,
}

#[repr(C)]
struct EitPlace {
    place: usize,
    looked: usize,
}

#[repr(C)]
struct EitRoom {
    number: u32,
    fits: u32,
    length: u32,
}

#[repr(C)]
struct EitRolled {
    number: u32,
    value: usize,
    count: usize,
    base_day: u32,
}

#[repr(C)]
struct EitBuilt {
    number: u32,
    value: usize,
}

#[repr(C)]
struct EitReading {
    number: u32,
    value: usize,
    count: usize,
    service_id: u16,
    transport_stream_id: u16,
    original_network_id: u16,
    versions: [u8; TABLES],
}

extern "C" {
    fn eit_edit(
        caller: Caller,
        list: *mut u32,
        list_length: usize,
        count: usize,
        day: *const u8,
        day_length: usize,
        series: *const u8,
        series_length: usize,
        script: *const u8,
        script_length: usize,
    ) -> EitEdited;

    fn eit_place(list: *const u32, list_length: usize, count: usize, start: u32) -> EitPlace;

    fn eit_chain_room(
        caller: Caller,
        list: *const u32,
        list_length: usize,
        count: usize,
        day: *const u8,
        day_length: usize,
        series: *const u8,
        series_length: usize,
        start: u32,
    ) -> EitRoom;

    fn eit_roll(
        caller: Caller,
        list: *mut u32,
        list_length: usize,
        count: usize,
        day: *const u8,
        day_length: usize,
        series: *const u8,
        series_length: usize,
        base_day: u32,
    ) -> EitRolled;

    fn eit_build(
        caller: Caller,
        list: *const u32,
        list_length: usize,
        count: usize,
        day: *const u8,
        day_length: usize,
        series: *const u8,
        series_length: usize,
        base_day: u32,
        service_id: u16,
        transport_stream_id: u16,
        original_network_id: u16,
        versions: *const [u8; TABLES],
        out: *mut u8,
        out_length: usize,
    ) -> EitBuilt;

    fn eit_rebuild(
        caller: Caller,
        previous: *const u8,
        previous_length: usize,
        previous_base_day: u32,
        list: *const u32,
        list_length: usize,
        count: usize,
        day: *const u8,
        day_length: usize,
        series: *const u8,
        series_length: usize,
        base_day: u32,
        out: *mut u8,
        out_length: usize,
    ) -> EitBuilt;

    fn eit_plan(
        caller: Caller,
        list: *const u32,
        list_length: usize,
        count: usize,
        day: *const u8,
        day_length: usize,
        series: *const u8,
        series_length: usize,
        plan: *mut [u8; SEGMENTS],
    );

    fn eit_read(
        caller: Caller,
        file: *const u8,
        file_length: usize,
        base_day: u32,
        records: *mut u32,
        records_length: usize,
    ) -> EitReading;

    fn eit_check(caller: Caller, file: *const u8, file_length: usize, base_day: u32) -> EitReading;

    fn eit_crc32(bytes: *const u8, bytes_length: usize) -> u32;
}
