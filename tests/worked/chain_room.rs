//! A film channel's evening for cable: the list, what chain_room says by the start and by what else changes, and the
//! file with as much text as fits.

use crate::chirdaluko::{build, chain_room, check, edit, read, Caller, Pools, Record, RECORD};
use crate::inputs::{numbers, put, shift, withdraw};
use crate::lines::{clock, said};
use crate::schedule::{self, BASE_DAY, HOUR, IDENTITY};
use crate::sections;
use crate::synopsis::{self, NAME};

const CALLER: Caller = Caller::Cable;
const MINUTE: u32 = 60;

/// The id of the film whose text is still to be written.
const FILM: usize = 9;

/// Start and duration in minutes, name, and bytes of text, of events 1 to 11.
const EVENING: [(u32, u32, &str, usize); 11] = [
    (990, 90, "The Night Ferry", 640),
    (1_080, 20, "Low Tide", 760),
    (1_100, 25, "Paper Boats", 670),
    (1_125, 25, "The Clockmaker", 580),
    (1_150, 20, "Snow in April", 860),
    (1_170, 25, "Two Stations", 480),
    (1_195, 15, "The Inspector", 890),
    (1_210, 15, "Harbour Lights", 280),
    (1_225, 25, NAME, 0),
    (1_250, 10, "Coming up", 140),
    (1_260, 100, "The Lighthouse", 900),
];

/// The records, and the day pool with their descriptors one behind the other.
struct Evening {
    records: Vec<Record>,
    day: Vec<u8>,
}

impl Evening {
    /// With so many bytes of text for each event.
    fn with(texts: [usize; 11]) -> Evening {
        let mut evening = Evening { records: Vec::new(), day: Vec::new() };
        for (place, (start, duration, name, _)) in EVENING.into_iter().enumerate() {
            let chain = synopsis::chain(name, texts[place]);
            evening.records.push(Record {
                id: place as u32 + 1,
                start: MINUTE * start,
                duration: MINUTE * duration,
                marks: 0,
                offset: evening.day.len() as u32,
                chain_length: chain.len() as u32,
            });
            evening.day.extend(chain);
        }
        evening
    }

    fn pools(&self) -> Pools<'_> {
        Pools { day: &self.day, series: &[] }
    }

    /// The list once these commands are carried out.
    fn edited(&self, commands: &[Vec<u8>]) -> Vec<u32> {
        let mut list = numbers(&self.records);
        let count = edit(CALLER, &mut list, self.records.len(), self.pools(), &commands.concat());
        list.truncate(RECORD * count.expect("a script that is carried out"));
        list
    }

    /// What chain_room says of a start, once these commands are carried out: none, or the bytes.
    fn room(&self, caller: Caller, commands: &[Vec<u8>], start: u32) -> Option<usize> {
        let list = self.edited(commands);
        chain_room(caller, &list, list.len() / RECORD, self.pools(), start).expect("a sound list")
    }
}

fn texts() -> [usize; 11] {
    EVENING.map(|(.., text)| text)
}

fn film() -> Record {
    Evening::with(texts()).records[FILM - 1]
}

/// The event is withdrawn in the copy.
fn without() -> Vec<u8> {
    withdraw(FILM as u16)
}

pub fn list() -> Vec<String> {
    schedule::rows(&numbers(&Evening::with(texts()).records))
}

fn in_words(room: Option<usize>) -> String {
    room.map_or("none".to_string(), |length| length.to_string())
}

/// A line for each of some starts.
pub fn starts() -> Vec<String> {
    let evening = Evening::with(texts());
    let line = |start: &str, time: &str, cable: &str, broadcast: &str, what: &str| {
        format!("{start:<9}{time:<10}{cable:<7}{broadcast:<11}{what}").trim_end().to_string()
    };
    let mut lines = vec![line("start", "time", "cable", "broadcast", "where it is")];
    for (start, what) in [
        (18 * HOUR, "the start of event 2"),
        (18 * HOUR + 10 * MINUTE, "within event 2"),
        (film().start, "the start of event 9, which is withdrawn"),
        (20 * HOUR + 55 * MINUTE, "within event 10"),
        (21 * HOUR, "the start of event 11"),
        (23 * HOUR, "behind all events"),
        (5_529_599, "the last start"),
        (5_529_600, "past the last segment"),
    ] {
        let [cable, broadcast] =
            [CALLER, Caller::Broadcast].map(|caller| in_words(evening.room(caller, &[without()], start)));
        let time = if start < schedule::DAY { clock(start) } else { String::new() };
        lines.push(line(&start.to_string(), &time, &cable, &broadcast, what));
    }
    lines
}

/// A line for each thing that could change beside the film.
pub fn changes() -> Vec<String> {
    let with = |event: usize, text| {
        let mut texts = texts();
        texts[event - 1] = text;
        Evening::with(texts)
    };
    let evening = Evening::with(texts());
    let room = |evening: &Evening, commands: &[Vec<u8>]| {
        let commands = [&[without()], commands].concat();
        in_words(evening.room(CALLER, &commands, film().start))
    };
    let lines = [
        ("event 9 is withdrawn", room(&evening, &[])),
        ("and event 1, at 16:30, has its title alone", room(&with(1, 0), &[])),
        ("and event 11, at 21:00, is withdrawn", room(&evening, &[withdraw(11)])),
        ("and event 2 has 660 bytes of text, not 760", room(&with(2, 660), &[])),
        ("and event 2 has 250 bytes of text", room(&with(2, 250), &[])),
        ("and event 10 has 40 bytes of text, not 140", room(&with(10, 40), &[])),
        ("and event 10 has its title alone", room(&with(10, 0), &[])),
        ("and event 10 is moved to 23:00", room(&evening, &[shift(10, 23 * HOUR)])),
    ];
    let line = |what: &str, answer: &str| format!("{what:<45}{answer}");
    let head = line("the list", "answer for 20:25");
    [head].into_iter().chain(lines.iter().map(|(what, answer)| line(what, answer))).collect()
}

/// How much text the film can have by the answer.
fn most_text() -> usize {
    let room = Evening::with(texts()).room(CALLER, &[without()], film().start);
    synopsis::text_in(NAME, room.expect("an event that fits"))
}

/// The descriptors with as much text as fits, which take all the bytes of the answer.
pub fn descriptors() -> Vec<String> {
    let chain = synopsis::chain(NAME, most_text());
    assert_eq!(Evening::with(texts()).room(CALLER, &[without()], film().start), Some(chain.len()));
    synopsis::lines(&chain)
}

/// The evening with so much text for the film behind all other descriptors, and the script that gives it to the film.
fn replaced(text: usize) -> (Evening, [Vec<u8>; 2]) {
    let mut evening = Evening::with(texts());
    let chain = synopsis::chain(NAME, text);
    let record = Record { offset: evening.day.len() as u32, chain_length: chain.len() as u32, ..film() };
    evening.day.extend(chain);
    (evening, [without(), put(record)])
}

/// A line for as much text as fits, and one for a byte more.
pub fn replacements() -> Vec<String> {
    let line = |text: &str, bytes: &str, edited: &str, built: &str| format!("{text:<6}{bytes:<13}{edited:<9}{built}");
    let mut lines = vec![line("text", "descriptors", "Edit", "Build")];
    for text in [most_text(), most_text() + 1] {
        let (evening, commands) = replaced(text);
        let mut list = numbers(&evening.records);
        let edited = said!(edit(CALLER, &mut list, evening.records.len(), evening.pools(), &commands.concat()));
        let built =
            said!(build(CALLER, &list, evening.records.len(), evening.pools(), BASE_DAY, IDENTITY, &mut [0; 65_536]));
        let bytes = synopsis::chain(NAME, text).len();
        lines.push(line(&text.to_string(), &bytes.to_string(), &edited, &built));
    }
    lines
}

/// The cuts of the file with as much text as fits, and how many bytes of events each section has.
pub fn cuts() -> Vec<String> {
    let (evening, commands) = replaced(most_text());
    let list = evening.edited(&commands);
    let mut file = vec![0; 65_536];
    let length = build(CALLER, &list, list.len() / RECORD, evening.pools(), BASE_DAY, IDENTITY, &mut file);
    file.truncate(length.expect("a list that can be packed"));
    check(CALLER, &file, BASE_DAY).expect("a file that is accepted");
    let mut records = [0; EVENING.len() * RECORD];
    read(CALLER, &file, BASE_DAY, &mut records).expect("a file that is accepted");
    let cuts = sections::cuts(&file, &records);
    let bytes = sections::of(&file).into_iter().map(|(_, section)| (section.len() - 18).to_string());
    let column = ["event bytes".to_string()].into_iter().chain(bytes);
    let mut lines: Vec<_> = cuts.iter().zip(column).map(|(cut, bytes)| format!("{cut} {bytes}")).collect();
    lines.push(format!("bytes {}", file.len()));
    lines
}
