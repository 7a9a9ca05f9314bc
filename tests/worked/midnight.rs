//! A roll at midnight with a file on air: the list, its plan and its sections before it and after it, and the versions
//! of the files from midnight to midnight.

use crate::chirdaluko::{build, plan, roll, Pools, Previous, Record, Rolled, RECORD, SEGMENTS};
use crate::inputs::numbers;
use crate::rebuilt::{identity, rebuilt_with, versions_of, ROOM};
use crate::schedule::{self, BASE_DAY, CALLER, DAY, HOUR};
use crate::sections;

/// How often the list is rolled: once more than it takes to empty it.
const ROLLS: usize = 11;

/// A list, the base day that its starts count from, and the file that is on air.
struct Night {
    list: Vec<u32>,
    count: usize,
    base_day: u32,
    file: Vec<u8>,
}

/// The pools, and the list from midnight to midnight.
pub struct Worked {
    day: Vec<u8>,
    series: Vec<u8>,
    nights: Vec<Night>,
}

/// Two events of the base day, of which the second runs over midnight; two that share the series' descriptors; one at
/// midnight; and one of table 0x52.
fn records() -> [Record; 7] {
    let untitled = Record { duration: HOUR, ..Record::default() };
    let (news, film) = (Record { chain_length: 11, ..untitled }, Record { offset: 11, chain_length: 11, ..untitled });
    let series = Record { marks: Record::SERIES_POOL, chain_length: 2_100, ..untitled };
    [
        Record { id: 1, start: 20 * HOUR, ..news },
        Record { id: 2, start: 23 * HOUR, duration: HOUR + HOUR / 2, ..film },
        Record { id: 3, start: DAY + HOUR / 2, duration: HOUR / 2, ..news },
        Record { id: 4, start: DAY + 18 * HOUR, ..series },
        Record { id: 5, start: DAY + 19 * HOUR, ..series },
        Record { id: 6, start: 2 * DAY, ..untitled },
        Record { id: 7, start: 9 * DAY + 9 * HOUR, ..film },
    ]
}

impl Worked {
    /// The list, built with version 3 in each table, then rolled and rebuilt again and again.
    pub fn new() -> Worked {
        let day = [schedule::title("News"), schedule::title("Film")].concat();
        let mut worked = Worked { day, series: schedule::series_pool(), nights: Vec::new() };
        let (list, count) = (numbers(&records()), records().len());
        let mut file = vec![0; ROOM];
        let length = build(CALLER, &list, count, worked.pools(), BASE_DAY, identity(&[3, 3, 3]), &mut file);
        file.truncate(length.expect("a list that can be packed"));
        worked.nights.push(Night { list, count, base_day: BASE_DAY, file });
        for _ in 0..ROLLS {
            let next = worked.next();
            worked.nights.push(next);
        }
        worked
    }

    fn pools(&self) -> Pools<'_> {
        Pools { day: &self.day, series: &self.series }
    }

    /// Rolls the last list, and rebuilds its file from the one on air.
    fn next(&self) -> Night {
        let Night { list, count, base_day, file } = self.nights.last().expect("a night");
        let mut list = list.clone();
        let previous = Previous { file, base_day: *base_day };
        let rolled = roll(CALLER, &mut list, *count, self.pools(), *base_day);
        let Rolled { count, base_day } = rolled.expect("a list that is rolled");
        let file = rebuilt_with(CALLER, previous, &list[..RECORD * count], self.pools(), base_day);
        Night { list, count, base_day, file: file.expect("a rebuilt file") }
    }

    /// What stands before the first roll and after it.
    fn first(&self) -> [(&'static str, &Night); 2] {
        [("before", &self.nights[0]), ("after", &self.nights[1])]
    }

    /// All records of the buffer, those that became zeros, too.
    pub fn lists(&self) -> Vec<String> {
        let lines = |(when, night): (&str, &Night)| {
            let head = format!("{when}: {} records, base day {}", night.count, night.base_day);
            [vec![head], schedule::rows(&night.list)].concat()
        };
        self.first().map(lines).concat()
    }

    pub fn plans(&self) -> Vec<String> {
        let lines = |(when, night): (&str, &Night)| {
            let mut counts = [0; SEGMENTS];
            plan(CALLER, &night.list, night.count, self.pools(), &mut counts);
            let rows = schedule::plan_rows(&counts).into_iter().enumerate();
            rows.map(|(place, row)| format!("{:<8}{row}", if place == 0 { when } else { "" })).collect::<Vec<_>>()
        };
        self.first().map(lines).concat()
    }

    /// A line for each section with events before the roll, and beside it the one after the roll that has the same
    /// event bytes, if its segment stays.
    pub fn sections(&self) -> Vec<String> {
        let [before, after] = self.first().map(|(_, night)| sections::with_events(&night.file));
        let (leaving, staying) = before.split_at(before.iter().take_while(|(index, ..)| *index < 8).count());
        assert!(staying.iter().map(|&(index, k, bytes)| (index - 8, k, bytes)).eq(after.iter().copied()));
        let cells = |&(index, k, bytes): &(usize, usize, &[u8])| {
            let (table, number) = (0x50 + index / 32, index % 32 * 8 + k);
            format!("{index:<7}0x{table:02X}   {number:<9}{:<11}", bytes.len())
        };
        let head = "index  table  section  event bytes".to_string();
        let mut lines = vec![format!("{:<37}after", "before"), format!("{head}   {head}")];
        lines.extend(leaving.iter().map(cells));
        lines.extend(staying.iter().zip(&after).map(|(was, is)| format!("{}   {}", cells(was), cells(is))));
        lines.iter().map(|line| line.trim_end().to_string()).collect()
    }

    /// All bytes of the section with event 6: its header, the event, and CRC_32.
    pub fn moved_section(&self) -> Vec<String> {
        let line = |(when, night): (&str, &Night)| {
            let sections = sections::of(&night.file);
            let is_sixth = |(_, section): &&(usize, &[u8])| section.len() == 30 && section[14..16] == [0, 6];
            let (_, section) = sections.iter().find(is_sixth).expect("the section");
            let digits = |bytes: &[u8]| bytes.iter().map(|byte| format!("{byte:02X}")).collect::<Vec<_>>().join(" ");
            format!("{when:<8}{}  {}  {}", digits(&section[..14]), digits(&section[14..26]), digits(&section[26..]))
        };
        self.first().map(line).to_vec()
    }

    /// A line for each file: its base day, how many events it has, its length, and the versions of its tables.
    pub fn versions(&self) -> Vec<String> {
        let line = |base_day: &str, events: &str, length: &str, versions: &[String]| {
            let versions: String = versions.iter().map(|version| format!("{version:<6}")).collect();
            format!("{base_day:<10}{events:<8}{length:<7}{versions}").trim_end().to_string()
        };
        let mut lines = vec![line("base day", "events", "bytes", &["0x50", "0x51", "0x52"].map(str::to_string))];
        for Night { count, base_day, file, .. } in &self.nights {
            let versions: Vec<_> = versions_of(CALLER, file, *base_day).iter().map(u8::to_string).collect();
            lines.push(line(&base_day.to_string(), &count.to_string(), &file.len().to_string(), &versions));
        }
        let [.., last, same] = &self.nights[..] else { panic!("two nights at least") };
        assert!(last.count == 0 && last.file == same.file, "the last roll changes the base day alone");
        lines
    }
}
