//! The worked list from file to file: the versions that each one has, and two sections that show why they rise.

use crate::chirdaluko::{build, edit, Pools, Record, RECORD};
use crate::inputs::{put, shift, withdraw};
use crate::rebuilt::{identity, on_air, rebuilt_with, seal, versions_of, ROOM};
use crate::schedule::{self, BASE_DAY, CALLER, DAY, HOUR};
use crate::sections;

/// The schedule that changes, and its files so far, each with what it is.
struct Worked {
    list: [u32; 5 * RECORD],
    count: usize,
    day: Vec<u8>,
    series: Vec<u8>,
    files: Vec<(&'static str, Vec<u8>)>,
}

impl Worked {
    /// The worked list, built with versions 30 and 31. Behind the day pool's title stand two more.
    fn new() -> Worked {
        let day = [schedule::title("News"), schedule::title("Film"), schedule::title("Opera")].concat();
        let mut worked = Worked { list: [0; 30], count: 0, day, series: schedule::series_pool(), files: Vec::new() };
        worked.edit(&schedule::script().bytes);
        let mut out = vec![0; ROOM];
        let length = build(CALLER, &worked.list, worked.count, worked.pools(), BASE_DAY, identity(&[30, 31]), &mut out);
        out.truncate(length.expect("a list that can be packed"));
        worked.files.push(("Build: the example's list, versions 30 and 31", out));
        worked
    }

    fn pools(&self) -> Pools<'_> {
        Pools { day: &self.day, series: &self.series }
    }

    fn edit(&mut self, script: &[u8]) {
        let pools = Pools { day: &self.day, series: &self.series };
        let said = edit(CALLER, &mut self.list, self.count, pools, script);
        self.count = said.expect("a script that is carried out");
    }

    /// Edits the list, and rebuilds its file from the one before.
    fn rebuild(&mut self, what: &'static str, script: &[u8]) {
        self.edit(script);
        let list = &self.list[..RECORD * self.count];
        let file = rebuilt_with(CALLER, on_air(self.last()), list, self.pools(), BASE_DAY).expect("a rebuilt file");
        self.files.push((what, file));
    }

    fn last(&self) -> &[u8] {
        &self.files.last().expect("a file").1
    }
}

/// The files in their order; numbers 4 and 5, before and after event 5 is put, are shown by `first_sections`, too.
fn files() -> Vec<(&'static str, Vec<u8>)> {
    let mut worked = Worked::new();
    worked.rebuild("rebuild: the same list", &[]);
    assert_eq!(worked.files[0].1, worked.files[1].1, "the same bytes");
    let titled = |id, start, duration, offset, chain_length| {
        let record = Record { id, start, duration, marks: 0, offset, chain_length };
        [withdraw(id as u16), put(record)].concat()
    };
    let fourth = 4 * DAY + 6 * HOUR + HOUR / 2;
    worked.rebuild("rebuild: event 4, in table 0x51, gets a title", &titled(4, fourth, HOUR, 11, 11));
    worked.rebuild("rebuild: event 4 has another title", &titled(4, fourth, HOUR, 22, 12));
    worked.rebuild("rebuild: event 1, in table 0x50, has another title", &titled(1, 45_900, 6_330, 11, 11));
    let fifth = Record { id: 5, start: 8 * DAY, duration: HOUR, ..Record::default() };
    worked.rebuild("rebuild: event 5 is put, in table 0x52", &put(fifth));
    worked.rebuild("rebuild: event 5 is moved to table 0x51", &shift(5, fourth + HOUR));
    let recut = two_sections(worked.last());
    worked.files.push(("another generator's: events 4 and 5 apart", recut));
    worked.rebuild("rebuild: the same list", &[]);
    worked.files
}

/// The file with its last section, of two events, in two.
fn two_sections(file: &[u8]) -> Vec<u8> {
    let sections = sections::of(file);
    let &(_, last) = sections.last().expect("a section");
    let (table, number) = (last[0], last[6]);
    let (header, events) = last[..last.len() - 4].split_at(14);
    let (first, second) = events.split_at(12 + usize::from(events[11]));
    let with = |number: u8, events: &[u8]| {
        let mut section = [header, events, &[0; 4]].concat();
        section[2] = section.len() as u8 - 3;
        section[6] = number;
        section
    };
    let front = sections[..sections.len() - 1].iter().map(|(_, section)| section.to_vec());
    let mut recut: Vec<_> = front.chain([with(number, first), with(number + 1, second)]).collect();
    for section in recut.iter_mut().filter(|section| section[0] == table) {
        section[7] += 1;
        if section[6] >= number {
            section[12] = number + 1;
        }
        seal(section);
    }
    recut.concat()
}

/// A line for each file: its length, and the versions of its tables.
pub fn rows() -> Vec<String> {
    let line = |what: &str, length: &str, versions: &[String]| {
        let versions: String = versions.iter().map(|version| format!("{version:<6}")).collect();
        format!("{what:<52}{length:<7}{versions}").trim_end().to_string()
    };
    let mut lines = vec![line("file", "bytes", &["0x50", "0x51", "0x52"].map(str::to_string))];
    for (what, file) in files() {
        let versions: Vec<_> = versions_of(CALLER, &file, BASE_DAY).iter().map(u8::to_string).collect();
        lines.push(line(what, &file.len().to_string(), &versions));
    }
    lines
}

/// The first section of the files before and after event 5 is put: all bytes.
pub fn first_sections() -> Vec<String> {
    let files = files();
    let line = |when: &str, (_, file): &(&str, Vec<u8>)| {
        let bytes: Vec<_> = file[..18].iter().map(|byte| format!("{byte:02X}")).collect();
        let (version, last_table) = (file[5] >> 1 & 31, file[13]);
        format!("{when:<8}{}  version {version}, last_table_id 0x{last_table:02X}", bytes.join(" "))
    };
    vec![line("before", &files[4]), line("after", &files[5])]
}
