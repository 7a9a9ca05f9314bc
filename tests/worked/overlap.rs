//! What the calls say of a film and of the news behind it, which begin at 18:00:00, by the film's end.

use crate::chirdaluko::{build, check, edit, plan, read, Caller, Record, SEGMENTS};
use crate::edit_details::NO_POOLS;
use crate::inputs::{event, numbers, put, shift, withdraw};
use crate::lines::said;
use crate::schedule::{BASE_DAY, IDENTITY};
use crate::sections::{self, section};

const HOUR: u32 = 3_600;

/// A line for each call, with what it says by the film's end.
pub fn lines(caller: Caller) -> Vec<String> {
    let line = |call: &str, touching: &str, overlapping: &str| format!("{call:<49}{touching:<10}{overlapping}");
    let mut lines = vec![line("call", "18:00:00", "18:00:01")];
    for ((call, touching), (_, overlapping)) in answers(caller, 0).iter().zip(answers(caller, 1)) {
        lines.push(line(call, touching, &overlapping));
    }
    lines
}

/// The film begins at 16:00:00, and ends so many seconds after 18:00:00.
fn answers(caller: Caller, seconds: u8) -> [(&'static str, String); 8] {
    let film = Record { duration: 2 * HOUR + u32::from(seconds), ..event(1, 16 * HOUR) };
    let news = Record { duration: HOUR / 4, ..event(2, 18 * HOUR) };
    let later = Record { start: 19 * HOUR, ..news };
    let edited = |script: &[Vec<u8>]| said!(edit(caller, &mut [0; 12], 0, NO_POOLS, &script.concat()));

    let mut list = numbers(&[film, news]);
    let mut counts = [0; SEGMENTS];
    plan(caller, &list, 2, NO_POOLS, &mut counts);
    let file = file(seconds);
    let mut out = vec![0; file.len()];
    let built = build(caller, &list, 2, NO_POOLS, BASE_DAY, IDENTITY, &mut out);
    assert!(built.is_err() || out == file, "Build writes the file that is read");
    [
        ("Edit: PUT of the film, PUT of the news", edited(&[put(film), put(news)])),
        ("Edit: PUT of the news, PUT of the film", edited(&[put(news), put(film)])),
        ("Edit: MOVE of the news to 18:00, after two PUTs", edited(&[put(film), put(later), shift(2, news.start)])),
        ("Plan of a list that has both: the first count", counts[0].to_string()),
        ("Build of the list", said!(built)),
        ("Edit of the list: WITHDRAW of the film", said!(edit(caller, &mut list, 2, NO_POOLS, &withdraw(1)))),
        ("check of a file, the news in section 48", said!(check(caller, &file, BASE_DAY))),
        ("Read of the file", said!(read(caller, &file, BASE_DAY, &mut [0; 12]))),
    ]
}

/// The file of the two events, put together by hand: five sections without events, then one for each.
fn file(seconds: u8) -> Vec<u8> {
    let mut file: Vec<_> = (0..5).map(|segment| section([0x50, 8 * segment, 8 * segment, 48, 0x50], &[])).collect();
    let lasting = |mut event: Vec<u8>, duration: [u8; 3]| {
        event[7..10].copy_from_slice(&duration);
        [event]
    };
    let film = lasting(sections::event(1, 0x16, 0x00), [0x02, 0x00, seconds]);
    let news = lasting(sections::event(2, 0x18, 0x00), [0x00, 0x15, 0x00]);
    file.push(section([0x50, 40, 40, 48, 0x50], &film));
    file.push(section([0x50, 48, 48, 48, 0x50], &news));
    file.concat()
}
