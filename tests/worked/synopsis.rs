//! The descriptors of a synopsis: a short_event_descriptor with the name and the text's first bytes, and behind it
//! extended_event_descriptors without items. A line for each descriptor, and for each of some answers of chain_room.

use crate::chirdaluko::{edit, plan, Caller, Pools, Record, SEGMENTS};
use crate::inputs::{event, numbers, put};
use crate::CALLERS;

/// A name of 13 bytes.
pub const NAME: &str = "The Last Tram";

/// Bytes of name and text in a short_event_descriptor, and of text in an extended_event_descriptor, at most.
const SHORT: usize = 250;
const EXTENDED: usize = 249;

/// The descriptors of a name and so many bytes of text.
pub fn chain(name: &str, text: usize) -> Vec<u8> {
    let text: Vec<u8> = b"Synopsis. ".iter().copied().cycle().take(text).collect();
    let (first, rest) = text.split_at(text.len().min(SHORT - name.len()));
    let mut chain = vec![0x4D, (5 + name.len() + first.len()) as u8];
    chain.extend([b"eng", &[name.len() as u8][..], name.as_bytes(), &[first.len() as u8], first].concat());
    let parts: Vec<_> = rest.chunks(EXTENDED).collect();
    for (number, part) in parts.iter().enumerate() {
        let numbers = (number << 4 | (parts.len() - 1)) as u8;
        chain.extend([0x4E, (6 + part.len()) as u8, numbers]);
        chain.extend([b"eng", &[0, part.len() as u8][..], part].concat());
    }
    chain
}

/// The descriptors one by one, each with its offset.
fn descriptors(chain: &[u8]) -> Vec<(usize, &[u8])> {
    let mut descriptors = Vec::new();
    let mut offset = 0;
    while offset < chain.len() {
        let next = offset + 2 + usize::from(chain[offset + 1]);
        descriptors.push((offset, &chain[offset..next]));
        offset = next;
    }
    descriptors
}

/// A line for each descriptor: its bytes but for name and text, and how many bytes of text it has.
pub fn lines(chain: &[u8]) -> Vec<String> {
    let line = |offset: &str, bytes: &str, but_text: &str, text: &str| {
        format!("{offset:<8}{bytes:<7}{but_text:<38}{text}").trim_end().to_string()
    };
    let digits = |bytes: &[u8]| bytes.iter().map(|byte| format!("{byte:02X}")).collect::<Vec<_>>().join(" ");
    let mut lines = vec![line("offset", "bytes", "its bytes but the text", "text")];
    for (offset, descriptor) in descriptors(chain) {
        let (but_text, text) = match descriptor[0] {
            0x4D => {
                let behind = 6 + usize::from(descriptor[5]);
                let name = String::from_utf8_lossy(&descriptor[6..behind]);
                (format!("{} \"{name}\" {:02X}", digits(&descriptor[..6]), descriptor[behind]), descriptor[behind])
            }
            _ => (digits(&descriptor[..8]), descriptor[7]),
        };
        lines.push(line(&offset.to_string(), &descriptor.len().to_string(), &but_text, &text.to_string()));
    }
    lines
}

/// The most text that so many bytes of descriptors hold beside a name.
pub fn text_in(name: &str, answer: usize) -> usize {
    let fits = |text: &usize| chain(name, *text).len() <= answer;
    (0..answer).rev().find(fits).expect("the name fits")
}

/// A line for each of some answers: the most text beside a name of 13 bytes, and the descriptors that have it.
pub fn answers() -> Vec<String> {
    thousand_characters();
    let line =
        |answer: &str, text: &str, extended: &str, bytes: &str| format!("{answer:<8}{text:<6}{extended:<6}{bytes}");
    let mut lines = vec![line("answer", "text", "0x4E", "bytes taken")];
    for answer in [20, 100, 257, 265, 266, 514, 523, 994, 4_066] {
        let text = text_in(NAME, answer);
        let held = chain(NAME, text);
        assert!(CALLERS.iter().all(|&caller| is_chain(caller, &held)));
        let extended = descriptors(&held).iter().filter(|(_, descriptor)| descriptor[0] == 0x4E).count();
        assert!(extended <= 16, "a number of four bits for each");
        lines.push(line(&answer.to_string(), &text.to_string(), &extended.to_string(), &held.len().to_string()));
    }
    lines
}

/// Eight events of one segment with 1,000 bytes of text each.
fn thousand_characters() {
    let day = chain(NAME, 1_000);
    assert_eq!((NAME.len(), day.len()), (13, 1_052));
    let records: Vec<_> = (0..8).map(|id| Record { chain_length: 1_052, ..event(id, 60 * id) }).collect();
    let counts = |caller| {
        let mut counts = [0; SEGMENTS];
        plan(caller, &numbers(&records), 8, Pools { day: &day, series: &[] }, &mut counts);
        counts[0]
    };
    assert_eq!(CALLERS.map(counts), [3, 255]);
    assert!(day.len() > Caller::Cable.chain_max());
}

/// Whether Edit takes the bytes as an event's descriptors.
fn is_chain(caller: Caller, bytes: &[u8]) -> bool {
    let record = Record { chain_length: bytes.len() as u32, ..event(1, 0) };
    edit(caller, &mut [0; 6], 0, Pools { day: bytes, series: &[] }, &put(record)) == Ok(1)
}
