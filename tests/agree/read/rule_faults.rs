//! Faults of what Read asks of a section: the other implementation with other rules stands in for the library.

use super::{overlap_faults, version_faults};
use crate::other::{frame, frame_within, Before, Caller, Frame, IsChain, Received, Rule, Sizes, RULES, TABLE_IDS};
use crate::wrong_chains;
use std::collections::HashSet;

/// The order of the checks that can change places: 20 finds the section.
const ORDER: [u32; 5] = [21, 22, 23, 24, 26];

/// Faults of the caller's sizes, for 20 and 26.
pub const SIZES: [(&str, fn(Caller) -> Sizes); 4] = [
    ("takes the other caller's sections", |caller| Sizes { section: caller.other().sizes().section, ..caller.sizes() }),
    ("takes the other caller's events", |caller| Sizes { events: caller.other().sizes().events, ..caller.sizes() }),
    ("takes an event too many", |caller| Sizes { events: caller.sizes().events + 1, ..caller.sizes() }),
    ("does not take the last event", |caller| Sizes { events: caller.sizes().events - 1, ..caller.sizes() }),
];

pub const FRAMES: [(&str, Frame); 7] = [
    ("takes table_id 0x4F", |sizes, bytes| frame_within(0x4F..=0x5F, sizes.section_lengths(), bytes)),
    ("takes table_id 0x60", |sizes, bytes| frame_within(0x50..=0x60, sizes.section_lengths(), bytes)),
    ("takes a section a byte too short", |sizes, bytes| frame_within(TABLE_IDS, 14..=sizes.section - 3, bytes)),
    ("takes a section a byte too long", |sizes, bytes| frame_within(TABLE_IDS, 15..=sizes.section - 2, bytes)),
    ("takes no section of the caller's size", |sizes, bytes| frame_within(TABLE_IDS, 15..=sizes.section - 4, bytes)),
    ("says 20 for bits that are not 1111", |sizes, bytes| {
        frame(sizes, bytes).filter(|section| section[1] >> 4 == 0b1111)
    }),
    ("takes a section that is cut", |sizes, bytes| frame(sizes, bytes).or((bytes.len() >= 18).then_some(bytes))),
];

/// What a fault asks, and the rule in whose place it does.
pub type Replaced = (&'static str, &'static str, fn(&Received, &Before) -> bool);

const REPLACED: [Replaced; 24] = [
    ("takes any bits before the version but 00", "bits 11", |section, _| section.bytes[5] >> 6 != 0),
    ("takes last_table_ids below 0x50", "last_table_id in range", |section, _| section.header.last_table_id < 0x60),
    ("takes last_table_ids above 0x5F", "last_table_id in range", |section, _| section.header.last_table_id > 0x4F),
    ("compares L inside a segment alone", "one L in a table", |section, before| {
        section.header.section_number % 8 == 0 || before.has(section, |_, header| header.last_section_number)
    }),
    ("takes G up to s0 + 8", "G <= s0 + 7", |section, _| {
        section.header.segment_last_section_number <= (section.header.section_number | 7).saturating_add(1)
    }),
    ("takes L of s0 + 7", "G = L or L >= s0 + 8", |section, _| {
        section.header.segment_last_section_number == section.header.last_section_number
            || section.header.last_section_number >= section.header.section_number | 7
    }),
    ("takes an empty section if S = G", "without events, alone in its segment", |section, _| {
        !section.events.is_empty() || section.header.segment_last_section_number == section.header.section_number
    }),
    ("takes an empty section if S = s0", "without events, alone in its segment", |section, _| {
        !section.events.is_empty() || section.header.section_number % 8 == 0
    }),
    ("takes 24 for an hour of the day", "hours of starts", |section, _| {
        section.events.iter().all(|event| event.start_digits[0] <= 0x24)
    }),
    ("looks at every other digit of a start", "digits of starts", |section, _| {
        section.events.iter().all(|event| event.start_digits.iter().all(|two| two >> 4 <= 9))
    }),
    ("takes running_status 4", "running_status 0 or 5", |section, _| {
        section.events.iter().all(|event| [0, 4, 5].contains(&event.running_status))
    }),
    ("takes one byte for a chain", "chains", |section, _| {
        section
            .events
            .iter()
            .all(|event| event.chain.get(1).is_none_or(|length| usize::from(*length) + 2 <= event.chain.len()))
    }),
    ("takes tag 0xFF", "chains", |section, _| are_chains(section, wrong_chains::of_any_tags)),
    ("takes tag 0xFF behind the first descriptor", "chains", |section, _| {
        are_chains(section, wrong_chains::by_first_tag)
    }),
    ("takes tag 0xFF in the first descriptor", "chains", |section, _| are_chains(section, wrong_chains::by_later_tags)),
    ("takes tag 0xFF in the last descriptor", "chains", |section, _| {
        are_chains(section, wrong_chains::by_earlier_tags)
    }),
    ("takes no byte 0xFF in a chain", "chains", |section, _| are_chains(section, wrong_chains::without_the_byte)),
    ("takes no tag 0xFE", "chains", |section, _| are_chains(section, wrong_chains::without_highest_legal_tag)),
    ("takes a start of this segment in any table", "starts in the section's segment", |section, _| {
        let segment = i64::from(section.header.section_number / 8);
        section.events.iter().all(|event| event.start.div_euclid(10_800).rem_euclid(32) == segment)
    }),
    ("takes a start of any segment of the table", "starts in the section's segment", |section, _| {
        let table = i64::from(section.header.table_id) - 0x50;
        section.events.iter().all(|event| event.start.div_euclid(345_600) == table)
    }),
    ("compares ids inside a section alone", "ids that differ", |section, _| {
        let mut ids = HashSet::new();
        section.events.iter().all(|event| ids.insert(event.id))
    }),
    ("compares ids with earlier sections alone", "ids that differ", |section, before| {
        section.events.iter().all(|event| !before.ids.contains(&event.id))
    }),
    ("takes ids for equal that differ in the highest bit", "ids that differ", |section, before| {
        let mut ids = HashSet::new();
        let is_new = |id: u16| !before.ids.contains(&id) && !before.ids.contains(&(id ^ 0x8000));
        section.events.iter().all(|event| is_new(event.id) && ids.insert(event.id & 0x7FFF))
    }),
    ("does not look at events that are too many", "durations of a second or more", |section, before| {
        section.events.iter().take(before.events_left).all(|event| event.duration > 0)
    }),
];

fn are_chains(section: &Received, is_chain: IsChain) -> bool {
    section.events.iter().all(|event| is_chain(event.chain))
}

/// Each rule left out, each two numbers in the wrong order, and rules that are not the paper's.
pub fn rules() -> Vec<(String, Vec<Rule>)> {
    let left_out = RULES.map(|left| {
        let others = RULES.into_iter().filter(|rule| rule.says != left.says);
        (format!("does not ask for {}", left.says), others.collect())
    });
    let pairs = (0..ORDER.len()).flat_map(|k| ORDER[k + 1..].iter().map(move |second| (ORDER[k], *second)));
    let out_of_order =
        pairs.map(|(first, second)| (format!("asks for {second} before {first}"), earlier(first, second)));
    let all_replaced = REPLACED.into_iter().chain(overlap_faults::REPLACED).chain(version_faults::REPLACED);
    let replaced = all_replaced.map(|(fault, says, holds)| {
        let replace = |rule: Rule| if rule.says == says { Rule { holds, ..rule } } else { rule };
        (fault.to_string(), RULES.map(replace).to_vec())
    });
    let moved = version_faults::moved().map(|(fault, rules)| (fault.to_string(), rules));
    left_out.into_iter().chain(out_of_order).chain(replaced).chain(moved).collect()
}

/// The rules with those of the second number in front of those of the first.
fn earlier(first: u32, second: u32) -> Vec<Rule> {
    let mut rules = RULES.to_vec();
    rules.sort_by_key(|rule| if rule.number == second { 2 * first - 1 } else { 2 * rule.number });
    rules
}
