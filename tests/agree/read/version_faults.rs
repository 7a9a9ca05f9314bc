//! Faults of what Read says to versions (02, W-208): each stands in for the library, and must show.

use super::rule_faults::Replaced;
use crate::other::{Rule, RULES};

const RULE: &str = "one version in a table";

pub const REPLACED: [Replaced; 6] = [
    ("takes one version in a file", RULE, |section, before| before.has(section, |_, header| header.version)),
    ("compares a version with the section before alone", RULE, |section, before| {
        let is_same_table = before.has(section, |_, header| header.table_id);
        !is_same_table || before.has(section, |_, header| header.version)
    }),
    ("compares versions inside a segment alone", RULE, |section, before| {
        section.header.is_first() || before.has_version(section)
    }),
    ("compares versions of segments' first sections alone", RULE, |section, before| {
        !section.header.is_first() || before.has_version(section)
    }),
    ("compares no version of a section without events", RULE, |section, before| {
        section.events.is_empty() || before.has_version(section)
    }),
    ("compares versions without their highest bit", RULE, |section, before| {
        let version = before.versions[section.header.table()];
        version.is_none_or(|version| (version ^ section.header.version) & 15 == 0)
    }),
];

/// The rule in another place, and with another number.
pub fn moved() -> [(&'static str, Vec<Rule>); 2] {
    let with_number = |number| RULES.map(|rule| if rule.says == RULE { Rule { number, ..rule } } else { rule });
    let mut late = RULES.to_vec();
    late.sort_by_key(|rule| 2 * rule.number + if rule.says == RULE { 3 } else { 0 });
    [("looks at a version behind the numbering", late), ("says 23 for a version", with_number(23).to_vec())]
}
