//! Chains that are not the papers', for the faults of the self-check: 02, W-202, taken wrongly.

use crate::other::is_chain;
use crate::stock::{FORBIDDEN_TAG, HIGHEST_LEGAL_TAG};

/// With any tags.
pub fn of_any_tags(bytes: &[u8]) -> bool {
    tags(bytes).is_some()
}

/// The forbidden tag is looked for in the first descriptor alone.
pub fn by_first_tag(bytes: &[u8]) -> bool {
    tags(bytes).is_some_and(|tags| tags.first() != Some(&FORBIDDEN_TAG))
}

/// It is looked for behind the first descriptor alone.
pub fn by_later_tags(bytes: &[u8]) -> bool {
    tags(bytes).is_some_and(|tags| !tags.iter().skip(1).any(|tag| *tag == FORBIDDEN_TAG))
}

/// It is looked for in every descriptor but the last.
pub fn by_earlier_tags(bytes: &[u8]) -> bool {
    tags(bytes).is_some_and(|tags| !tags.iter().rev().skip(1).any(|tag| *tag == FORBIDDEN_TAG))
}

/// No byte is that of the forbidden tag.
pub fn without_the_byte(bytes: &[u8]) -> bool {
    is_chain(bytes) && !bytes.contains(&FORBIDDEN_TAG)
}

/// The highest legal tag is forbidden, too.
pub fn without_highest_legal_tag(bytes: &[u8]) -> bool {
    is_chain(bytes) && !tags(bytes).is_some_and(|tags| tags.contains(&HIGHEST_LEGAL_TAG))
}

/// The tags of the bytes' descriptors, if they are descriptors up to their very end.
fn tags(mut bytes: &[u8]) -> Option<Vec<u8>> {
    let mut tags = Vec::new();
    while let [tag, length, rest @ ..] = bytes {
        tags.push(*tag);
        bytes = rest.get(usize::from(*length)..)?;
    }
    bytes.is_empty().then_some(tags)
}
