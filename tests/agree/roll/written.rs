//! What Build writes of a list, in an output that is just long enough.

use super::case::Case;
use super::comparison::Comparison;
use crate::other::{Built, Identity};

impl Comparison<'_> {
    /// The file that Build writes under this identity, or why not.
    pub fn written(&self, case: Case, identity: Identity) -> Result<Vec<u8>, Built> {
        in_output(|output| (self.subject.build)(self.caller, &case.lent(), case.base_day, identity, output))
    }
}

/// What a call writes, or why not.
pub fn in_output(call: impl Fn(&mut [u8]) -> Built) -> Result<Vec<u8>, Built> {
    let asked = call(&mut []);
    let mut output = vec![0; if asked.number == 11 { asked.value } else { 0 }];
    match call(&mut output) {
        Built { number: 0, value } if value == output.len() => Ok(output),
        refused => Err(refused),
    }
}

/// The same in words, for the message about a difference.
pub fn said(written: &Result<Vec<u8>, Built>) -> String {
    match written {
        Ok(file) => format!("wrote {} bytes", file.len()),
        Err(built) => format!("answered {built:?}"),
    }
}
