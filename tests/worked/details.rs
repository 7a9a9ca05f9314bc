//! The manual's details, each a sentence and a call or two that show it, for both callers.

use crate::chirdaluko::Caller;
use crate::{build_details, chain_details, chain_room_details, edit_details, places, read_details, roll_details};
use crate::{version_details, CALLERS};

/// A sentence, and whether it is so for a caller.
pub type Detail = (&'static str, fn(Caller) -> bool);

pub fn print() {
    let of_lists = edit_details::ALL.iter().chain(&places::ALL).chain(&chain_details::ALL);
    let of_files = build_details::ALL.iter().chain(&read_details::ALL).chain(&version_details::ALL);
    let of_calls = roll_details::ALL.iter().chain(&chain_room_details::ALL);
    print_under("## Details that decide", of_lists.chain(of_files).chain(of_calls));
}

/// Sentences under a heading, once each is shown.
pub fn print_under<'a>(heading: &str, details: impl IntoIterator<Item = &'a Detail>) {
    println!("{heading}");
    for (sentence, is_so) in details {
        for caller in CALLERS {
            assert!(is_so(caller), "not so for {caller:?}: {sentence}");
        }
        println!("- {sentence}");
    }
}
