//! The manual's blocks and tables: bytes with what they mean, a line for each field; numbers and answers in words.

use std::borrow::Borrow;

/// Bytes that grow field by field, and their lines: offset, bytes, meaning.
#[derive(Default)]
pub struct Lines {
    pub bytes: Vec<u8>,
    pub lines: Vec<String>,
}

impl Lines {
    pub fn field(&mut self, bytes: &[u8], meaning: String) {
        let digits: Vec<_> = bytes.iter().map(|byte| format!("{byte:02X}")).collect();
        self.lines.push(format!("{:>3}  {:<11}  {meaning}", self.bytes.len(), digits.join(" ")));
        self.bytes.extend(bytes);
    }
}

/// A block of the manual: the line before it, and its lines.
pub fn block(name: &str, lines: &[String]) {
    println!("{name}\n```\n{}\n```", lines.join("\n"));
}

/// A table of the manual: the heading that it stands under, and its rows.
pub fn table<T: Borrow<str>, const COLUMNS: usize>(heading: &str, rows: &[[T; COLUMNS]]) {
    println!("{heading}");
    for row in rows {
        let row = format!("| {} |", row.join(" | "));
        println!("{}", row.replace("|  |", "| |"));
    }
}

/// What a call says in words: of a refusal the number, and the value if that is not 0.
macro_rules! said {
    ($call:expr) => {
        match $call {
            Ok(_) => "success".to_string(),
            Err(refusal) if refusal.value() == 0 => refusal.number().to_string(),
            Err(refusal) => format!("{} at {}", refusal.number(), refusal.value()),
        }
    };
}
pub(crate) use said;

/// A number with a comma before every three digits.
pub fn grouped(number: u32) -> String {
    match number {
        0..=999 => number.to_string(),
        _ => format!("{},{:03}", grouped(number / 1_000), number % 1_000),
    }
}

/// Hours, minutes and seconds.
pub fn clock(seconds: u32) -> String {
    format!("{:02}:{:02}:{:02}", seconds / 3_600, seconds / 60 % 60, seconds % 60)
}

/// The number that bytes are, the highest first.
pub fn number(bytes: &[u8]) -> u32 {
    bytes.iter().fold(0, |number, &byte| number << 8 | u32::from(byte))
}
