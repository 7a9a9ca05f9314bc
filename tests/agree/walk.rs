//! A script's commands by their offsets, for the faults of the self-check. The script has its form, where nothing else
//! is said.

pub const PUT: u8 = 0x01;
pub const WITHDRAW: u8 = 0x02;
pub const MOVE: u8 = 0x03;
pub const UNDO: u8 = 0x04;

/// A command's offset in the script, and its bytes.
pub type At<'a> = (usize, &'a [u8]);

/// The offset behind the command at this offset.
pub fn next(script: &[u8], offset: usize) -> usize {
    let width = match script.get(offset) {
        Some(&PUT) => 18,
        Some(&WITHDRAW) => 3,
        Some(&MOVE) => 7,
        _ => 1,
    };
    offset + width
}

/// The offset of the first command of which this holds, by its offset and its byte, or the script's length. The script
/// may be of any form.
pub fn first(script: &[u8], mut holds: impl FnMut(usize, u8) -> bool) -> usize {
    let mut offset = 0;
    while offset < script.len() && !holds(offset, script[offset]) {
        offset = next(script, offset);
    }
    offset.min(script.len())
}

/// The offset of the first UNDO, or the script's length.
pub fn first_undo(script: &[u8]) -> usize {
    first(script, |_, command| command == UNDO)
}

pub fn commands(script: &[u8]) -> Vec<At<'_>> {
    let mut commands = Vec::new();
    let mut offset = 0;
    while offset < script.len() {
        let end = next(script, offset);
        commands.push((offset, &script[offset..end]));
        offset = end;
    }
    commands
}

/// The edits that are left when each UNDO has struck one of those before it, which is chosen by how many there are. One
/// with nothing to strike is passed over.
pub fn struck_by(script: &[u8], choose: fn(usize) -> usize) -> Vec<At<'_>> {
    let mut edits = Vec::new();
    for (offset, command) in commands(script) {
        if command != [UNDO] {
            edits.push((offset, command));
        } else if !edits.is_empty() {
            edits.remove(choose(edits.len()));
        }
    }
    edits
}

/// The edits that no UNDO strikes.
pub fn unstruck(script: &[u8]) -> Vec<At<'_>> {
    struck_by(script, |edits| edits - 1)
}

/// The id that an edit has.
pub fn id(edit: &[u8]) -> u32 {
    u32::from(u16::from_be_bytes([edit[1], edit[2]]))
}

/// The operand of four bytes there. PUT and MOVE have their start behind command and id.
pub fn number(script: &[u8], at: usize) -> u32 {
    u32::from_be_bytes(script[at..at + 4].try_into().expect("an operand"))
}
