//! A script's commands, and the edits that no UNDO strikes: 01, "Edit".

use super::event::Event;

const UNKNOWN_OR_CUT: u32 = 3;
const NOTHING_TO_STRIKE: u32 = 4;

pub enum Edit {
    Put(Event),
    Withdraw { id: u32 },
    Move { id: u32, start: u32 },
}

enum Command {
    Edit(Edit),
    Undo,
}

/// A thing and the offset of its command's byte in the script.
type At<T> = (usize, T);

/// The script's edits that no UNDO strikes, or offset and number of the refusal.
pub fn edits(script: &[u8]) -> Result<Vec<At<Edit>>, At<u32>> {
    commands(script).and_then(unstruck)
}

/// The script's commands, or the offset of the first that has no form.
fn commands(script: &[u8]) -> Result<Vec<At<Command>>, At<u32>> {
    let mut commands = Vec::new();
    let mut rest = script;
    while !rest.is_empty() {
        let offset = script.len() - rest.len();
        let command = command(&mut rest).ok_or((offset, UNKNOWN_OR_CUT))?;
        commands.push((offset, command));
    }
    Ok(commands)
}

fn command(rest: &mut &[u8]) -> Option<Command> {
    let edit = match operand(rest, 1)? {
        1 => Edit::Put(Event {
            id: operand(rest, 2)?,
            start: operand(rest, 4)?,
            duration: operand(rest, 4)?,
            marks: operand(rest, 1)?,
            offset: operand(rest, 4)?,
            length: operand(rest, 2)?,
        }),
        2 => Edit::Withdraw { id: operand(rest, 2)? },
        3 => Edit::Move { id: operand(rest, 2)?, start: operand(rest, 4)? },
        4 => return Some(Command::Undo),
        _ => return None,
    };
    Some(Command::Edit(edit))
}

/// The next `width` bytes as a big-endian number.
fn operand(rest: &mut &[u8], width: usize) -> Option<u32> {
    let (bytes, after) = rest.split_at_checked(width)?;
    *rest = after;
    Some(bytes.iter().fold(0, |number, &byte| number << 8 | u32::from(byte)))
}

/// The edits that no UNDO strikes. They are a stack: UNDO takes away the one on top.
fn unstruck(commands: Vec<At<Command>>) -> Result<Vec<At<Edit>>, At<u32>> {
    let mut edits = Vec::new();
    for (offset, command) in commands {
        match command {
            Command::Edit(edit) => edits.push((offset, edit)),
            Command::Undo => {
                edits.pop().ok_or((offset, NOTHING_TO_STRIKE))?;
            }
        }
    }
    Ok(edits)
}
