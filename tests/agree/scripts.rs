//! Commands and their bytes: 01, "Edit".

use crate::lists::NUMBERS;

/// The numbers are a record's for PUT, an id for WITHDRAW, an id and a start for MOVE.
#[derive(Clone, Copy)]
pub enum Command {
    Put([u32; NUMBERS]),
    Withdraw(u32),
    Move(u32, u32),
    Undo,
}

/// How many of the commands are edits that no UNDO strikes. Each UNDO has one to strike.
pub fn unstruck(commands: &[Command]) -> usize {
    let undos = commands.iter().filter(|command| matches!(command, Command::Undo)).count();
    commands.len() - 2 * undos
}

/// The bytes of the commands, joined.
pub fn bytes(commands: &[Command]) -> Vec<u8> {
    let mut bytes = Vec::new();
    for command in commands {
        match command {
            Command::Put([id, start, duration, marks, offset, length]) => {
                bytes.push(0x01);
                bytes.extend((*id as u16).to_be_bytes());
                bytes.extend(start.to_be_bytes());
                bytes.extend(duration.to_be_bytes());
                bytes.push(*marks as u8);
                bytes.extend(offset.to_be_bytes());
                bytes.extend((*length as u16).to_be_bytes());
            }
            Command::Withdraw(id) => {
                bytes.push(0x02);
                bytes.extend((*id as u16).to_be_bytes());
            }
            Command::Move(id, start) => {
                bytes.push(0x03);
                bytes.extend((*id as u16).to_be_bytes());
                bytes.extend(start.to_be_bytes());
            }
            Command::Undo => bytes.push(0x04),
        }
    }
    bytes
}
