//! The Rust wrapper over a library of another version: an answer that it does not know panics, and says what it is.

// Of place, Plan and CRC_32 every answer is passed on as it is, and they are not there.
#[allow(dead_code)]
#[path = "../../bindings/rust/src/lib.rs"]
mod chirdaluko;

use chirdaluko::{build, chain_room, check, edit, read, rebuild, roll, Caller, Identity, Planned, Pools, Previous};
use chirdaluko::{BuildRefusal, ChainRoomRefusal, EditRefusal, ReadRefusal, RebuildRefusal, RollRefusal};
use chirdaluko::{Reading, Rolled};
use std::panic::{catch_unwind, set_hook};
use std::process::exit;

extern "C" {
    fn set_answer(number: u32, value: usize, count: usize, service_id: u16, last_version: u8);
}

const CALLER: Caller = Caller::Broadcast;
const POOLS: Pools = Pools { day: &[], series: &[] };

fn edited() -> Result<usize, EditRefusal> {
    edit(CALLER, &mut [], 0, POOLS, &[])
}

fn room() -> Result<Option<usize>, ChainRoomRefusal> {
    chain_room(CALLER, &[], 0, POOLS, 0)
}

fn cable_room() -> Result<Option<usize>, ChainRoomRefusal> {
    chain_room(Caller::Cable, &[], 0, POOLS, 0)
}

/// Roll of the empty list from base day 0.
fn rolled() -> Result<Rolled, RollRefusal> {
    roll(CALLER, &mut [], 0, POOLS, 0)
}

fn built() -> Result<usize, BuildRefusal> {
    build(CALLER, &[], 0, POOLS, 0, Identity::default(), &mut [])
}

fn rebuilt() -> Result<usize, RebuildRefusal> {
    rebuild(CALLER, Previous { file: &[], base_day: 0 }, &[], 0, POOLS, 0, &mut [])
}

/// Rebuild with a previous base day above the most.
fn rebuilt_late() -> Result<usize, RebuildRefusal> {
    rebuild(CALLER, Previous { file: &[], base_day: 65_473 }, &[], 0, POOLS, 0, &mut [])
}

fn reading() -> Result<Reading, ReadRefusal> {
    read(CALLER, &[], 0, &mut [])
}

fn checked() -> Result<Reading, ReadRefusal> {
    check(CALLER, &[], 0)
}

/// The call panics, and names the number and the value. Of roll the service_id is the base day; whether an event fits
/// is chain_room's count, and the length its value.
fn panics<T>(call: fn() -> T, number: u32, value: usize, count: usize, service_id: u16) {
    panics_with(call, number, value, count, service_id, 0);
}

/// The same, with a version of table 0x5F.
fn panics_with<T>(call: fn() -> T, number: u32, value: usize, count: usize, service_id: u16, last_version: u8) {
    // The library only remembers them.
    unsafe { set_answer(number, value, count, service_id, last_version) };
    let Err(panic) = catch_unwind(call) else {
        eprintln!("unknown: {number} {value} passes for an answer");
        exit(1);
    };
    let message = panic.downcast_ref::<String>().map_or("", String::as_str);
    if !message.contains(&format!("answer {number} {value} of eit_")) {
        eprintln!("unknown: the panic says: {message}");
        exit(1);
    }
}

fn main() {
    set_hook(Box::new(|_| ()));
    for number in (0..100).chain([u32::MAX]) {
        let is = |numbers: &[u32]| numbers.contains(&number);
        if !is(&[0, 3, 4, 5, 6, 8, 9, 12, 30]) {
            panics(edited, number, 7, 7, 0);
        }
        if !is(&[0, 12]) {
            panics(room, number, 0, 0, 0);
            panics(room, number, 0, 1, 0);
        }
        if !is(&[0, 12, 31]) {
            panics(rolled, number, 0, 0, 0);
        }
        if !is(&[0, 1, 2, 10, 11, 12]) {
            panics(built, number, 7, 0, 0);
        }
        if !is(&[0, 1, 10, 11, 12, 20, 21, 22, 23, 24, 25, 26]) {
            panics(rebuilt, number, 7, 0, 0);
            panics(rebuilt_late, number, 7, 0, 0);
        }
        if !is(&[0, 1, 20, 21, 22, 23, 24, 25, 26, 27]) {
            panics(reading, number, 7, 0, 0);
            panics(checked, number, 7, 0, 0);
        }
    }

    // 27 is Read's alone, and 2 Build's.
    panics(checked, 27, 7, 0, 0);
    panics(rebuilt, 27, 7, 0, 0);
    panics(rebuilt, 2, 0, 0, 0);

    // A value that the number does not come with; of chain_room a length that no chain has or that no section holds,
    // one where none fits or where it is refused, and anything but 0 and 1 for whether one fits; of a roll a count
    // above the one given or a base day that is not the next, and of a refused one a count or base day that was not
    // given.
    panics(edited, 0, 7, 8, 0);
    panics(edited, 12, 7, 7, 0);
    for length in [1, 4_067, u32::MAX as usize] {
        panics(room, 0, length, 1, 0);
    }
    for length in [1, 995, 4_066] {
        panics(cable_room, 0, length, 1, 0);
    }
    for fits in [2, 3, 256, u32::MAX as usize] {
        for length in [0, 2, 4_066] {
            panics(room, 0, length, fits, 0);
        }
    }
    for number in [0, 12] {
        panics(room, number, 1, 0, 0);
        panics(room, number, 5, 0, 0);
    }
    panics(room, 12, 0, 1, 0);
    panics(room, 12, 5, 1, 0);
    panics(room, 12, 0, 2, 0);
    panics(rolled, 0, 7, 8, 1);
    panics(rolled, 0, 7, 7, 1);
    panics(rolled, 0, 0, 0, 0);
    for number in [12, 31] {
        panics(rolled, number, 7, 0, 0);
        panics(rolled, number, 0, 7, 0);
        panics(rolled, number, 0, 0, 7);
    }
    panics(built, 1, 7, 0, 0);
    panics(built, 2, 7, 0, 0);
    panics(built, 12, 7, 0, 0);
    panics(rebuilt, 1, 7, 0, 0);
    panics(rebuilt_late, 1, 7, 0, 0);
    panics(rebuilt, 12, 7, 0, 0);
    panics(reading, 0, 7, 8, 0);
    panics(reading, 1, 7, 0, 0);
    panics(reading, 20, 7, 1, 0);
    panics(reading, 20, 7, 0, 1);
    panics_with(reading, 20, 7, 0, 0, 1);
    for count in 9..254 {
        if catch_unwind(|| Planned::of(count)).is_ok() {
            eprintln!("unknown: {count} passes for a count of Plan");
            exit(1);
        }
    }
}
