//! Compares the library, through its Rust wrapper and so through its C face, with the other implementation on seeded
//! inputs, for both callers. It first checks that faults show; with `--self-check` it does only that.

mod any_edits;
mod at_limits;
mod at_places;
mod breaking;
mod build;
mod chain_lengths;
mod chain_room;
mod chains;
#[allow(dead_code)]
#[path = "../../bindings/rust/src/lib.rs"]
mod chirdaluko;
mod crcs;
mod edit_faults;
mod edits;
mod faults;
mod forms;
mod full;
mod groups;
mod guarded;
mod held;
mod joined;
#[path = "../library.rs"]
mod library;
mod limits;
mod lineup;
mod list_faults;
mod lists;
mod long;
mod mixed;
mod moves;
#[path = "../other/mod.rs"]
mod other;
mod outcome;
mod overlap_faults;
mod overlap_order_faults;
mod overlapped;
mod overlapping;
mod overlaps;
mod place;
mod pools;
mod precedence;
mod random;
mod read;
mod rebuild;
mod reuse;
mod roll;
mod scripts;
mod soundness;
mod spaced;
mod stock;
mod tagged;
mod tags;
mod tally;
mod times;
mod timetable;
mod undo;
mod unsound;
mod unsound_causes;
mod walk;
mod wrong_chains;
mod wrong_follows;

use edits::Comparison;
use groups::Groups;
use other::Caller;
use std::process::ExitCode;
use tally::Tally;

fn main() -> ExitCode {
    let outcome = match std::env::args().nth(1).as_deref() {
        None => self_check().and_then(|_| compare()),
        Some("--self-check") => self_check().map(|faults| println!("{}", faults.join("\n"))),
        Some(_) => Err("the only argument is --self-check".to_string()),
    };
    match outcome {
        Ok(()) => ExitCode::SUCCESS,
        Err(message) => {
            eprintln!("agree: {message}");
            ExitCode::FAILURE
        }
    }
}

fn self_check() -> Result<Vec<String>, String> {
    let edits = [faults::run(all_groups)?, joined::self_check()?].concat();
    let builds = [build::self_check()?, rebuild::self_check()?].concat();
    let others = [place::self_check()?, chain_room::self_check()?, roll::self_check()?].concat();
    let faults = [edits, builds, read::self_check()?, others].concat();
    println!("self-check  {} faults, each shown", faults.len());
    Ok(faults)
}

fn compare() -> Result<(), String> {
    let crcs = crcs::run(library::crc32)?;
    println!("CRC_32      {crcs} inputs agree, seed {}", crcs::SEED);
    let searches = place::run(library::place)?;
    println!("place       {searches} searches agree, seed {}", place::SEED);
    let mut missing = Vec::new();
    for caller in Caller::BOTH {
        missing.extend(compare_for(caller)?);
    }
    if missing.is_empty() {
        return Ok(());
    }
    Err(format!("never came up: {}", missing.join(", ")))
}

/// Compares the calls for this caller. Returns what never came up.
fn compare_for(caller: Caller) -> Result<Vec<String>, String> {
    let mut edits = Comparison::new(caller, &library::edit);
    all_groups(&mut edits)?;
    let subject = build::Subject { build: &library::build, plan: &library::plan };
    let mut builds = build::Comparison::new(caller, subject);
    build::all_groups(&mut builds)?;
    let subject = read::Subject { build: library::build, read: &library::read, check: &library::check };
    let mut reads = read::Comparison::new(caller, subject);
    read::all_groups(&mut reads)?;
    let mut rebuilds = rebuild::Comparison::new(caller, &library::rebuild);
    rebuild::all_groups(&mut rebuilds)?;
    let subject = roll::Subject { roll: &library::roll, build: library::build, rebuild: library::rebuild };
    let mut rolls = roll::Comparison::new(caller, subject);
    roll::all_groups(&mut rolls)?;
    let subject = chain_room::Subject { chain_room: &library::chain_room, edit: library::edit, build: library::build };
    let mut rooms = chain_room::Comparison::new(caller, subject);
    chain_room::all_groups(&mut rooms)?;

    let tallies = [
        ("Edit", &edits.tally),
        ("Build", &builds.tally),
        ("Plan", &builds.entries),
        ("Read", &reads.tally),
        ("Rebuild", &rebuilds.tally),
        ("roll", &rolls.tally),
        ("chain_room", &rooms.tally),
    ];
    println!("\nfor {caller}");
    for (call, tally) in tallies {
        println!("{call:<12}{} cases agree\nanswers     {}", tally.cases, tally.answers());
        if let Some(precedences) = tally.precedences() {
            println!("precedences {precedences}");
        }
        if let Some(kinds) = tally.kinds() {
            println!("kinds       {kinds}");
        }
    }
    let groups = [&edits.groups, &builds.groups, &reads.groups, &rebuilds.groups, &rolls.groups, &rooms.groups];
    println!("seeds       {}", groups.map(Groups::seeds).join(", "));
    let of_call = |(call, tally): &(&str, &Tally)| {
        let missing = tally.missing().into_iter();
        missing.map(|what| format!("{call}'s {what} for {caller}")).collect::<Vec<_>>()
    };
    Ok(tallies.iter().flat_map(of_call).collect())
}

/// The groups that show most faults soonest come first.
fn all_groups(comparison: &mut Comparison) -> Result<(), String> {
    overlapped::run(comparison)?;
    overlaps::run(comparison)?;
    moves::run(comparison)?;
    undo::run(comparison)?;
    forms::run(comparison)?;
    precedence::run(comparison)?;
    tags::run(comparison)?;
    limits::run(comparison)?;
    chains::run(comparison)?;
    soundness::run(comparison)?;
    mixed::run(comparison)?;
    long::run(comparison)?;
    at_places::run(comparison)?;
    reuse::run(comparison)?;
    joined::all_groups(comparison)
}
