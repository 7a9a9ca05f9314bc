//! Times the library, through its Rust wrapper, beside the other implementation on the same inputs. Nothing fails for
//! being slow. With `once` and the name of a call, calls the library once with its largest input, for a profile.

mod builds;
#[allow(dead_code)]
#[path = "../../bindings/rust/src/lib.rs"]
mod chirdaluko;
mod crcs;
mod edits;
mod inputs;
#[path = "../library.rs"]
mod library;
mod places;
mod reads;
mod rebuilds;
mod rolls;
mod rooms;
mod table;

// The other implementation and the comparison's makers of inputs, of which a part is needed here.
#[allow(dead_code)]
#[path = "../agree/any_edits.rs"]
mod any_edits;
#[allow(dead_code)]
#[path = "../agree/guarded.rs"]
mod guarded;
#[allow(dead_code)]
#[path = "../agree/held.rs"]
mod held;
#[path = "../agree/lineup.rs"]
mod lineup;
#[allow(dead_code)]
#[path = "../agree/lists.rs"]
mod lists;
#[allow(dead_code, unused_imports)]
#[path = "../other/mod.rs"]
mod other;
#[allow(dead_code)]
#[path = "../agree/overlapping.rs"]
mod overlapping;
#[allow(dead_code)]
#[path = "../agree/pools.rs"]
mod pools;
#[path = "../agree/random.rs"]
mod random;
#[allow(dead_code)]
#[path = "../agree/scripts.rs"]
mod scripts;
#[path = "../agree/stock.rs"]
mod stock;
#[allow(dead_code)]
#[path = "../agree/times.rs"]
mod times;
#[allow(dead_code)]
#[path = "../agree/timetable.rs"]
mod timetable;

use random::Random;

const SEED: u64 = 101_154;
const CALLS: &str = "edit, place, chain_room, roll, plan, build, rebuild, check, read, crc32";

fn main() {
    let random = &mut Random::new(SEED);
    let arguments: Vec<_> = std::env::args().skip(1).collect();
    match arguments.iter().map(String::as_str).collect::<Vec<_>>()[..] {
        [] => all(random),
        ["once", "edit"] => edits::once(random),
        ["once", "place"] => places::once(random),
        ["once", "chain_room"] => rooms::once(random),
        ["once", "roll"] => rolls::once(random),
        ["once", "plan"] => builds::once_planned(random),
        ["once", "build"] => builds::once(random),
        ["once", "rebuild"] => rebuilds::once(random),
        ["once", "check"] => reads::once_checked(random),
        ["once", "read"] => reads::once(random),
        ["once", "crc32"] => crcs::once(random),
        _ => panic!("the arguments are none, or `once` and one of {CALLS}"),
    }
}

fn all(random: &mut Random) {
    println!("Time per call, the shortest of many; seed {SEED}. KB and MB are 2^10 and 2^20 bytes.");
    println!("Growth is the time over that of the row above, for four times the script or the events.");
    println!("Ratio is the library's time over the other's.\n");
    edits::run(random);
    let inputs = inputs::inputs(random);
    builds::run(&inputs);
    rebuilds::run(&inputs);
    reads::run(&inputs);
    crcs::run(random);
    places::run(random);
    rolls::run(random);
    rooms::run(random);
}
