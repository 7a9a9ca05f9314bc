//! The form of a script: operands cut at every length, and every byte that is no command.

use crate::edits::Comparison;
use crate::held::Held;
use crate::lists::List;
use crate::pools::Pools;
use crate::scripts::{bytes, Command};

pub fn run(comparison: &mut Comparison) -> Result<(), String> {
    let random = &mut comparison.groups.begin("forms");
    let pools = Pools::of_lengths(random, 60, 40);
    for _ in 0..4 {
        let list = List::sound(random, &pools, 4, 6 * 8 + 5);
        let mut held = Held::by(comparison.caller, &list);
        let edits = [held.put(random, &pools), held.withdraw(random), held.move_one(random)];
        let fronts = [vec![], vec![edits[0]], vec![edits[1], Command::Undo], edits.to_vec()];
        for front in fronts.map(|commands| bytes(&commands)) {
            comparison.alike(&pools, &list, &front)?;
            for edit in edits.map(|edit| bytes(&[edit])) {
                for cut in 1..edit.len() {
                    let script = [&front, &edit[..cut]].concat();
                    comparison.answers((3, front.len()), &pools, &list, &script)?;
                }
            }
            for byte in (0x00..=0xFF).filter(|byte| !(0x01..=0x04).contains(byte)) {
                for back in [&[][..], &[0x04], &bytes(&edits)] {
                    let script = [&front, &[byte][..], back].concat();
                    comparison.answers((3, front.len()), &pools, &list, &script)?;
                }
            }
        }
    }
    Ok(())
}
