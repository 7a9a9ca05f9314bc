//! Two scripts, the second on what the first left, and the two joined: 02, W-214, and what 01 says of refusals.

use crate::edits::Comparison;
use crate::lists::List;
use crate::other::Answer;
use crate::outcome::Outcome;
use crate::pools::Pools;

/// What the three calls gave. The first is accepted.
pub struct Apart {
    pub first: Outcome,
    pub second: Outcome,
    pub joined: Outcome,
}

impl Apart {
    pub fn is_accepted(&self) -> bool {
        self.second.answer.number == 0
    }
}

/// Makes the three calls, if the first script is accepted: what the two joined give follows from what they give apart.
pub fn run(
    comparison: &mut Comparison,
    pools: &Pools,
    list: &List,
    first_script: &[u8],
    second_script: &[u8],
) -> Result<Option<Apart>, String> {
    let first = comparison.alike(pools, list, first_script)?;
    if first.answer.number != 0 {
        return Ok(None);
    }
    let second = comparison.alike(pools, &first.left, second_script)?;
    let joined_script = [first_script, second_script].concat();
    let joined = comparison.alike(pools, list, &joined_script)?;
    if let Some(wanted) = by_second(list, first_script.len(), &second) {
        joined.same_as("the two apart", &wanted).map_err(|difference| {
            let fault = format!("of two scripts joined, the second from byte {} on, {difference}", first_script.len());
            comparison.describe(&fault, pools, list, &joined_script)
        })?;
    }
    Ok(Some(Apart { first, second, joined }))
}

/// What the two joined give by what the second gave, behind so many bytes of the first.
fn by_second(list: &List, behind: usize, second: &Outcome) -> Option<Outcome> {
    let Answer { number, value, count } = second.answer;
    match number {
        // "the joined script is accepted on the original list and gives the same buffer and count"
        0 => Some(second.clone()),
        // "left as it was: all", and that is now the original list.
        3 => Some(Outcome::new(Answer { number, value: behind + value, count: list.count }, &list.numbers)),
        // Joined, its UNDOs may strike what the first has.
        4 => None,
        // An edit's: "list as the earlier edits made it". 12 is none, since the first leaves a sound list.
        _ => Some(Outcome { answer: Answer { number, value: behind + value, count }, left: second.left.clone() }),
    }
}
