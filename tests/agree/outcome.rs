//! What a call of Edit gives: its answer, and the list that it leaves.

use crate::lists::List;
use crate::other::Answer;

#[derive(Clone)]
pub struct Outcome {
    pub answer: Answer,
    /// The whole buffer, and the count then held.
    pub left: List,
}

impl Outcome {
    pub fn new(answer: Answer, buffer: &[u32]) -> Outcome {
        Outcome { answer, left: List { numbers: buffer.to_vec(), count: answer.count } }
    }

    /// It is the same as another outcome, which has a name here and as long a buffer; or else how it differs.
    pub fn same_as(&self, name: &str, other: &Outcome) -> Result<(), String> {
        if self.answer != other.answer {
            return Err(format!("answered {:?}, and {name} {:?}", self.answer, other.answer));
        }
        let mut numbers = self.left.numbers.iter().zip(&other.left.numbers).enumerate();
        match numbers.find(|(_, (number, of_other))| number != of_other) {
            None => Ok(()),
            Some((place, (number, of_other))) => {
                Err(format!("left {number} at number {place} of the buffer, and {name} {of_other}"))
            }
        }
    }
}
