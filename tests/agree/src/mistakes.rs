//! The oracle with one mistake planted must be told apart from the library, by some input of the run.

use crate::compare::expected;
use crate::input::Input;
use crate::leaving;
use crate::library::{Reply, Room};
use oracle::{Mistake, Oracle};

/// The mistakes told apart so far, and those that are not.
pub struct Mistakes {
    told: Vec<(Mistake, u64, &'static str)>,
    left: Vec<Mistake>,
}

impl Mistakes {
    pub fn new() -> Mistakes {
        Mistakes {
            told: vec![],
            left: Mistake::ALL.to_vec(),
        }
    }

    /// Compares the library's reply with that of every mistake left.
    pub fn judge(&mut self, number: u64, input: &Input, given: &Reply) {
        let told = &mut self.told;
        self.left.retain(|mistake| {
            let same = expected(&mistaken(*mistake), input) == *given;
            if !same {
                told.push((*mistake, number, input.asks.words()));
            }
            same
        });
    }

    /// Leaves rows out of the query as each mistake about that has it, and compares what it says with what the library
    /// gives.
    pub fn judge_left(&mut self, number: u64, input: &Input, whole: &Reply, room: &mut Room) {
        let told = &mut self.told;
        self.left.retain(|mistake| {
            if !Mistake::LEAVING.contains(mistake) {
                return true;
            }
            let failure = leaving::failure(&mistaken(*mistake), room, input, whole, |_, _| ());
            if let Some(failure) = &failure {
                told.push((*mistake, number, failure.way.words()));
            }
            failure.is_none()
        });
    }

    /// Prints where each was told apart. Gives those that were not.
    pub fn report(&self) -> Vec<String> {
        let all = Mistake::ALL.len();
        println!(
            "planted mistakes: {} of {all} told apart, by input and call:",
            self.told.len()
        );
        for (mistake, number, call) in &self.told {
            println!("  {number:6} {call:8} {}", mistake.words());
        }
        let words = self
            .left
            .iter()
            .map(|mistake| format!("not told apart: {}", mistake.words()));
        let mut missing: Vec<String> = words.collect();
        if all == 0 {
            missing.push("no planted mistakes".to_string());
        }
        missing
    }
}

pub fn mistaken(mistake: Mistake) -> Oracle {
    Oracle {
        mistake: Some(mistake),
    }
}
