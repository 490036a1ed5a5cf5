//! A seeded search for the slowest input, by small changes.
use crate::clock;
use crate::engines::check;
use crate::inputs::Input;
use crate::loads::Load;
use crate::rows::Random;

/// After so many changes in a row that cost no more, the search starts again elsewhere.
const IDLE_CHANGES: usize = 200;

/// What the search found, and how many inputs it tried.
pub struct Found {
    pub input: Input,
    pub tried: usize,
}

/// The cost of an input over so many rows, or 0 if its table is refused. A cost above `least` is measured again, so
/// that a slow stretch of the machine does not pass for a slow input.
fn price(input: &Input, count: usize, least: f64, cost: &dyn Fn(&Load) -> f64) -> f64 {
    let load = input.load(count);
    if check(&load.table).refusal != 0 {
        return 0.0;
    }
    match cost(&load) {
        once if once > least => once.min(cost(&load)),
        once => once,
    }
}

/// A change that costs more is taken; where none is found for a while, the search starts again elsewhere.
pub fn slowest(seconds: f64, seed: u64, count: usize, cost: &dyn Fn(&Load) -> f64) -> Found {
    let mut random = Random::new(seed);
    let ends = clock::seconds() + seconds;
    let mut best = (0.0, Input::random(&mut random));
    let mut tried = 0;
    while clock::seconds() < ends {
        let start = Input::random(&mut random);
        let mut here = (price(&start, count, 0.0, cost), start);
        let mut idle = 0;
        while idle < IDLE_CHANGES && clock::seconds() < ends {
            let next = here.1.changed(&mut random);
            let more = price(&next, count, here.0, cost);
            idle += 1;
            tried += 1;
            if more > here.0 {
                here = (more, next);
                idle = 0;
            }
        }
        if here.0 > best.0 {
            best = here;
        }
    }
    Found {
        input: best.1,
        tried,
    }
}
