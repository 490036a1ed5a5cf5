//! The inputs one by one: the library's replies against the oracle's, and what is counted of them.

use crate::compare::{difference, earned, expected, words};
use crate::coverage::Coverage;
use crate::generator;
use crate::input::{Asks, Input};
use crate::leaving::{self, Failure, Way};
use crate::library::{Reply, Room};
use crate::mistakes::Mistakes;
use crate::replay::Replay;
use crate::report;
use crate::shrink;
use crate::signal;
use crate::Plan;
use oracle::{Left, Oracle};

/// Runs all inputs. The first that differs is made smaller, printed, and ends them. Gives what went wrong.
pub fn inputs(plan: &Plan) -> Vec<String> {
    let oracle = Oracle {
        mistake: plan.mistake,
    };
    let mut room = Room::new();
    let mut coverage = Coverage::new();
    let mut mistakes = Mistakes::new();
    let mut replay = Replay::new();
    for number in 0..plan.inputs {
        signal::at(number);
        let input = generator::input(plan.seed, number);
        let right = expected(&oracle, &input);
        for call in input.asks.calls() {
            let given = room.call(&input, *call);
            if let Some(words) = difference(&input, &right, &given) {
                print_smallest(&oracle, &mut room, &input);
                return vec![format!("input {number}, {}: {words}", call.words())];
            }
            coverage.note_call(&input, *call, &given);
            replay.note(&input, *call, &given);
            mistakes.judge(number, &input, &given);
        }
        let seen = |way: &Way, left: &Left| coverage.leaving.note(&input, &right, way, left);
        if let Some(failure) = leaving::failure(&oracle, &mut room, &input, &right, seen) {
            print_smallest_left(&oracle, &mut room, &input);
            let Failure { way, words } = failure;
            return vec![format!("input {number}, {way}: {words}")];
        }
        mistakes.judge_left(number, &input, &right, &mut room);
        note(&mut coverage, &input, &right);
    }
    let calls: u64 = coverage.calls.iter().sum();
    println!("inputs: {}, calls: {calls}", coverage.inputs);
    let mut wrong = report::report(&coverage);
    wrong.extend(mistakes.report());
    if let Some(path) = &plan.replay {
        wrong.extend(replay.save(path));
    }
    wrong
}

/// Counts what the input reached. All refusals that it earns are asked for only where it earns one.
fn note(coverage: &mut Coverage, input: &Input, right: &Reply) {
    let oracle = Oracle::default();
    let all = if right.accepted() {
        0
    } else {
        earned(&oracle, input)
    };
    coverage.note_input(input, right, all);
    let grouped = input.asks == Asks::Query && right.accepted() && input.group != 0;
    if grouped && input.row_count() < 20 {
        let one_group = Input {
            group: 0,
            ..input.clone()
        };
        let changed = expected(&oracle, &one_group).answers != right.answers;
        coverage.queries.changed += changed as u64;
    }
}

fn print_smallest(oracle: &Oracle, room: &mut Room, input: &Input) {
    let small = smallest(input, &mut |input| {
        let right = expected(oracle, input);
        let calls = input.asks.calls();
        calls
            .iter()
            .any(|call| difference(input, &right, &room.call(input, *call)).is_some())
    });
    let right = expected(oracle, &small);
    println!("expected: {}, entries {:?}", words(&right), right.answers);
    for call in small.asks.calls() {
        let given = room.call(&small, *call);
        println!(
            "{}: {}, entries {:?}",
            call.words(),
            words(&given),
            given.answers
        );
    }
}

fn print_smallest_left(oracle: &Oracle, room: &mut Room, input: &Input) {
    let mut failure = |input: &Input| {
        let whole = expected(oracle, input);
        let failure = leaving::failure(oracle, room, input, &whole, |_, _| ());
        failure.map(|failure| (whole, failure))
    };
    let small = smallest(input, &mut |input| failure(input).is_some());
    let (whole, Failure { way, words }) = failure(&small).expect("a failure");
    println!("entries over all rows: {:?}", whole.answers);
    println!("{way}\n{words}");
}

/// Makes the input smaller as long as it fails, and prints it.
fn smallest(input: &Input, fails: &mut dyn FnMut(&Input) -> bool) -> Input {
    let small = shrink::smallest(input, fails);
    assert!(fails(&small), "made smaller, the input no longer fails");
    let (from, to) = (shrink::length(input), shrink::length(&small));
    println!("the smallest input found that fails, made smaller from {from} to {to} bytes:");
    shrink::print(&small);
    small
}
