//! Random inputs by every call: the compiled library against the oracle, with what was reached printed and asserted.
//!
//! `agree [--replay FILE] [--pick PROGRAM]` runs; `agree --show NUMBER` prints one input, and which rows it is to leave
//! out. FINIALBASIL_SEED sets the seed, FINIALBASIL_INPUTS the number of inputs. It ends with status 0 only if all
//! agrees and all is reached.

mod compare;
mod coverage;
mod damage;
mod faults;
mod generator;
mod input;
mod judge;
mod leaving;
mod left_counts;
mod library;
mod limits;
mod memory;
mod mistakes;
mod order;
mod picks;
mod random;
mod records;
mod replay;
mod report;
mod rows;
mod selfcheck;
mod shrink;
mod signal;
mod stack;
mod trees;

use oracle::Mistake;
use std::path::PathBuf;
use std::process::ExitCode;
use std::time::Instant;

const SEED: u64 = 20_010_213;
/// Far fewer reach too little, and the run fails for that.
const INPUTS: u64 = 400_000;

/// What the command line and the environment ask for.
struct Plan {
    seed: u64,
    inputs: u64,
    replay: Option<PathBuf>,
    pick: Option<PathBuf>,
    /// The self-check's: a mistaken oracle in the place of the right one.
    mistake: Option<Mistake>,
}

fn main() -> ExitCode {
    let words: Vec<String> = std::env::args().skip(1).collect();
    if let [flag, what] = &words[..] {
        if flag == selfcheck::TOUCH {
            selfcheck::touch(what);
            return ExitCode::SUCCESS;
        }
    }
    let seed = number("FINIALBASIL_SEED", SEED);
    if let [flag, which] = &words[..] {
        if flag == "--show" {
            let input = generator::input(seed, which.parse().expect("a number"));
            shrink::print(&input);
            leaving::print(&input);
            return ExitCode::SUCCESS;
        }
    }
    let wrong = run(&plan(seed, &words));
    wrong.iter().for_each(|words| println!("FAILED: {words}"));
    println!(
        "seed {seed}: {}",
        if wrong.is_empty() {
            "library and oracle agree"
        } else {
            "failed"
        }
    );
    if wrong.is_empty() {
        ExitCode::SUCCESS
    } else {
        ExitCode::FAILURE
    }
}

fn plan(seed: u64, words: &[String]) -> Plan {
    let mut plan = Plan {
        seed,
        inputs: number("FINIALBASIL_INPUTS", INPUTS),
        replay: None,
        pick: None,
        mistake: None,
    };
    for pair in words.chunks(2) {
        match pair {
            [flag, path] if flag == "--replay" => plan.replay = Some(path.into()),
            [flag, path] if flag == "--pick" => plan.pick = Some(path.into()),
            [flag, which] if flag == selfcheck::MISTAKE => {
                plan.mistake = Some(Mistake::ALL[which.parse::<usize>().expect("a number")])
            }
            _ => panic!("arguments: --replay FILE, --pick PROGRAM, or --show NUMBER alone"),
        }
    }
    plan
}

/// A number of the environment, decimal, or hex behind 0x.
fn number(name: &str, otherwise: u64) -> u64 {
    let Ok(words) = std::env::var(name) else {
        return otherwise;
    };
    let parsed = match words.strip_prefix("0x") {
        Some(hex) => u64::from_str_radix(hex, 16),
        None => words.parse(),
    };
    parsed.unwrap_or_else(|_| panic!("{name} is no number: {words}"))
}

/// Runs all, and gives what went wrong.
fn run(plan: &Plan) -> Vec<String> {
    println!("seed {}, {} inputs", plan.seed, plan.inputs);
    signal::watch(plan.seed);
    if plan.mistake.is_some() {
        return judge::inputs(plan);
    }
    let start = Instant::now();
    let mut wrong = selfcheck::judge(plan.seed);
    let timed = |what: &str| println!("time: {what} at {:.1} s", start.elapsed().as_secs_f64());
    timed("self-check done");
    wrong.extend(stack::judge(plan.seed));
    timed("worst inputs done");
    wrong.extend(judge::inputs(plan));
    timed("inputs done");
    match &plan.pick {
        Some(program) => wrong.extend(picks::judge(program, plan.seed)),
        None => println!("pick: not given, not run"),
    }
    timed("all done");
    wrong
}
