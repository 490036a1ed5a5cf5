//! How long the library's calls take, and the ratios to a plain Rust implementation. Nothing fails on a time; answers
//! that differ do.
mod aims;
mod clock;
mod compare;
mod engines;
mod growth;
mod inputs;
mod loads;
mod machine;
mod markdown;
mod overview;
mod rows;
mod search;
mod slowest;
mod svg;
mod table;

use std::process::ExitCode;

const USAGE: &str = "usage: bench/run [quick] [svg FILE], or bench/compare OLD NEW [PLACEMENTS]";

struct Options {
    quick: bool,
    svg: Option<String>,
}

enum Task {
    Tables(Options),
    Measure,
    Compare(String, String),
}

fn task() -> Option<Task> {
    let mut options = Options {
        quick: false,
        svg: None,
    };
    let mut words = std::env::args().skip(1);
    while let Some(word) = words.next() {
        match word.as_str() {
            "quick" => options.quick = true,
            "svg" => options.svg = Some(words.next()?),
            "measure" => return Some(Task::Measure),
            "compare" => return Some(Task::Compare(words.next()?, words.next()?)),
            _ => return None,
        }
    }
    Some(Task::Tables(options))
}

fn tables(options: &Options) -> Result<(), String> {
    let pace = match options.quick {
        true => clock::QUICK,
        false => clock::FULL,
    };
    println!("# Bench\n");
    machine::describe();
    println!(
        "Each figure is the median of {} rounds, in processor time of this process.",
        pace.rounds
    );
    println!("In table 1 each ratio is the median of the rounds' own.\n");
    overview::print(pace)?;
    let curves = growth::print(pace)?;
    slowest::print(pace)?;
    if let Some(file) = &options.svg {
        std::fs::write(file, svg::picture(&curves)).map_err(|error| format!("{file}: {error}"))?;
    }
    Ok(())
}

fn run(task: Task) -> Result<(), String> {
    match task {
        Task::Tables(options) => tables(&options),
        Task::Measure => compare::measure(),
        Task::Compare(old, new) => compare::print(&old, &new),
    }
}

fn main() -> ExitCode {
    let Some(task) = task() else {
        eprintln!("{USAGE}");
        return ExitCode::from(2);
    };
    match run(task) {
        Ok(()) => ExitCode::SUCCESS,
        Err(words) => {
            eprintln!("bench: {words}");
            ExitCode::FAILURE
        }
    }
}
