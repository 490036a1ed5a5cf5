//! Table 3: the inputs that cost most, and what one comparison costs.
use crate::clock::{self, Pace};
use crate::engines::{agreed, by_parts, check, compare, direct, timed, Engine, NAMES};
use crate::loads::{self, Load};
use crate::markdown::{figure, item, table, whole};
use crate::rows::{MOST_ROWS, V};
use crate::search::slowest;
use crate::table::*;
use std::hint::black_box;

/// Rows in the search: fewer than at most, so that more inputs are tried.
const SEARCHED_ROWS: usize = 128;
const SEED: u64 = 2001;

pub fn print(pace: Pace) -> Result<(), String> {
    println!("## Table 3: the slowest inputs\n");
    queries(pace)?;
    checks(pace)?;
    comparisons(pace)
}

/// The slowest query that the search finds for each engine, measured over 1,024 rows.
fn queries(pace: Pace) -> Result<(), String> {
    println!("### Queries, {} rows, microseconds\n", whole(MOST_ROWS));
    let seconds = pace.search;
    println!("The slowest that a search of {seconds} seconds finds over {SEARCHED_ROWS} rows, seed {SEED}.\n");
    let mut lines = Vec::new();
    let mut words = Vec::new();
    for (name, engine) in [("direct", direct as Engine), ("by parts", by_parts)] {
        let cost = |load: &Load| {
            let mut answers = vec![0; SEARCHED_ROWS];
            clock::each(1, &mut || {
                drop(black_box(engine(load, SEARCHED_ROWS, &mut answers)))
            })
        };
        let found = slowest(seconds, SEED, SEARCHED_ROWS, &cost);
        let load = found.input.load(MOST_ROWS);
        let kept = agreed(&load, MOST_ROWS)?;
        let mut line = vec![name.to_string(), whole(found.tried), whole(kept)];
        line.extend(timed(pace, &load, MOST_ROWS).into_iter().map(figure));
        lines.push(line);
        words.push(format!("Slowest for {name}: {}", load.name));
    }
    table(
        1,
        &["slowest for", "tried", "kept", NAMES[0], NAMES[1], NAMES[2]],
        &lines,
    );
    for words in words {
        item(&words);
    }
    println!();
    Ok(())
}

/// The tables that cost much by their make, and the slowest that the search finds.
fn checks(pace: Pace) -> Result<(), String> {
    println!("### The check, microseconds\n");
    let cost = |load: &Load| {
        clock::each(20, &mut || {
            black_box(check(black_box(&load.table)));
        })
    };
    let found = slowest(pace.search / 2.0, SEED, 1, &cost).input;
    let tables = [
        (
            "seven EXPLICIT of 16 edges joined by PARETO".to_string(),
            explicits(),
        ),
        ("127 DUALs over one base term".to_string(), duals()),
        ("63 BOTH over 64 base terms".to_string(), boths()),
        ("found by the search".to_string(), found.table().0),
    ];
    let mut lines = Vec::new();
    for (name, Table { bytes }) in tables {
        let reply = check(&bytes);
        if reply.refusal != 0 {
            return Err(format!(
                "{name}: refused {} at {}",
                reply.refusal, reply.place
            ));
        }
        let mut call = || {
            black_box(check(black_box(&bytes)));
        };
        let time = clock::medians(pace, &mut [&mut call])[0];
        let under = if time < 1000.0 { "yes" } else { "no" };
        lines.push(vec![
            name,
            whole(reply.records as usize),
            figure(time),
            under.to_string(),
        ]);
    }
    table(
        1,
        &["table", "records", "time", "under a millisecond"],
        &lines,
    );
    item(&format!("Found by the search: {}", found.table_words()));
    println!();
    Ok(())
}

/// Seven EXPLICIT of 16 edges that make a path.
fn explicits() -> Table {
    let mut t = Table::default();
    let path: Vec<_> = (1..=16).map(|e| (EDGE, e, e + 1)).collect();
    let terms: Vec<_> = (0..7).map(|c| t.with_values(EXPLICIT, c, &path)).collect();
    let mut top = terms[0];
    for &next in &terms[1..] {
        top = t.join(PARETO, top, next);
    }
    t
}

fn duals() -> Table {
    let mut t = Table::default();
    let mut top = t.base(LOWEST, 0, 0, 0);
    for _ in 0..127 {
        top = t.dual(top);
    }
    t
}

fn boths() -> Table {
    let mut t = Table::default();
    let terms: Vec<_> = (0..64).map(|_| t.base(LOWEST, 0, 0, 0)).collect();
    let mut top = terms[0];
    for &next in &terms[1..] {
        top = t.join(BOTH, top, next);
    }
    t
}

/// A call of Compare checks its table; within a query that is done once.
fn comparisons(pace: Pace) -> Result<(), String> {
    println!("### One comparison under T1, nanoseconds\n");
    let t1 = loads::t1_over_v();
    compare(&t1, &V[0], &V[1])?;
    let mut pairs = || {
        for first in &V {
            for second in &V {
                drop(black_box(compare(black_box(&t1), first, second)));
            }
        }
    };
    let call = clock::medians(pace, &mut [&mut pairs])[0] / (V.len() * V.len()) as f64;
    println!(
        "- `fnb_compare`, the 49 pairs of V, the table checked in each call: {}",
        figure(call * 1e3)
    );
    let load = loads::t1_over_kept();
    if agreed(&load, MOST_ROWS)? != MOST_ROWS {
        return Err(format!("{}: not all rows are kept", load.name));
    }
    let all = (MOST_ROWS * (MOST_ROWS - 1) / 2) as f64;
    for (who, time) in NAMES.iter().zip(timed(pace, &load, MOST_ROWS)) {
        println!(
            "- A pair within a query of {} rows, all kept, {who}: {}",
            whole(MOST_ROWS),
            figure(time * 1e3 / all)
        );
    }
    println!();
    Ok(())
}
