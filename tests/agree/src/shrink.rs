//! A smaller input that fails in the same way, and its print.

use crate::input::{Asks, Input};
use crate::records;
use std::time::{Duration, Instant};

/// No candidate is tried after this time; one with 1,024 rows takes a while.
const LONGEST: Duration = Duration::from_secs(15);

/// Drops rows and records and sets numbers to zero, as long as the input keeps failing.
pub fn smallest(input: &Input, fails: &mut dyn FnMut(&Input) -> bool) -> Input {
    let mut best = input.clone();
    best.stated = None;
    if !fails(&best) {
        return input.clone();
    }
    let start = Instant::now();
    let mut fails = |input: &Input| start.elapsed() < LONGEST && fails(input);
    loop {
        let before = size(&best);
        drop_rows(&mut best, &mut fails);
        drop_records(&mut best, &mut fails);
        simplify(&mut best, &mut fails);
        if size(&best) >= before {
            return best;
        }
    }
}

/// Bytes of the table and of the rows.
pub fn length(input: &Input) -> usize {
    input.table.len() + 4 * input.rows.len()
}

/// What shrinks: lengths first, then how many numbers are not zero.
fn size(input: &Input) -> usize {
    let filled = input.rows.iter().filter(|cell| **cell != 0).count();
    let bytes = input.table.iter().filter(|byte| **byte != 0).count();
    1_000 * length(input) + filled + bytes + input.answers + input.group as usize
}

/// Takes the candidate if it fails as well.
fn keep(best: &mut Input, candidate: Input, fails: &mut dyn FnMut(&Input) -> bool) -> bool {
    let smaller = size(&candidate) < size(best) && fails(&candidate);
    if smaller {
        *best = candidate;
    }
    smaller
}

/// Runs of rows, from half of them down to one.
fn drop_rows(best: &mut Input, fails: &mut dyn FnMut(&Input) -> bool) {
    let width = best.columns;
    if best.asks != Asks::Query || !(1..=8).contains(&width) {
        return;
    }
    let mut run = (best.row_count() / 2).max(1);
    while run > 0 {
        let mut from = 0;
        while (from + run) * width <= best.rows.len() {
            let mut candidate = best.clone();
            candidate.rows.drain(from * width..(from + run) * width);
            candidate.answers = candidate.answers.saturating_sub(run);
            if !keep(best, candidate, fails) {
                from += run;
            }
        }
        run /= 2;
    }
}

/// Records one by one; and, where parts are terms, all but the asked term, with a compound replaced by a part of it.
fn drop_records(best: &mut Input, fails: &mut dyn FnMut(&Input) -> bool) {
    let mut at = best.table.len() / 12;
    while at > 0 {
        at -= 1;
        let mut records = records::read(&best.table);
        records::remove(&mut records, at);
        let mut candidate = Input {
            table: records::written(&records),
            ..best.clone()
        };
        if candidate.term > at && candidate.term < 256 {
            candidate.term -= 1;
        }
        keep(best, candidate, fails);
    }
    let mut at = best.table.len() / 12;
    while at > 0 {
        at -= 1;
        for candidate in pruned(best, at) {
            keep(best, candidate, fails);
        }
    }
}

/// The asked term alone: as it stands, and with each part of record `at` in the place of `at`.
fn pruned(best: &Input, at: usize) -> Vec<Input> {
    let all = records::read(&best.table);
    let sane = |i: usize| {
        all[i]
            .parts()
            .iter()
            .all(|part| *part < i && all[*part].is_term())
    };
    let term = best.term;
    if at >= all.len() || term >= all.len() || !all[term].is_term() || !(0..all.len()).all(sane) {
        return vec![];
    }
    let choices = all[at].parts().into_iter().map(Some).chain([None]);
    let tables = choices.map(|part| {
        let mut records = all.clone();
        if let Some(part) = part {
            records
                .iter_mut()
                .for_each(|record| record.replace_part(at, part));
        }
        let root = part.filter(|_| term == at).unwrap_or(term);
        records::extracted(&records, root)
    });
    tables
        .map(|records| Input {
            table: records::written(&records),
            term: records::last_term(&records),
            ..best.clone()
        })
        .collect()
}

/// Zeros, no group, and a buffer of the rows' number.
fn simplify(best: &mut Input, fails: &mut dyn FnMut(&Input) -> bool) {
    let rows = best.row_count();
    keep(
        best,
        Input {
            group: 0,
            ..best.clone()
        },
        fails,
    );
    keep(
        best,
        Input {
            answers: rows,
            ..best.clone()
        },
        fails,
    );
    for at in 0..best.rows.len() {
        let mut candidate = best.clone();
        candidate.rows[at] = 0;
        keep(best, candidate, fails);
    }
    for at in 0..best.table.len() {
        let mut candidate = best.clone();
        candidate.table[at] = 0;
        keep(best, candidate, fails);
    }
}

/// The input in numbers, its table in hex that `xxd -r -p` turns into a file.
pub fn print(input: &Input) {
    println!("call: {}", input.asks.words());
    println!("columns: {}", input.columns);
    println!(
        "table, {} bytes in hex, a record to a line:",
        input.table.len()
    );
    for record in input.table.chunks(12) {
        let hex: Vec<String> = record.iter().map(|byte| format!("{byte:02x}")).collect();
        println!("  {}", hex.join(" "));
    }
    if input.asks != Asks::Check {
        println!("term: {}", input.term);
    }
    match input.asks {
        Asks::Check => {}
        Asks::Compare => println!("first: {:?}\nsecond: {:?}", input.first, input.second),
        Asks::Perfect => println!("row: {:?}", input.first),
        Asks::Query => {
            println!(
                "group: {}\nentries of the answer buffer: {}",
                input.group, input.answers
            );
            println!("rows, {} numbers:", input.rows.len());
            for row in input.rows.chunks(input.columns.clamp(1, 8)) {
                let numbers: Vec<String> = row.iter().map(|cell| cell.to_string()).collect();
                println!("  {}", numbers.join(" "));
            }
        }
    }
}
