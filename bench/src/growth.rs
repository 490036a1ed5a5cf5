//! Table 2: how the time grows with the rows and with the records.
use crate::clock::{self, Pace};
use crate::engines::{agreed, check, timed, NAMES};
use crate::loads;
use crate::markdown::{figure, table, whole};
use crate::rows::{anti_correlated, independent};
use std::hint::black_box;

pub const SIZES: [usize; 7] = [16, 32, 64, 128, 256, 512, 1024];
const TERMS: [usize; 4] = [8, 16, 32, 64];

/// Of one load: for direct, by parts and the peer, the microseconds at each size.
pub struct Curve {
    pub name: String,
    pub times: Vec<Vec<f64>>,
}

/// One measured thing over a number that is doubled.
struct Line {
    name: String,
    who: &'static str,
    times: Vec<f64>,
}

impl Line {
    /// Which step, and how many times the figure before.
    fn ratios(&self) -> impl Iterator<Item = (usize, f64)> + '_ {
        let pairs = self.times.windows(2).enumerate();
        pairs.map(|(i, pair)| (i + 1, pair[1] / pair[0]))
    }

    fn figures(&self) -> impl Iterator<Item = String> + '_ {
        let others = self
            .ratios()
            .map(|(i, ratio)| format!("{} ×{ratio:.2}", figure(self.times[i])));
        [figure(self.times[0])].into_iter().chain(others)
    }
}

pub fn print(pace: Pace) -> Result<Vec<Curve>, String> {
    println!("## Table 2: growth, microseconds, and how many times the figure before\n");
    let curves = rows_doubled(pace)?;
    records_doubled(pace)?;
    Ok(curves)
}

fn rows_doubled(pace: Pace) -> Result<Vec<Curve>, String> {
    println!("### Rows doubled\n");
    let loads = [
        loads::pareto(2, "independent"),
        loads::pareto(8, "anti-correlated"),
        loads::sixty_four(),
    ];
    let mut curves = Vec::new();
    for load in &loads {
        let mut by_size = Vec::new();
        for rows in SIZES {
            agreed(load, rows)?;
            by_size.push(timed(pace, load, rows));
        }
        let (name, times) = (load.name.clone(), turned(&by_size));
        curves.push(Curve { name, times });
    }
    let mut all = Vec::new();
    for curve in &curves {
        println!("{}:\n", curve.name);
        let lines = named(&curve.name, &curve.times);
        put(&["rows"], &SIZES, &lines, |line| vec![line.who.to_string()]);
        all.extend(lines);
    }
    over(&SIZES, 4.0, &all);
    println!(
        "Where every pair of n rows is compared, the pairs themselves grow by 4 + 2/(n - 1).\n"
    );
    Ok(curves)
}

/// PARETO of LOWEST and AROUND. Under rows that are all kept the number of comparisons stays the same; under equal rows
/// no comparison can end before its last record.
fn records_doubled(pace: Pace) -> Result<(), String> {
    println!("### Records doubled: PARETO over base terms\n");
    let mut lines = vec![checks(pace)];
    for (rows, points, run) in [
        (16, "anti-correlated", anti_correlated(85)),
        (pace.rows, "anti-correlated", anti_correlated(85)),
        (pace.rows, "equal", independent(1, 1)),
    ] {
        let mut by_terms = Vec::new();
        for terms in TERMS {
            let load = loads::lowest_and_around(terms, run.clone());
            agreed(&load, rows)?;
            by_terms.push(timed(pace, &load, rows));
        }
        let name = format!("{} {points} rows", whole(rows));
        lines.extend(named(&name, &turned(&by_terms)));
    }
    put(&["base terms", ""], &TERMS, &lines, |line| {
        vec![line.name.clone(), line.who.to_string()]
    });
    over(&TERMS, 2.0, &lines);
    Ok(())
}

fn checks(pace: Pace) -> Line {
    let time = |&terms: &usize| {
        let table = loads::lowest_and_around(terms, Vec::new()).table;
        let mut call = || {
            black_box(check(black_box(&table)));
        };
        clock::medians(pace, &mut [&mut call])[0]
    };
    Line {
        name: "the check alone".to_string(),
        who: "check",
        times: TERMS.iter().map(time).collect(),
    }
}

/// From the three at each size to the sizes of each of the three.
fn turned(by_size: &[Vec<f64>]) -> Vec<Vec<f64>> {
    let of = |who: usize| by_size.iter().map(|times| times[who]).collect();
    (0..NAMES.len()).map(of).collect()
}

fn named(name: &str, times: &[Vec<f64>]) -> Vec<Line> {
    let line = |(&who, times): (&&'static str, &Vec<f64>)| Line {
        name: name.to_string(),
        who,
        times: times.clone(),
    };
    NAMES.iter().zip(times).map(line).collect()
}

/// A table whose first columns say which line it is.
fn put(first: &[&str], steps: &[usize], lines: &[Line], words: fn(&Line) -> Vec<String>) {
    let sizes: Vec<String> = steps.iter().map(|&step| whole(step)).collect();
    let mut head = first.to_vec();
    head.extend(sizes.iter().map(String::as_str));
    let cells = |line: &Line| words(line).into_iter().chain(line.figures()).collect();
    table(
        first.len(),
        &head,
        &lines.iter().map(cells).collect::<Vec<_>>(),
    );
}

/// Each doubling that costs the library more than the bound.
fn over(steps: &[usize], bound: f64, lines: &[Line]) {
    println!("A doubling costs the library at most {bound} times, but for:\n");
    let ours = lines.iter().filter(|line| line.who != NAMES[2]);
    let over = ours.flat_map(|line| line.ratios().map(move |step| (line, step)));
    let over: Vec<_> = over.filter(|(_, (_, ratio))| *ratio > bound).collect();
    for (line, (i, ratio)) in &over {
        println!(
            "- {}, {}: {} to {}, ×{ratio:.2}",
            line.name,
            line.who,
            whole(steps[i - 1]),
            whole(steps[*i])
        );
    }
    println!("{}", if over.is_empty() { "- nothing\n" } else { "" });
}
