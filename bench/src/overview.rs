//! Table 1: every load at three sizes by the three, the smallest queries, and cold buffers.
use crate::aims;
use crate::clock::{self, Pace};
use crate::engines::{agreed, check, timed_cold, timed_rounds};
use crate::loads::{self, Load};
use crate::markdown::{figure, table, whole};
use crate::rows::{MOST_ROWS, V};
use crate::table::RECORD;
use std::hint::black_box;

pub const SIZES: [usize; 3] = [MOST_ROWS, 128, 16];

const HEAD: [&str; 9] = [
    "load",
    "rows",
    "kept",
    "direct",
    "by parts",
    "peer",
    "peer/direct",
    "peer/parts",
    "direct/parts",
];

/// One load at one size: microseconds of each of the three, and their ratios.
pub struct Line {
    pub name: String,
    pub rows: usize,
    pub kept: usize,
    times: Vec<f64>,
    pub peer_to_direct: f64,
    pub peer_to_by_parts: f64,
    pub direct_to_by_parts: f64,
}

impl Line {
    fn new(load: &Load, rows: usize, kept: usize, rounds: Vec<Vec<f64>>) -> Line {
        let ratio = |over: usize, under: usize| clock::ratio(&rounds[over], &rounds[under]);
        Line {
            name: load.name.clone(),
            rows,
            kept,
            peer_to_direct: ratio(2, 0),
            peer_to_by_parts: ratio(2, 1),
            direct_to_by_parts: ratio(0, 1),
            times: rounds.into_iter().map(clock::median).collect(),
        }
    }

    fn warm(pace: Pace, load: &Load, rows: usize) -> Result<Line, String> {
        let kept = agreed(load, rows)?;
        Ok(Line::new(load, rows, kept, timed_rounds(pace, load, rows)))
    }

    fn cold(pace: Pace, load: &Load, rows: usize) -> Result<Line, String> {
        let kept = agreed(load, rows)?;
        let rounds = timed_cold(pace.rounds, load, rows);
        Ok(Line::new(load, rows, kept, rounds))
    }

    fn cells(&self) -> Vec<String> {
        let mut cells = vec![self.name.clone(), whole(self.rows), whole(self.kept)];
        cells.extend(self.times.iter().copied().map(figure));
        let ratios = [
            self.peer_to_direct,
            self.peer_to_by_parts,
            self.direct_to_by_parts,
        ];
        cells.extend(ratios.map(figure));
        cells
    }
}

/// The microseconds that the check of a load's table takes.
fn check_cells(pace: Pace, load: &Load) -> Vec<String> {
    let mut call = || {
        black_box(check(black_box(&load.table)));
    };
    let times = clock::medians(pace, &mut [&mut call]);
    let records = load.table.len() / RECORD;
    vec![load.name.clone(), whole(records), figure(times[0])]
}

fn put(lines: &[Line]) {
    let cells: Vec<_> = lines.iter().map(Line::cells).collect();
    table(1, &HEAD, &cells);
}

pub fn print(pace: Pace) -> Result<(), String> {
    println!("## Table 1: one query, microseconds\n");
    println!("PARETO of n and PRIOR of n: over n LOWEST, each of a column of its own.");
    println!("Warm: the same buffers in every round.\n");
    let loads = loads::loads();
    let mut all = Vec::new();
    for rows in SIZES {
        println!("### {} rows\n", whole(rows));
        let lines = loads.iter().map(|load| Line::warm(pace, load, rows));
        let lines = lines.collect::<Result<Vec<_>, _>>()?;
        put(&lines);
        all.extend(lines);
    }
    println!("### The check alone, which each call of the library begins with\n");
    let cells: Vec<_> = loads.iter().map(|load| check_cells(pace, load)).collect();
    table(1, &["load", "records", "check"], &cells);
    println!("### One row, and the seven rows of V\n");
    let small = loads::t1_over_v();
    put(&[
        Line::warm(pace, &small, 1)?,
        Line::warm(pace, &small, V.len())?,
    ]);
    println!("### Cold: 64 MiB written before each call\n");
    put(&[
        Line::cold(pace, &small, V.len())?,
        Line::cold(pace, &loads::pareto(2, "independent"), MOST_ROWS)?,
        Line::cold(pace, &loads::pareto(8, "independent"), MOST_ROWS)?,
    ]);
    aims::print(&all);
    Ok(())
}
