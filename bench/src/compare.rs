//! Two archives compared: what one run measures, a line for each load and size, and the medians over many runs of each.
use crate::clock::{self, BRIEF};
use crate::engines::{agreed, timed_rounds};
use crate::loads;
use crate::markdown::{figure, table, whole};
use crate::rows::MOST_ROWS;

const SIZES: [usize; 2] = [MOST_ROWS, 128];
const HEAD: [&str; 9] = [
    "load",
    "rows",
    "direct, old",
    "new",
    "new/old",
    "parts, old",
    "new",
    "new/old",
    "peer new/old",
];

/// A load's name and its rows, then the microseconds of each of the three.
pub fn measure() -> Result<(), String> {
    for rows in SIZES {
        for load in loads::loads() {
            agreed(&load, rows)?;
            let rounds = timed_rounds(BRIEF, &load, rows).into_iter();
            let times: Vec<_> = rounds
                .map(|times| clock::median(times).to_string())
                .collect();
            println!("{}|{rows}|{}", load.name, times.join("|"));
        }
    }
    Ok(())
}

/// What many runs measured of one load and size.
struct Measured {
    name: String,
    rows: usize,
    times: [Vec<f64>; 3],
}

impl Measured {
    fn medians(&self) -> [f64; 3] {
        [0, 1, 2].map(|i| clock::median(self.times[i].clone()))
    }
}

fn parsed(line: &str) -> Option<(&str, usize, [f64; 3])> {
    let mut fields = line.split('|');
    let (name, rows) = (fields.next()?, fields.next()?.parse().ok()?);
    let mut time = || fields.next()?.parse().ok();
    Some((name, rows, [time()?, time()?, time()?]))
}

fn read(file: &str) -> Result<Vec<Measured>, String> {
    let text = std::fs::read_to_string(file).map_err(|error| format!("{file}: {error}"))?;
    let mut all: Vec<Measured> = Vec::new();
    for line in text.lines() {
        let (name, rows, times) = parsed(line).ok_or(format!("{file}: {line}"))?;
        let at = all.iter().position(|m| m.name == name && m.rows == rows);
        let at = at.unwrap_or(all.len());
        if at == all.len() {
            all.push(Measured {
                name: name.to_string(),
                rows,
                times: Default::default(),
            });
        }
        for (list, time) in all[at].times.iter_mut().zip(times) {
            list.push(time);
        }
    }
    Ok(all)
}

/// The medians of both, and how many times the old one's the new one's are.
pub fn print(old: &str, new: &str) -> Result<(), String> {
    let (old, new) = (read(old)?, read(new)?);
    let loads =
        |all: &[Measured]| -> Vec<_> { all.iter().map(|m| (m.name.clone(), m.rows)).collect() };
    if loads(&old) != loads(&new) {
        return Err("the two have not the same loads".to_string());
    }
    let mut ratios = Vec::new();
    let mut peers = Vec::new();
    let mut cells = Vec::new();
    for (a, b) in old.iter().zip(&new) {
        let (from, to) = (a.medians(), b.medians());
        let ratio = |i: usize| to[i] / from[i];
        ratios.extend([ratio(0), ratio(1)]);
        peers.push(ratio(2));
        let mut line = vec![a.name.clone(), whole(a.rows)];
        for i in [0, 1] {
            line.extend([from[i], to[i], ratio(i)].map(figure));
        }
        line.push(figure(ratio(2)));
        cells.push(line);
    }
    println!("## Two archives, one query, microseconds\n");
    table(1, &HEAD, &cells);
    let above = ratios.iter().filter(|&&ratio| ratio > 1.05).count();
    println!(
        "- {above} of {} ratios are above 1.05; {}.",
        ratios.len(),
        ends(&ratios)
    );
    println!("- The peer, the same code in both: {}.", ends(&peers));
    Ok(())
}

/// The lowest and the highest.
fn ends(ratios: &[f64]) -> String {
    let low = ratios.iter().copied().fold(f64::INFINITY, f64::min);
    let high = ratios.iter().copied().fold(0.0, f64::max);
    format!("they run from {low:.3} to {high:.3}")
}
