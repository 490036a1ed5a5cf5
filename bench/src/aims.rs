//! What table 1 says about the aims: by parts against direct, and both against the peer.
use crate::markdown::{figure, item, whole};
use crate::overview::{Line, SIZES};
use crate::rows::MOST_ROWS;

/// A ratio that is to reach a bound.
struct Aim {
    words: String,
    bound: f64,
    ratio: fn(&Line) -> f64,
}

impl Aim {
    fn new(words: String, bound: f64, ratio: fn(&Line) -> f64) -> Aim {
        Aim {
            words,
            bound,
            ratio,
        }
    }

    /// How many lines reach it, and which do not.
    fn print(&self, lines: &[&Line]) {
        let ratio = self.ratio;
        let words = |line: &&&Line| format!("{} ({})", line.name, figure(ratio(line)));
        let short = lines.iter().filter(|line| ratio(line) < self.bound);
        let short: Vec<String> = short.map(|line| words(&line)).collect();
        let (reach, all) = (lines.len() - short.len(), lines.len());
        match short.is_empty() {
            true => item(&format!("{}: {all} of {all} loads.", self.words)),
            false => item(&format!(
                "{}: {reach} of {all} loads. Not: {}.",
                self.words,
                short.join("; ")
            )),
        }
    }
}

/// With so few rows the engine by parts, which is for larger catalogues, has no aim.
const FEW_ROWS: usize = 16;

/// A few rows of 256 groups are nearly all alone, so that what a call vets and prepares is all its work: no aim.
fn is_aim(line: &Line) -> bool {
    line.rows > FEW_ROWS || !line.name.ends_with("256 groups")
}

pub fn print(all: &[Line]) {
    println!("### The aims\n");
    let of = |rows| all.iter().filter(move |line| line.rows == rows);
    let by_parts = |line: &Line| line.direct_to_by_parts;
    let most: Vec<_> = of(MOST_ROWS).collect();
    let words = "By parts at least as fast as direct, 1,024 rows";
    Aim::new(words.to_string(), 1.0, by_parts).print(&most);
    let eight = |line: &&Line| line.name.starts_with("PARETO of 8") && 2 * line.kept > line.rows;
    let words = "By parts at least 5 times as fast as direct, 1,024 rows, most kept under 8 terms";
    Aim::new(words.to_string(), 5.0, by_parts)
        .print(&of(MOST_ROWS).filter(eight).collect::<Vec<_>>());
    for rows in SIZES {
        let lines: Vec<_> = of(rows).filter(|line| is_aim(line)).collect();
        let words = |engine| format!("{engine} ahead of the peer, {} rows", whole(rows));
        Aim::new(words("Direct"), 1.0, |line| line.peer_to_direct).print(&lines);
        if rows > FEW_ROWS {
            Aim::new(words("By parts"), 1.0, |line| line.peer_to_by_parts).print(&lines);
        }
    }
    println!();
}
