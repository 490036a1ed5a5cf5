//! The tree of terms: decoded from the table's bytes with closures and value sets prepared, and compared by recursion.

/// How a first row compares with a second.
#[derive(Clone, Copy, PartialEq, Eq)]
pub enum Outcome {
    Same,
    First,
    Second,
    Unranked,
}

use Outcome::{First, Same, Second, Unranked};

pub enum Term {
    Lowest(usize),
    Highest(usize),
    Around(usize, i32),
    Between(usize, i32, i32),
    Pos(usize, Vec<i32>),
    Neg(usize, Vec<i32>),
    PosNeg(usize, Vec<i32>, Vec<i32>),
    PosPos(usize, Vec<i32>, Vec<i32>),
    Explicit(usize, Graph),
    Any(usize),
    Pareto(Box<Term>, Box<Term>),
    Prior(Box<Term>, Box<Term>),
    Both(Box<Term>, Box<Term>),
    Dual(Box<Term>),
}

/// The values of an EXPLICIT, sorted, and for each the set of those that are better, one bit each.
pub struct Graph {
    ends: Vec<i32>,
    better: Vec<u32>,
}

const RECORD: usize = 12;

fn number(bytes: &[u8]) -> i32 {
    i32::from_le_bytes([bytes[0], bytes[1], bytes[2], bytes[3]])
}

/// The value records of term k: role, u and v of each.
fn values(table: &[u8], k: usize) -> impl Iterator<Item = (u8, i32, i32)> + '_ {
    table[(k + 1) * RECORD..]
        .chunks_exact(RECORD)
        .take_while(|record| record[0] == 0)
        .map(|record| (record[1], number(&record[4..]), number(&record[8..])))
}

fn set(table: &[u8], k: usize, role: u8) -> Vec<i32> {
    values(table, k)
        .filter(|value| value.0 == role)
        .map(|value| value.1)
        .collect()
}

impl Term {
    pub fn decode(table: &[u8], k: usize) -> Term {
        let record = &table[k * RECORD..(k + 1) * RECORD];
        let (p, q) = (record[1] as usize, record[2] as usize);
        let (u, v) = (number(&record[4..]), number(&record[8..]));
        let favourites = || set(table, k, 1);
        let part = |k| Box::new(Term::decode(table, k));
        match record[0] {
            1 => Term::Lowest(p),
            2 => Term::Highest(p),
            3 => Term::Around(p, u),
            4 => Term::Between(p, u, v),
            5 => Term::Pos(p, favourites()),
            6 => Term::Neg(p, set(table, k, 2)),
            7 => Term::PosNeg(p, favourites(), set(table, k, 2)),
            8 => Term::PosPos(p, favourites(), set(table, k, 3)),
            9 => Term::Explicit(
                p,
                Graph::new(values(table, k).map(|(_, u, v)| (u, v)).collect()),
            ),
            10 => Term::Any(p),
            16 => Term::Pareto(part(p), part(q)),
            17 => Term::Prior(part(p), part(q)),
            18 => Term::Both(part(p), part(q)),
            19 => Term::Dual(part(p)),
            kind => panic!("record {k} is of kind {kind}, no term"),
        }
    }

    pub fn compare(&self, x: &[i32], y: &[i32]) -> Outcome {
        match self {
            Term::Lowest(c) => by_rank(x[*c], y[*c], |v| v),
            Term::Highest(c) => by_rank(y[*c], x[*c], |v| v),
            Term::Around(c, wish) => by_rank(x[*c], y[*c], |v| v.abs_diff(*wish)),
            Term::Between(c, low, up) => by_rank(x[*c], y[*c], |v| outside(v, *low, *up)),
            Term::Pos(c, good) => by_rank(x[*c], y[*c], |v| !good.contains(&v)),
            Term::Neg(c, bad) => by_rank(x[*c], y[*c], |v| bad.contains(&v)),
            Term::PosNeg(c, good, bad) => by_rank(x[*c], y[*c], |v| class(v, good, bad, [0, 2, 1])),
            Term::PosPos(c, good, next) => {
                by_rank(x[*c], y[*c], |v| class(v, good, next, [0, 1, 2]))
            }
            Term::Explicit(c, graph) => graph.compare(x[*c], y[*c]),
            Term::Any(c) => {
                if x[*c] == y[*c] {
                    Same
                } else {
                    Unranked
                }
            }
            Term::Pareto(left, right) => match left.compare(x, y) {
                Same => right.compare(x, y),
                Unranked => Unranked,
                ranked => match right.compare(x, y) {
                    Same => ranked,
                    other if other == ranked => ranked,
                    _ => Unranked,
                },
            },
            Term::Prior(left, right) => match left.compare(x, y) {
                Same => right.compare(x, y),
                decided => decided,
            },
            Term::Both(left, right) => match left.compare(x, y) {
                ranked @ (First | Second) if right.compare(x, y) != ranked => Unranked,
                decided => decided,
            },
            Term::Dual(part) => part.compare(y, x),
        }
    }
}

/// Lower rank is better. Different values of equal rank are unranked.
fn by_rank<R: Ord>(x: i32, y: i32, rank: impl Fn(i32) -> R) -> Outcome {
    if x == y {
        return Same;
    }
    match rank(x).cmp(&rank(y)) {
        std::cmp::Ordering::Less => First,
        std::cmp::Ordering::Greater => Second,
        std::cmp::Ordering::Equal => Unranked,
    }
}

fn outside(v: i32, low: i32, up: i32) -> u32 {
    if v < low {
        low.abs_diff(v)
    } else if v > up {
        v.abs_diff(up)
    } else {
        0
    }
}

/// The rank of a value in the first set, in the second, in neither.
fn class(v: i32, first: &[i32], second: &[i32], ranks: [u8; 3]) -> u8 {
    if first.contains(&v) {
        ranks[0]
    } else if second.contains(&v) {
        ranks[1]
    } else {
        ranks[2]
    }
}

impl Graph {
    /// From the edges (worse, better): the values one edge better, then through each value in turn.
    fn new(edges: Vec<(i32, i32)>) -> Graph {
        let mut ends: Vec<i32> = edges.iter().flat_map(|&(u, v)| [u, v]).collect();
        ends.sort_unstable();
        ends.dedup();
        let mut better = vec![0u32; ends.len()];
        let place = |v| ends.binary_search(&v).expect("an end of an edge");
        for (u, v) in edges {
            better[place(u)] |= 1 << place(v);
        }
        for middle in 0..ends.len() {
            for from in 0..ends.len() {
                if better[from] >> middle & 1 == 1 {
                    better[from] |= better[middle];
                }
            }
        }
        Graph { ends, better }
    }

    fn compare(&self, x: i32, y: i32) -> Outcome {
        if x == y {
            return Same;
        }
        match (self.ends.binary_search(&x), self.ends.binary_search(&y)) {
            (Ok(a), Ok(b)) if self.better[a] >> b & 1 == 1 => Second,
            (Ok(a), Ok(b)) if self.better[b] >> a & 1 == 1 => First,
            (Ok(_), Err(_)) => First,
            (Err(_), Ok(_)) => Second,
            _ => Unranked,
        }
    }
}
