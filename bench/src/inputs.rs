//! Inputs that a search can change a little at a time: tables and rows within the limits.
use crate::loads::Load;
use crate::markdown::whole;
use crate::rows::{anti_correlated, correlated, independent, Random, COLUMNS};
use crate::table::*;

/// An input in the terms in which it is changed.
#[derive(Clone)]
pub struct Input {
    bases: Vec<Base>,
    joins: Vec<(u8, usize)>,
    shape: Shape,
    columns: usize,
    points: Points,
    seed: u64,
    edits: Vec<Edit>,
    group: u8,
}

/// A base term: how many values of each role, the wish or low, and how many DUALs stand over it.
#[derive(Clone, Copy)]
struct Base {
    kind: u8,
    values: usize,
    wish: i32,
    duals: usize,
}

#[derive(Clone, Copy)]
enum Shape {
    Left,
    Right,
    Balanced,
}

#[derive(Clone, Copy)]
enum Points {
    Below(u64),
    Correlated,
    AntiCorrelated,
}

/// A stretch of rows, in sixty-fourths of all, whose column holds one value.
#[derive(Clone, Copy)]
struct Edit {
    from: usize,
    length: usize,
    column: usize,
    value: i32,
}

const BASES: [u8; 10] = [
    LOWEST, HIGHEST, AROUND, BETWEEN, POS, NEG, POS_NEG, POS_POS, EXPLICIT, ANY,
];
const JOINS: [u8; 3] = [PARETO, PRIOR, BOTH];
const BOUNDS: [u64; 8] = [1, 2, 3, 5, 20, 64, 1_000, 1_000_000];
const VALUES: [usize; 5] = [0, 1, 4, 8, 16];
const STRETCHES: usize = 64;

fn one<T: Copy>(random: &mut Random, of: &[T]) -> T {
    of[random.below(of.len() as u64) as usize]
}

fn index(random: &mut Random, below: usize) -> usize {
    random.below(below as u64) as usize
}

impl Base {
    fn random(random: &mut Random) -> Base {
        Base {
            kind: one(random, &BASES),
            values: one(random, &VALUES),
            wish: random.below(20) as i32,
            duals: one(random, &[0, 0, 0, 1]),
        }
    }

    /// The role and u, v of value i: classes do not clash, and edges lead from higher numbers to lower ones.
    fn value(&self, i: usize) -> (u8, i32, i32) {
        let u = i as i32;
        match self.kind {
            NEG => (DISLIKED, u, 0),
            POS_NEG if i % 2 == 1 => (DISLIKED, u, 0),
            POS_POS if i % 2 == 1 => (SECOND_CHOICE, u, 0),
            EXPLICIT => (EDGE, u + 1, u * (self.wish % 4) / 3),
            _ => (FAVOURITE, u, 0),
        }
    }

    fn put(&self, t: &mut Table, column: usize) -> usize {
        let values: Vec<_> = (0..self.values).map(|i| self.value(i)).collect();
        let mut term = match self.kind {
            LOWEST | HIGHEST | ANY => t.base(self.kind, column, 0, 0),
            AROUND => t.base(AROUND, column, self.wish, 0),
            BETWEEN => t.base(BETWEEN, column, self.wish, self.wish + 2),
            _ => t.with_values(self.kind, column, &values),
        };
        for _ in 0..self.duals {
            term = t.dual(term);
        }
        term
    }
}

impl Input {
    pub fn random(random: &mut Random) -> Input {
        let terms = 1 + index(random, 64);
        let mut input = Input {
            bases: (0..terms).map(|_| Base::random(random)).collect(),
            joins: (1..terms)
                .map(|_| (one(random, &[PARETO, PARETO, PRIOR]), 0))
                .collect(),
            shape: one(random, &[Shape::Left, Shape::Right, Shape::Balanced]),
            columns: 1 + index(random, COLUMNS),
            points: Points::Below(1),
            seed: random.below(1 << 32),
            edits: Vec::new(),
            group: 0,
        };
        input.points = points(random);
        input.fit();
        input
    }

    /// Takes base terms off the end until the table is within the limit.
    fn fit(&mut self) {
        while self.bases.len() > 1 && self.table().0.records() > MOST_RECORDS {
            self.bases.pop();
            self.joins.pop();
        }
    }

    /// The same input with one thing changed.
    pub fn changed(&self, random: &mut Random) -> Input {
        let mut next = self.clone();
        let k = index(random, next.bases.len());
        match random.below(15) {
            0 => next.bases[k] = Base::random(random),
            1 => next.bases[k].kind = one(random, &BASES),
            2 => next.bases[k].duals = one(random, &[0, 1, 2, 63, 127]),
            3 if !next.joins.is_empty() => {
                let j = index(random, next.joins.len());
                next.joins[j] = (one(random, &JOINS), one(random, &[0, 0, 1]));
            }
            4 => next.shape = one(random, &[Shape::Left, Shape::Right, Shape::Balanced]),
            5 => next.columns = 1 + index(random, COLUMNS),
            6 => next.points = points(random),
            7 => next.seed = random.below(1 << 32),
            8 => next.edits.push(edit(random)),
            9 => drop(next.edits.pop()),
            10 => next.group = one(random, &[0, 0, 1, 2, 128]),
            11 => next.bases[k].values = one(random, &VALUES),
            12 => next.bases = vec![next.bases[k]; next.bases.len()],
            13 => next.joins.fill((one(random, &JOINS), 0)),
            _ => next.resize(random),
        }
        next.fit();
        next
    }

    /// More base terms like one that is there, or fewer.
    fn resize(&mut self, random: &mut Random) {
        let like = one(random, &self.bases.clone());
        let join = (one(random, &JOINS), 0);
        let terms = 1 + index(random, 64);
        self.bases.resize(terms, like);
        self.joins.resize(terms - 1, join);
    }

    pub fn table(&self) -> (Table, usize) {
        let mut t = Table::default();
        let columns = self.columns;
        let put = |(i, base): (usize, &Base)| base.put(&mut t, i % columns);
        let mut open: Vec<usize> = self.bases.iter().enumerate().map(put).collect();
        for &(kind, duals) in &self.joins {
            let (left, right, at) = match self.shape {
                Shape::Left => (open.remove(0), open.remove(0), 0),
                Shape::Right => {
                    let right = open.pop().unwrap_or(0);
                    (open.pop().unwrap_or(0), right, open.len())
                }
                Shape::Balanced => (open.remove(0), open.remove(0), open.len()),
            };
            let mut term = t.join(kind, left, right);
            for _ in 0..duals {
                term = t.dual(term);
            }
            open.insert(at, term);
        }
        (t, open[0])
    }

    pub fn load(&self, count: usize) -> Load {
        let (table, term) = self.table();
        let mut rows = match self.points {
            Points::Below(bound) => independent(self.seed, bound),
            Points::Correlated => correlated(self.seed),
            Points::AntiCorrelated => anti_correlated(self.seed),
        };
        for edit in &self.edits {
            let from = edit.from * count / STRETCHES;
            let length = edit.length * count / STRETCHES;
            for row in rows.chunks_exact_mut(COLUMNS).skip(from).take(length) {
                row[edit.column] = edit.value;
            }
        }
        Load {
            name: self.describe(),
            table: table.bytes,
            term,
            rows,
            group: self.group,
        }
    }

    fn describe(&self) -> String {
        let points = match self.points {
            Points::Below(bound) => format!("from 0 to {}", whole(bound as usize - 1)),
            Points::Correlated => "correlated".to_string(),
            Points::AntiCorrelated => "anti-correlated".to_string(),
        };
        let (edits, group) = (self.edits.len(), self.group);
        let table = self.table_words();
        format!("{table}; rows {points}; stretches of one value: {edits}; group byte: {group}")
    }

    /// How many records of each kind, the shape, and over how many columns.
    pub fn table_words(&self) -> String {
        let (table, _) = self.table();
        let of = |kind: u8| {
            let kinds = table.bytes.iter().step_by(RECORD);
            (kinds.filter(|&&k| k == kind).count(), kind)
        };
        let counts = (0..=DUAL).map(of).filter(|(count, _)| *count > 0);
        let words: Vec<_> = counts
            .map(|(count, kind)| format!("{count} {}", name(kind)))
            .collect();
        let shape = match self.shape {
            Shape::Left => "left-leaning",
            Shape::Right => "right-leaning",
            Shape::Balanced => "balanced",
        };
        format!("{}, {shape}, columns: {}", words.join(", "), self.columns)
    }
}

fn points(random: &mut Random) -> Points {
    let below = Points::Below(one(random, &BOUNDS));
    one(
        random,
        &[below, below, Points::Correlated, Points::AntiCorrelated],
    )
}

fn edit(random: &mut Random) -> Edit {
    Edit {
        from: index(random, STRETCHES),
        length: 1 + index(random, STRETCHES),
        column: index(random, COLUMNS),
        value: one(random, &[-1, 0, 1, 7, i32::MAX]),
    }
}
