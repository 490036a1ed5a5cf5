//! Rows of eight columns from a seeded generator.

pub const COLUMNS: usize = 8;
pub const MOST_ROWS: usize = 1024;

/// A xorshift generator: the same numbers in every run.
pub struct Random(u64);

impl Random {
    pub fn new(seed: u64) -> Random {
        let mut random = Random(seed | 1);
        for _ in 0..20 {
            random.next();
        }
        random
    }

    fn next(&mut self) -> u64 {
        self.0 ^= self.0 << 13;
        self.0 ^= self.0 >> 7;
        self.0 ^= self.0 << 17;
        self.0.wrapping_mul(0x2545_f491_4f6c_dd1d)
    }

    pub fn below(&mut self, bound: u64) -> u64 {
        (self.next() >> 16) % bound
    }

    /// From 0 up to but not with 1.
    fn unit(&mut self) -> f64 {
        (self.next() >> 11) as f64 / (1u64 << 53) as f64
    }
}

pub fn independent(seed: u64, below: u64) -> Vec<i32> {
    let mut random = Random::new(seed);
    let values = (0..MOST_ROWS * COLUMNS).map(|_| random.below(below) as i32);
    values.collect()
}

/// Points near a plane on which the columns have one sum: what is low in some columns is high in others.
pub fn anti_correlated(seed: u64) -> Vec<i32> {
    let mut random = Random::new(seed);
    let mut rows = Vec::new();
    for _ in 0..MOST_ROWS {
        let x: [f64; COLUMNS] = std::array::from_fn(|_| random.unit());
        let wanted = 0.5 * COLUMNS as f64 + 0.1 * (random.unit() - 0.5);
        let shift = (wanted - x.iter().sum::<f64>()) / COLUMNS as f64;
        rows.extend(x.iter().map(|x| ((x + shift) * 1e6) as i32));
    }
    rows
}

/// Points near a line on which all columns are equal: what is low in some columns is low in the others.
pub fn correlated(seed: u64) -> Vec<i32> {
    let mut random = Random::new(seed);
    let mut rows = Vec::new();
    for _ in 0..MOST_ROWS {
        let middle = random.unit();
        rows.extend((0..COLUMNS).map(|_| ((middle + 0.1 * random.unit()) * 1e6) as i32));
    }
    rows
}

/// The rows with so many values in the last column.
pub fn grouped(mut rows: Vec<i32>, groups: u64) -> Vec<i32> {
    for row in rows.chunks_exact_mut(COLUMNS) {
        row[COLUMNS - 1] %= groups as i32;
    }
    rows
}

/// The rows V (SPECIFICATION, "Worked cases"); their other columns are zero.
pub const V: [[i32; COLUMNS]; 7] = [
    [-5, 3, 4, 0, 0, 0, 0, 0],
    [-5, 4, 4, 0, 0, 0, 0, 0],
    [5, 1, 8, 0, 0, 0, 0, 0],
    [5, 6, 6, 0, 0, 0, 0, 0],
    [-6, 0, 6, 0, 0, 0, 0, 0],
    [-6, 0, 4, 0, 0, 0, 0, 0],
    [6, 2, 7, 0, 0, 0, 0, 0],
];

/// The rows again and again.
pub fn repeated(rows: &[[i32; COLUMNS]]) -> Vec<i32> {
    let all = rows.iter().cycle().take(MOST_ROWS);
    all.flatten().copied().collect()
}
