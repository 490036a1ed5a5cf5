//! The generator's rows: from the palette of the table, often equal in some columns, sometimes at a wish.

use crate::random::Random;
use crate::records::*;

pub struct Rows<'a> {
    pub palette: &'a [i32],
    pub records: &'a [Record],
    /// Columns of a row, at least one.
    pub width: usize,
}

impl Rows<'_> {
    /// Row after row in one run.
    pub fn run(&self, random: &mut Random, count: usize) -> Vec<i32> {
        let mut run: Vec<i32> = Vec::with_capacity(count * self.width);
        for i in 0..count {
            let row = match random.below(8) {
                0..=2 if i > 0 => self.like(random, &run, i),
                3 => self.wished(random),
                _ => self.drawn(random),
            };
            run.extend(row);
        }
        run
    }

    /// Every column from the palette.
    pub fn drawn(&self, random: &mut Random) -> Vec<i32> {
        (0..self.width).map(|_| random.pick(self.palette)).collect()
    }

    /// An earlier row again, or changed in one column, or mirrored.
    fn like(&self, random: &mut Random, run: &[i32], count: usize) -> Vec<i32> {
        let from = random.below(count) * self.width;
        let mut row = run[from..from + self.width].to_vec();
        match random.below(4) {
            0 => {}
            1 => self.mirror(random, &mut row),
            _ => self.change(random, &mut row),
        }
        row
    }

    /// Changes one column, mostly one that a term reads.
    pub fn change(&self, random: &mut Random, row: &mut [i32]) {
        let bases: Vec<usize> = (0..self.records.len())
            .filter(|i| self.records[*i].is_base())
            .collect();
        let read = match bases.len() {
            0 => 0,
            _ => self.records[random.pick(&bases)].p as usize,
        };
        let any = random.once_in(4);
        let column = if any || read >= row.len() {
            random.below(row.len())
        } else {
            read
        };
        row[column] = random.pick(self.palette);
    }

    /// Turns some columns about a wish or about the middle of two bounds: distances stay equal, values do not.
    pub fn mirror(&self, random: &mut Random, row: &mut [i32]) {
        for record in self
            .records
            .iter()
            .filter(|record| [AROUND, BETWEEN].contains(&record.kind))
        {
            let column = record.p as usize;
            let other = if record.kind == AROUND {
                record.u
            } else {
                record.v
            };
            if column < row.len() && !random.once_in(4) {
                let turned = record.u as i64 + other as i64 - row[column] as i64;
                row[column] = i32::try_from(turned).unwrap_or(row[column]);
            }
        }
    }

    /// Every column at what some base term over it names, or at an end of the range: perfect rows come from here.
    pub fn wished(&self, random: &mut Random) -> Vec<i32> {
        (0..self.width)
            .map(|column| {
                let over: Vec<usize> = (0..self.records.len())
                    .filter(|i| self.records[*i].is_base() && self.records[*i].p as usize == column)
                    .collect();
                if over.is_empty() {
                    random.pick(self.palette)
                } else {
                    let term = random.pick(&over);
                    self.named(random, term)
                }
            })
            .collect()
    }

    fn named(&self, random: &mut Random, term: usize) -> i32 {
        let ends = [i32::MIN, i32::MAX];
        let record = self.records[term];
        let after = &self.records[term + 1..];
        let values = after.iter().take_while(|next| next.kind == VALUE).count();
        match record.kind {
            _ if random.once_in(4) => random.pick(&ends),
            LOWEST => i32::MIN,
            HIGHEST => i32::MAX,
            AROUND | BETWEEN => random.pick(&[record.u, record.v]),
            _ if values > 0 => {
                let value = after[random.below(values)];
                random.pick(&[value.u, value.v])
            }
            _ => random.pick(self.palette),
        }
    }
}
