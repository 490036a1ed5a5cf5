//! The generator's tables that the check accepts: trees of terms with their values.

use crate::random::Random;
use crate::records::*;

/// How a tree grows: compounds over the latest term, over any, or only when no room is left.
#[derive(Clone, Copy, PartialEq)]
enum Style {
    Deep,
    Mixed,
    Late,
}

/// The values that a table and its rows share. Few of them make ties, and hits in the terms' values.
pub fn palette(random: &mut Random) -> Vec<i32> {
    const ENDS: [i32; 12] = [
        i32::MIN,
        i32::MIN + 1,
        -1_073_741_824,
        -65_536,
        -1,
        0,
        1,
        255,
        65_536,
        1_073_741_824,
        i32::MAX - 1,
        i32::MAX,
    ];
    let count = if random.once_in(12) {
        40
    } else {
        2 + random.below(7)
    };
    let start = random.between(-6, 3);
    let small = |random: &mut Random| start + random.below(count) as i32;
    let sort = random.below(8);
    (0..count)
        .map(|k| match sort {
            0..=2 => start + k as i32,
            3..=4 => random.pick(&ENDS),
            5..=6 if random.once_in(3) => random.pick(&ENDS),
            5..=6 => small(random),
            _ => random.next() as i32,
        })
        .collect()
}

/// A tree over columns below `columns`, with about `terms` terms and at most `most` records.
pub fn tree(
    random: &mut Random,
    palette: &[i32],
    columns: usize,
    terms: usize,
    most: usize,
) -> Vec<Record> {
    let mut grower = Grower::new(random, palette, columns, most);
    while grower.terms < terms && grower.grow() {}
    while grower.free.len() > 1 {
        grower.join();
    }
    grower.records
}

/// A term that is no part yet.
#[derive(Clone, Copy)]
struct Free {
    number: usize,
    columns: u8,
}

struct Grower<'a> {
    random: &'a mut Random,
    palette: &'a [i32],
    read: Vec<usize>,
    style: Style,
    most: usize,
    records: Vec<Record>,
    free: Vec<Free>,
    terms: usize,
}

impl<'a> Grower<'a> {
    fn new(random: &'a mut Random, palette: &'a [i32], columns: usize, most: usize) -> Grower<'a> {
        // Few columns are shared often, and let BOTH join terms.
        let few = columns.min(1 + random.below(4));
        let count = 1 + random.below(few);
        let read = (0..count).map(|_| random.below(columns)).collect();
        let style = random.pick(&[Style::Deep, Style::Mixed, Style::Mixed, Style::Late]);
        let mut grower = Grower {
            random,
            palette,
            read,
            style,
            most,
            records: vec![],
            free: vec![],
            terms: 0,
        };
        grower.base();
        grower
    }

    /// One more term, if the records left are enough to join all that are free.
    fn grow(&mut self) -> bool {
        let room = self.most - self.records.len();
        if room <= self.free.len() {
            return false;
        }
        let wants = match self.style {
            Style::Deep => self.free.len() > 1 || self.random.once_in(3),
            Style::Mixed => self.random.once_in(2),
            Style::Late => self.random.once_in(8),
        };
        match wants {
            true if self.free.len() > 1 && !self.random.once_in(4) => self.join(),
            true => self.turn(),
            false => self.base(),
        }
        true
    }

    /// A base term with its values, as far as there is room.
    fn base(&mut self) {
        let column = self.random.pick(&self.read);
        // ANY ranks nothing: it is to be there, and seldom.
        let kind = match self.random.below(24) {
            0 => ANY,
            _ => self.random.pick(&TERMS[..9]).0,
        };
        let mut term = Record::base(kind, column);
        let (one, two) = (self.value(), self.value());
        match kind {
            AROUND => term.u = one,
            BETWEEN => (term.u, term.v) = (one.min(two), one.max(two)),
            _ => {}
        }
        // Joining this term with the free ones takes one record for each of them.
        let room = self
            .most
            .saturating_sub(self.records.len() + 1 + self.free.len());
        let values = self.values(kind, room.min(16));
        self.push(term, 1 << column);
        self.records.extend(values);
    }

    fn value(&mut self) -> i32 {
        let value = self.random.pick(self.palette);
        if self.random.once_in(8) {
            value.saturating_add(self.random.between(-1, 1))
        } else {
            value
        }
    }

    fn values(&mut self, kind: u8, room: usize) -> Vec<Record> {
        let roles: &[u8] = match kind {
            POS => &[1],
            NEG => &[2],
            POS_NEG => &[1, 2],
            POS_POS => &[1, 3],
            EXPLICIT => &[4],
            _ => return vec![],
        };
        let most = if self.random.once_in(10) { 16 } else { 5 };
        let count = self.random.below(most + 1).min(room);
        if kind == EXPLICIT {
            return self.edges(count);
        }
        // The role goes by the value, so that no value stands under both.
        let salt = self.random.below(64) as i32;
        (0..count)
            .map(|_| {
                let value = self.value();
                let side = ((value ^ salt).count_ones() as usize) % roles.len();
                Record::value(roles[side], value)
            })
            .collect()
    }

    /// Edges that lead upward in one shuffled order of the palette, so that none closes a cycle.
    fn edges(&mut self, count: usize) -> Vec<Record> {
        let mut order = self.palette.to_vec();
        order.sort_unstable();
        order.dedup();
        for k in (1..order.len()).rev() {
            order.swap(k, self.random.below(k + 1));
        }
        if order.len() < 2 {
            return vec![];
        }
        (0..count)
            .map(|_| {
                let worse = self.random.below(order.len() - 1);
                let better = worse + 1 + self.random.below(order.len() - worse - 1);
                Record::edge(order[worse], order[better])
            })
            .collect()
    }

    /// DUAL over a free term.
    fn turn(&mut self) {
        let part = self.taken();
        self.push(Record::dual(part.number), part.columns);
    }

    /// A compound over two free terms.
    fn join(&mut self) {
        let twins = self.twins();
        let (left, right, kind) = match twins {
            Some((left, right)) if self.random.once_in(3) => {
                let right = self.free.remove(right);
                (self.free.remove(left), right, BOTH)
            }
            _ => {
                let kind = self.random.pick(&[PARETO, PRIOR]);
                (self.taken(), self.taken(), kind)
            }
        };
        let columns = left.columns | right.columns;
        let (left, right) = if self.random.once_in(2) {
            (left, right)
        } else {
            (right, left)
        };
        self.push(Record::compound(kind, left.number, right.number), columns);
    }

    /// The places of two free terms that read the same columns, the lower first.
    fn twins(&self) -> Option<(usize, usize)> {
        let count = self.free.len();
        let pairs = (0..count).flat_map(|right| (0..right).map(move |left| (left, right)));
        let mut equal =
            pairs.filter(|(left, right)| self.free[*left].columns == self.free[*right].columns);
        equal.next()
    }

    fn taken(&mut self) -> Free {
        let latest = self.free.len() - 1;
        let at = if self.style == Style::Deep {
            latest
        } else {
            self.random.below(latest + 1)
        };
        self.free.remove(at)
    }

    fn push(&mut self, term: Record, columns: u8) {
        self.free.push(Free {
            number: self.records.len(),
            columns,
        });
        self.records.push(term);
        self.terms += 1;
    }
}
