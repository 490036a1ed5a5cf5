//! SPECIFICATION, "When a row is better". x < y reads "y is better".

use crate::table::{
    Record, Table, AROUND, BETWEEN, BOTH, DISLIKED, DUAL, EDGE, EXPLICIT, FAVOURITE, HIGHEST,
    LOWEST, NEG, PARETO, POS, POS_NEG, POS_POS, PRIOR, SECOND_CHOICE,
};
use crate::{wrong, Oracle};

/// A table has at most 128 records; a planted mistake lets one more pass.
const MOST_RECORDS: usize = 129;

/// For every record, whether x < y under it, as far as it is settled.
pub type Settled = [bool; MOST_RECORDS];

/// Two rows, x and y, and what is settled of them in both directions.
#[derive(Clone, Copy)]
pub struct Pair<'a> {
    pub x: &'a [i32],
    pub y: &'a [i32],
    /// x < y.
    pub up: &'a Settled,
    /// y < x.
    pub down: &'a Settled,
}

impl Oracle {
    /// Whether x < y and whether y < x under the last of the records `beneath`.
    /// Upward from the base terms, so that each record is settled once.
    pub(crate) fn ranks(
        &self,
        table: &Table,
        beneath: &[usize],
        x: &[i32],
        y: &[i32],
    ) -> (bool, bool) {
        let (mut up, mut down) = ([false; MOST_RECORDS], [false; MOST_RECORDS]);
        let mut ranks = (false, false);
        for &i in beneath {
            let (up_to_here, down_to_here) = (&up, &down);
            let there = Pair {
                x,
                y,
                up: up_to_here,
                down: down_to_here,
            };
            let back = Pair {
                x: y,
                y: x,
                up: down_to_here,
                down: up_to_here,
            };
            ranks = (self.better(table, i, &there), self.better(table, i, &back));
            (up[i], down[i]) = ranks;
        }
        ranks
    }

    /// x < y under record `i`, whose parts are settled.
    fn better(&self, table: &Table, i: usize, pair: &Pair) -> bool {
        let record = &table.records[i];
        if record.is_base() {
            // "A base term looks at one column."
            let column = usize::from(record.p);
            self.base(table, i, cell(pair.x, column), cell(pair.y, column))
        } else {
            record.is_compound() && self.compound(table, i, pair)
        }
    }

    /// x < y under a base term, for the values of its column.
    pub(crate) fn base(&self, table: &Table, i: usize, x: i32, y: i32) -> bool {
        if let Some(wrong) = self.wrong(|mistake| wrong::base(mistake, table, i, x, y)) {
            return wrong;
        }
        let record = &table.records[i];
        let run = table.run(i);
        let favourite = |value| listed(run, FAVOURITE, value);
        let disliked = |value| listed(run, DISLIKED, value);
        let second = |value| listed(run, SECOND_CHOICE, value);
        match record.kind {
            // "LOWEST: x > y. HIGHEST: x less than y."
            LOWEST => x > y,
            HIGHEST => x < y,
            // "x's distance is greater."
            AROUND | BETWEEN => distance(record, x) > distance(record, y),
            // "POS: x not favourite, y favourite."
            POS => !favourite(x) && favourite(y),
            // "NEG: x disliked, y not."
            NEG => disliked(x) && !disliked(y),
            // "POS/NEG: favourites, then others, then disliked."
            POS_NEG => {
                (disliked(x) && !disliked(y)) || (!disliked(x) && !favourite(x) && favourite(y))
            }
            // "POS/POS: favourites, then second choices, then others."
            POS_POS => {
                (second(x) && favourite(y))
                    || (!favourite(x) && !second(x) && second(y))
                    || (!favourite(x) && !second(x) && favourite(y))
            }
            // "y can be reached from x by one edge or more; or x is in no edge
            // and y is in some edge."
            EXPLICIT => reached(run, x, y) || (!in_edge(run, x) && in_edge(run, y)),
            // "ANY, nothing is better."
            _ => false,
        }
    }

    /// x < y under a compound term.
    fn compound(&self, table: &Table, i: usize, pair: &Pair) -> bool {
        if let Some(wrong) = self.wrong(|mistake| wrong::compound(mistake, table, i, pair)) {
            return wrong;
        }
        let record = &table.records[i];
        let (p, q) = (usize::from(record.p), usize::from(record.q));
        let equal = |part: usize| equal_in(table.columns(part), pair.x, pair.y);
        match record.kind {
            // "Better in one part and, in the other, better or equal in all that
            // part's columns."
            PARETO => {
                let (left, right) = (pair.up[p], pair.up[q]);
                (left && (right || equal(q))) || (right && (left || equal(p)))
            }
            // "Better in the left; or equal in all columns of the left and better
            // in the right."
            PRIOR => pair.up[p] || (equal(p) && pair.up[q]),
            // "Better in both parts."
            BOTH => pair.up[p] && pair.up[q],
            // "x and y change places."
            DUAL => pair.down[p],
            _ => false,
        }
    }
}

/// A row's value in a column.
pub fn cell(row: &[i32], column: usize) -> i32 {
    // Only a planted mistake reads beyond a row's end.
    row.get(column).copied().unwrap_or(0)
}

pub fn equal_in(columns: &[usize], x: &[i32], y: &[i32]) -> bool {
    columns
        .iter()
        .all(|&column| cell(x, column) == cell(y, column))
}

/// "Distance is the exact difference to the wish, or to the nearer bound and 0
/// inside."
pub fn distance(record: &Record, x: i32) -> i64 {
    let (x, u, v) = (i64::from(x), i64::from(record.u), i64::from(record.v));
    match record.kind {
        AROUND => (x - u).abs(),
        _ if x < u => u - x,
        _ if x > v => x - v,
        _ => 0,
    }
}

/// Whether the run lists this value in this role.
pub fn listed(run: &[Record], role: u8, value: i32) -> bool {
    run.iter()
        .any(|record| record.p == role && record.u == value)
}

pub fn in_edge(run: &[Record], value: i32) -> bool {
    run.iter()
        .any(|edge| edge.p == EDGE && (edge.u == value || edge.v == value))
}

/// "y can be reached from x by one edge or more": a depth-first search from x
/// that follows each edge ("u worse, v better") at most once.
pub fn reached(edges: &[Record], x: i32, y: i32) -> bool {
    fn search(edges: &[Record], followed: &mut [bool], x: i32, y: i32) -> bool {
        for (i, edge) in edges.iter().enumerate() {
            if edge.p == EDGE && edge.u == x && !followed[i] {
                followed[i] = true;
                if edge.v == y || search(edges, followed, edge.v, y) {
                    return true;
                }
            }
        }
        false
    }
    search(edges, &mut vec![false; edges.len()], x, y)
}
