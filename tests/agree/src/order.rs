//! Two faults in one record: the lower number is the reply. Each input states its reply (SPECIFICATION, "What a call
//! refuses").

use crate::input::{Asks, Input, Origin};
use crate::random::Random;
use crate::records::*;
use crate::rows::Rows;
use finialbasil::ffi::NO_PLACE;

/// The two numbers. A record of a kind not in the list has no other fault, and a part that is no term reads no columns;
/// so pairs with 3, and 6 with 13, are not here.
pub const CASES: [(u32, u32); 15] = [
    (4, 5),
    (4, 6),
    (4, 7),
    (4, 8),
    (4, 9),
    (4, 10),
    (4, 11),
    (4, 12),
    (4, 13),
    (5, 12),
    (6, 7),
    (7, 13),
    (8, 9),
    (9, 10),
    (9, 11),
];

/// The faults that the last record is to have.
struct Faults {
    case: (u32, u32),
    low: bool,
    high: bool,
}

impl Faults {
    fn has(&self, number: u32) -> bool {
        (self.low && self.case.0 == number) || (self.high && self.case.1 == number)
    }

    fn concerns(&self, number: u32) -> bool {
        self.case.0 == number || self.case.1 == number
    }
}

/// A table whose last record has the lower fault, the higher, both or none.
pub fn ordered(random: &mut Random, asks: Asks, case: usize, low: bool, high: bool) -> Input {
    let faults = Faults {
        case: CASES[case],
        low,
        high,
    };
    let records = table(random, &faults);
    let columns = 2 + random.below(3);
    let mut input = Input::new(random, asks, written(&records), columns, Origin::Order);
    let rows = Rows {
        palette: &[0, 1, 2, 3, 4, 5],
        records: &records,
        width: columns,
    };
    let count = random.below(5);
    input.first = rows.drawn(random);
    input.second = rows.drawn(random);
    input.rows = rows.run(random, count);
    input.answers = count;
    input.term = last_term(&records);
    input.case = Some((case, low as usize + 2 * high as usize));
    let last = records.len() as u32 - 1;
    input.stated = match (low, high) {
        (true, _) => Some((CASES[case].0, last)),
        (false, true) => Some((CASES[case].1, last)),
        _ => Some((0, NO_PLACE)),
    };
    input
}

fn table(random: &mut Random, faults: &Faults) -> Vec<Record> {
    let mut records = match faults.case.1 {
        5 | 12 => vec![base(random, faults)],
        6 | 7 | 13 => compound(random, faults),
        _ => values(random, faults),
    };
    if faults.has(4) {
        spoil(random, records.last_mut().unwrap());
    }
    records
}

/// A base term, its column too high for 5, its bounds crossed for 12.
fn base(random: &mut Random, faults: &Faults) -> Record {
    let column = if faults.has(5) {
        8 + random.below(240)
    } else {
        1
    };
    if !faults.concerns(12) {
        return Record::base(random.pick(&[LOWEST, POS, EXPLICIT, ANY]), column);
    }
    let up = if faults.has(12) { 2 } else { 3 };
    Record {
        u: 3,
        v: up,
        ..Record::base(BETWEEN, column)
    }
}

/// A compound: its right part itself for 6, its left a part already for 7, its parts over different columns for 13.
fn compound(random: &mut Random, faults: &Faults) -> Vec<Record> {
    let column = if faults.has(13) { 1 } else { 0 };
    let left = if faults.has(7) { 0 } else { 1 };
    let right = if faults.has(6) { 3 } else { 2 };
    let kind = if faults.concerns(13) {
        BOTH
    } else {
        random.pick(&[PARETO, PRIOR, BOTH])
    };
    vec![
        Record::base(LOWEST, 0),
        Record::dual(0),
        Record::base(HIGHEST, column),
        Record::compound(kind, left, right),
    ]
}

/// A term with values: the last one's role not taken for 8, the last one the 17th for 9, under the other role for 10,
/// closing a cycle for 11.
fn values(random: &mut Random, faults: &Faults) -> Vec<Record> {
    let before = if faults.has(9) {
        16
    } else {
        1 + random.below(15)
    };
    let (kind, value, last) = if faults.concerns(10) {
        let (kind, other) = random.pick(&[(POS_NEG, 2), (POS_POS, 3)]);
        let last = if faults.has(10) { 5 } else { 6 };
        (kind, Record::value(1, 5), Record::value(other, last))
    } else if faults.concerns(11) {
        let last = if faults.has(11) { 1 } else { 3 };
        (EXPLICIT, Record::edge(1, 2), Record::edge(2, last))
    } else {
        let role = if faults.has(8) {
            random.pick(&[0, 1, 3, 5, 255])
        } else {
            2
        };
        (NEG, Record::value(2, 5), Record::value(role, 5))
    };
    let mut records = run(kind, before, value);
    records.push(last);
    records
}

/// A term, and values up to this count.
fn run(kind: u8, count: usize, value: Record) -> Vec<Record> {
    let mut records = vec![Record::base(kind, 0)];
    records.extend(std::iter::repeat_n(value, count));
    records
}

/// Fills a field that must be zero in every record of these cases.
fn spoil(random: &mut Random, record: &mut Record) {
    let small = 1 + random.below(255) as u8;
    match record.kind {
        PARETO | PRIOR | BOTH if random.once_in(2) => record.u = random.between(1, 9),
        VALUE if record.p != 4 && random.once_in(2) => record.v = random.between(1, 9),
        _ => record.s = small,
    }
}
