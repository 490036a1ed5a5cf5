//! Inputs at the limits (SPECIFICATION, "Limits"), each value of a list in turn.

use crate::faults::WIDTHS;
use crate::input::{Asks, Input, Origin};
use crate::random::Random;
use crate::records::*;
use crate::rows::Rows;
use crate::trees;

/// Numbers of rows that stand at an end of a block of 64, or at the limit of a query.
pub const ROW_COUNTS: [usize; 10] = [0, 1, 63, 64, 65, 127, 128, 1_023, 1_024, 1_025];

pub const COLUMN_COUNTS: [usize; 12] = [0, 1, 2, 3, 4, 5, 6, 7, 8, 9, 264, usize::MAX];

pub const TERM_NUMBERS: [usize; 3] = [255, 256, usize::MAX];

/// Bytes of a table.
const LENGTHS: [usize; 12] = [
    0, 1, 11, 12, 13, 24, 1_524, 1_535, 1_536, 1_537, 1_548, 65_544,
];

/// The `turn`-th such input. The two row counts that cost most come seldom.
pub fn limit(random: &mut Random, turn: usize) -> Input {
    match turn % 8 {
        0..=2 => rows(random, turn / 8 * 3 + turn % 8),
        3 => columns(random, turn / 8),
        4 => term(random, turn / 8),
        5 => lengths(random, turn / 8),
        6 => bounds(random, turn / 8),
        _ => costliest(random, turn / 8),
    }
}

/// An input in which all is right, over a table of this size.
fn right(random: &mut Random, asks: Asks, columns: usize, terms: usize, count: usize) -> Input {
    let palette = trees::palette(random);
    let records = trees::tree(random, &palette, columns, terms, MOST);
    let mut input = Input::new(random, asks, written(&records), columns, Origin::Limit);
    fill(random, &mut input, &palette, &records, count);
    input
}

/// Rows, a term, a group and a buffer that are all right.
fn fill(random: &mut Random, input: &mut Input, palette: &[i32], records: &[Record], count: usize) {
    let rows = Rows {
        palette,
        records,
        width: input.columns,
    };
    input.first = rows.wished(random);
    input.second = rows.drawn(random);
    input.rows = rows.run(random, count);
    input.answers = count + random.below(3);
    let terms: Vec<usize> = (0..records.len())
        .filter(|i| records[*i].is_term())
        .collect();
    input.term = if random.once_in(2) {
        terms[terms.len() - 1]
    } else {
        random.pick(&terms)
    };
    if random.once_in(3) {
        input.group = (random.next() as usize % (1 << input.columns)) as u8;
    }
}

fn rows(random: &mut Random, turn: usize) -> Input {
    let seldom = 500;
    let count = match turn % seldom {
        100 => 1_023,
        200 => 1_024,
        250 => random.pick(&[65_536, 65_537]),
        _ if turn % 8 == 7 => 1_025,
        _ => ROW_COUNTS[turn % 7],
    };
    let columns = if count > 1_025 {
        1
    } else {
        1 + random.below(8)
    };
    let terms = 1 + random.below(if count > 128 { 4 } else { 8 });
    let mut input = right(random, Asks::Query, columns, terms, count);
    input.answers = input.answers.min(2_000);
    if count < 1_000 && random.once_in(8) {
        input.answers = count.saturating_sub(1);
    }
    input
}

fn columns(random: &mut Random, turn: usize) -> Input {
    let asks = random.pick(&Asks::ALL);
    let listed = COLUMN_COUNTS[turn % COLUMN_COUNTS.len()];
    let other = random.pick(&WIDTHS);
    let count = random.pick(&[listed, other]);
    if (1..=8).contains(&count) {
        return right(random, asks, count, 4, 3);
    }
    let mut input = right(random, asks, 8, 4, 3);
    input.columns = count;
    input
}

fn term(random: &mut Random, turn: usize) -> Input {
    let asks = random.pick(&Asks::ALL[1..]);
    let terms = 1 + random.below(6);
    let mut input = right(random, asks, 3, terms, 3);
    input.term = match turn % 6 {
        0..=2 => TERM_NUMBERS[turn % 3],
        3 => input.term + 256,
        4 => input.term + (1 << 32),
        _ => input.table.len() / 12,
    };
    input
}

/// Tables of so many bytes: a base term, then DUAL over DUAL, so that whole records are right up to the limit.
fn lengths(random: &mut Random, turn: usize) -> Input {
    let bytes = LENGTHS[turn % LENGTHS.len()];
    let mut records = vec![Record::base(random.pick(&[LOWEST, ANY]), 0)];
    while records.len() * 12 < bytes {
        records.push(Record::dual(records.len() - 1));
    }
    let mut table = written(&records);
    table.truncate(bytes);
    let asks = random.pick(&Asks::ALL);
    let mut input = Input::new(random, asks, table, 1, Origin::Limit);
    fill(random, &mut input, &[0, 1], &records[..1], 3);
    input.term = (bytes / 12).saturating_sub(1);
    input
}

/// BETWEEN with bounds at the ends of the range, equal, one apart and crossed.
fn bounds(random: &mut Random, turn: usize) -> Input {
    let ends = [i32::MIN, i32::MIN + 1, -1, 0, 1, i32::MAX - 1, i32::MAX];
    let (low, up) = (ends[turn % 7], ends[turn / 7 % 7]);
    let records = [
        Record {
            u: low,
            v: up,
            ..Record::base(BETWEEN, 0)
        },
        Record::dual(0),
    ];
    let asks = random.pick(&Asks::ALL);
    let mut input = Input::new(random, asks, written(&records), 1, Origin::Limit);
    fill(random, &mut input, &ends, &records, 5);
    if low > up {
        input.stated = Some((12, 0));
    }
    input
}

/// The tables that cost most, with few rows for the most part.
fn costliest(random: &mut Random, turn: usize) -> Input {
    let few: Vec<i32> = (-2..4).collect();
    let all: Vec<i32> = (-1..34).collect();
    let palette = if random.once_in(2) { few } else { all };
    let records = costliest_tables()[turn % 3].clone();
    let asks = random.pick(&Asks::ALL);
    let mut input = Input::new(random, asks, written(&records), 8, Origin::Limit);
    let most = if random.once_in(16) { 140 } else { 12 };
    let count = random.below(most);
    fill(random, &mut input, &palette, &records, count);
    input
}

/// Tables of 128 records: 127 DUALs; 64 base terms; seven EXPLICIT of 16 edges.
pub fn costliest_tables() -> [Vec<Record>; 3] {
    let mut duals = vec![Record::base(AROUND, 0)];
    duals.extend((0..MOST - 1).map(Record::dual));
    [duals, many_bases(), many_edges()]
}

/// 64 base terms under 63 compounds and a DUAL.
fn many_bases() -> Vec<Record> {
    let base = |k: usize| Record::base([LOWEST, AROUND, HIGHEST, POS][k % 4], k % 8);
    let mut records: Vec<Record> = (0..64).map(base).collect();
    let mut parts: Vec<usize> = (0..64).collect();
    while parts.len() > 1 {
        let kind = [PARETO, PRIOR][parts.len() % 2];
        let (left, right) = (parts.remove(0), parts.remove(0));
        parts.push(records.len());
        records.push(Record::compound(kind, left, right));
    }
    records.push(Record::dual(parts[0]));
    records
}

/// Seven EXPLICIT of 16 edges under PARETOs and DUALs: the edges are one path of 17 values, or 16 pairs of 32 values.
fn many_edges() -> Vec<Record> {
    let mut records = vec![];
    for k in 0..7 {
        records.push(Record::base(EXPLICIT, k));
        let step = 1 + k as i32 % 2;
        records.extend((0..16).map(|edge| Record::edge(step * edge, step * edge + 1)));
    }
    for k in 1..7 {
        let left = if k == 1 { 0 } else { records.len() - 1 };
        records.push(Record::compound(PARETO, left, k * 17));
    }
    while records.len() < MOST {
        records.push(Record::dual(records.len() - 1));
    }
    records
}
