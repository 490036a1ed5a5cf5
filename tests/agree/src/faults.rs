//! Inputs that earn two refusals at once: for each of "What a call turns down", a way to earn it.

use crate::input::{Asks, Input, Origin};
use crate::random::Random;
use crate::records::*;
use crate::rows::Rows;
use crate::trees;

/// Every pair of every call, low number first. No pair is impossible: each number's condition speaks of something that
/// can be wrong beside all others, the count, the length, one of up to 128 records, the rows, the term, the group or
/// the buffer; two of 3 to 13 can stand in different records.
pub fn pairs() -> Vec<(Asks, usize, usize)> {
    let mut pairs = vec![];
    for asks in Asks::ALL {
        for low in 1..asks.refusals() {
            pairs.extend((low + 1..=asks.refusals()).map(|high| (asks, low, high)));
        }
    }
    pairs
}

/// An input that earns both numbers, and perhaps LOOSE besides.
pub fn both(random: &mut Random, asks: Asks, low: usize, high: usize) -> Input {
    let palette = trees::palette(random);
    let has = |number: usize| low == number || high == number;
    // Below 8, so that a group bit at or above the count exists; over 1, so that BOTH can have different columns.
    let columns = 2 + random.below(6);
    let records = records_with(random, &palette, columns, [low, high]);
    let mut input = Input::new(random, asks, written(&records), columns, Origin::Faults);
    let rows = Rows {
        palette: &palette,
        records: &records,
        width: columns,
    };
    lend(random, &mut input, &rows, has(15), has(18));
    input.term = last_term(&records);
    if has(2) {
        length(random, &mut input.table, (3..=14).any(has));
    }
    if has(16) {
        input.term = no_term(random, &records);
    }
    if has(17) {
        input.group = 1 << (columns + random.below(8 - columns));
    }
    if has(1) {
        width(random, &mut input, has(17), has(15), has(18));
    }
    input
}

/// A tree, with records between its terms that earn those of the numbers that are 3 to 14.
fn records_with(
    random: &mut Random,
    palette: &[i32],
    columns: usize,
    numbers: [usize; 2],
) -> Vec<Record> {
    let terms = 1 + random.below(5);
    let mut records = trees::tree(random, palette, columns, terms, 60);
    let swapped = random.once_in(2) as usize;
    for number in [numbers[swapped], numbers[1 - swapped]] {
        if !(3..=14).contains(&number) {
            continue;
        }
        let block = block(random, number, columns);
        let starts = (0..records.len()).filter(|i| records[*i].kind != VALUE);
        let starts: Vec<usize> = starts.collect();
        let at = if random.once_in(2) {
            0
        } else {
            random.pick(&starts)
        };
        insert(&mut records, at, &block);
    }
    records
}

/// Records that earn one of 3 to 14, whatever stands before and behind them.
fn block(random: &mut Random, number: usize, columns: usize) -> Vec<Record> {
    let column = random.below(columns);
    let base = Record::base(random.pick(&[LOWEST, HIGHEST, ANY]), column);
    let value = random.between(-3, 3);
    match number {
        3 => vec![Record::base(
            random.pick(&[11, 12, 15, 20, 21, 128, 255]),
            0,
        )],
        4 => vec![Record {
            s: 1 + random.below(255) as u8,
            ..base
        }],
        5 => vec![Record::base(base.kind, columns + random.below(200))],
        6 => part(random),
        7 => reused(random, base),
        8 => stray(random, base),
        9 => (0..18)
            .map(|k| {
                if k == 0 {
                    Record::base(POS, column)
                } else {
                    Record::value(1, value)
                }
            })
            .collect(),
        10 => clash(random, column, value),
        11 => looped(random, column),
        12 => vec![Record {
            u: value + 1,
            v: value,
            ..Record::base(BETWEEN, column)
        }],
        13 => apart(random, column, columns),
        _ => vec![base; 1 + random.below(3)],
    }
}

fn part(random: &mut Random) -> Vec<Record> {
    match random.below(3) {
        0 => vec![Record::dual(random.below(100))],
        1 => vec![Record::base(LOWEST, 0), Record::compound(PARETO, 0, 1)],
        _ => vec![
            Record::base(POS, 0),
            Record::value(1, 0),
            Record::compound(PRIOR, 1, 0),
        ],
    }
}

fn reused(random: &mut Random, base: Record) -> Vec<Record> {
    let again = random.pick(&[PARETO, PRIOR, BOTH]);
    match random.below(3) {
        0 => vec![base, Record::compound(again, 0, 0)],
        1 => vec![base, Record::dual(0), Record::dual(0)],
        _ => vec![base, Record::dual(0), Record::compound(again, 1, 0)],
    }
}

fn stray(random: &mut Random, base: Record) -> Vec<Record> {
    match random.below(4) {
        0 => vec![base, Record::value(1, 0)],
        1 => vec![Record::base(POS, 0), Record::value(2, 0)],
        2 => vec![
            Record::base(EXPLICIT, 0),
            Record::value(random.pick(&[0, 1, 5, 255]), 0),
        ],
        _ => vec![Record::base(POS_NEG, 0), Record::edge(1, 2)],
    }
}

/// One value under both roles, the favourite first or last.
fn clash(random: &mut Random, column: usize, value: i32) -> Vec<Record> {
    let (kind, other) = random.pick(&[(POS_NEG, 2), (POS_POS, 3)]);
    let mut block = vec![
        Record::base(kind, column),
        Record::value(1, value),
        Record::value(other, value),
    ];
    if random.once_in(2) {
        block.swap(1, 2);
    }
    block
}

/// BOTH of two columns, or of two columns and one of them, on either side.
fn apart(random: &mut Random, column: usize, columns: usize) -> Vec<Record> {
    let one = Record::base(HIGHEST, column);
    let other = Record::base(LOWEST, (column + 1) % columns);
    match random.below(3) {
        0 => vec![one, other, Record::compound(BOTH, 0, 1)],
        side => {
            let (left, right) = if side == 1 { (2, 3) } else { (3, 2) };
            let joined = Record::compound(PARETO, 0, 1);
            vec![one, other, joined, one, Record::compound(BOTH, left, right)]
        }
    }
}

fn looped(random: &mut Random, column: usize) -> Vec<Record> {
    let mut block = vec![Record::base(EXPLICIT, column)];
    let length = 1 + random.below(16) as i32;
    block.extend((0..length).map(|k| Record::edge(k, (k + 1) % length)));
    block
}

/// Bytes too many, or too few. With records to judge, only too many.
fn length(random: &mut Random, table: &mut Vec<u8>, judged: bool) {
    match random.below(4) {
        0 if !judged => table.clear(),
        1 if !judged => table.truncate(table.len() - 1 - random.below(11)),
        2 => {
            let more = 1 + random.below(11);
            table.extend(std::iter::repeat_n(0, more));
        }
        _ => {
            while table.len() <= 1_536 {
                table.extend(written(&[Record::base(ANY, 0)]));
            }
        }
    }
}

/// Rows of the right lengths and a buffer that is long enough, or not.
fn lend(random: &mut Random, input: &mut Input, rows: &Rows, bad_rows: bool, short: bool) {
    input.first = rows.wished(random);
    input.second = rows.drawn(random);
    let count = if bad_rows && random.once_in(4) {
        1_025 + random.below(20)
    } else {
        1 + random.below(6)
    };
    input.rows = rows.run(random, count);
    input.answers = count + 1 + random.below(3);
    if bad_rows {
        match random.below(3) {
            0 => input.first.push(0),
            1 => input.first.truncate(random.below(input.columns)),
            _ => input.first.clear(),
        }
        if random.once_in(2) {
            std::mem::swap(&mut input.first, &mut input.second);
        }
        if input.asks == Asks::Perfect && input.first.len() == input.columns {
            std::mem::swap(&mut input.first, &mut input.second);
        }
        if count <= 1_024 {
            input.rows.push(0);
        }
    }
    if short {
        input.answers = random.pick(&[0, count / 2, count - 1]);
    }
}

/// A number that is no term record: a value's, one behind the last, or one that looks like a term in fewer bits.
pub fn no_term(random: &mut Random, records: &[Record]) -> usize {
    let values: Vec<usize> = (0..records.len())
        .filter(|i| records[*i].kind == VALUE)
        .collect();
    let term = records
        .iter()
        .position(|record| record.is_term())
        .unwrap_or(0);
    match random.below(8) {
        0..=2 if !values.is_empty() => random.pick(&values),
        0..=3 => records.len().max(128),
        4 => random.pick(&[255, usize::MAX]),
        5 => 256 + term,
        6 => (1 << 32) + term,
        _ => records.len().max(128) + random.below(300),
    }
}

/// Column counts that are none, among them some that look right in fewer bits.
pub const WIDTHS: [usize; 9] = [0, 9, 10, 16, 256, 257, 264, (1 << 32) + 1, usize::MAX];

fn width(random: &mut Random, input: &mut Input, group: bool, rows: bool, short: bool) {
    input.columns = match (group, rows, short) {
        // Only below a count of 0 is a group bit too high.
        (true, ..) => 0,
        // Rows must be there to be too many for the buffer, or a number over.
        (_, true, _) | (_, _, true) => random.pick(&[9, 10, 16]),
        _ => random.pick(&WIDTHS),
    };
    if (9..=16).contains(&input.columns) {
        let over = if rows { 1 + random.below(8) } else { 0 };
        input.rows = vec![1; 3 * input.columns + over];
        input.answers = if short { random.below(3) } else { 5 };
        input.first = vec![1; input.columns + over];
        input.second = vec![1; input.columns];
    }
}
