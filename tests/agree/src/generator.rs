//! Input number `n` of a seed: at random for the most part, with three lists taken in turn.

use crate::damage;
use crate::faults;
use crate::input::{Asks, Input, Origin};
use crate::limits;
use crate::order;
use crate::random::Random;
use crate::records::*;
use crate::rows::Rows;
use crate::trees;

pub fn input(seed: u64, number: u64) -> Input {
    let mut random = Random::of(seed, number);
    let turn = (number / 16) as usize;
    match number % 16 {
        3 => {
            let pairs = faults::pairs();
            let (asks, low, high) = pairs[turn % pairs.len()];
            faults::both(&mut random, asks, low, high)
        }
        7 => {
            let cases = order::CASES.len();
            let asks = Asks::ALL[turn / (4 * cases) % 4];
            order::ordered(
                &mut random,
                asks,
                turn / 4 % cases,
                turn % 2 == 1,
                turn / 2 % 2 == 1,
            )
        }
        11 => limits::limit(&mut random, turn),
        _ => at_random(&mut random),
    }
}

/// A table, whole more often than not, and what else the call takes, right for the most part.
fn at_random(random: &mut Random) -> Input {
    let palette = trees::palette(random);
    let widest = random.pick(&[4, 4, 8]);
    let columns = 1 + random.below(widest);
    let terms = 1 + random.pick(&[0, 1, 1, 2, 2, 3, 4, 5, 8, 14, 30, 60]);
    let most = random.pick(&[20, 40, 60, MOST]);
    let records = trees::tree(random, &palette, columns, terms, most);
    let whole = random.below(10) < 6;
    let (table, origin) = if whole {
        (written(&records), Origin::Whole)
    } else {
        damage::damaged(random, &records)
    };
    let asks = random.pick(&[
        Asks::Check,
        Asks::Compare,
        Asks::Compare,
        Asks::Perfect,
        Asks::Query,
        Asks::Query,
        Asks::Query,
    ]);
    let mut input = Input::new(random, asks, table, columns, origin);
    let rows = Rows {
        palette: &palette,
        records: &records,
        width: columns,
    };
    lend(random, &mut input, &rows);
    if random.once_in(40) {
        input.columns = random.pick(&faults::WIDTHS);
    }
    input
}

fn lend(random: &mut Random, input: &mut Input, rows: &Rows) {
    input.first = single(random, rows);
    input.second = second(random, rows, &input.first);
    let count = match random.below(64) {
        0..=30 => random.below(8),
        31..=55 => random.below(14),
        56..=61 => random.below(40),
        62 => 40 + random.below(40),
        _ => 60 + random.below(150),
    };
    input.rows = rows.run(random, count);
    if random.once_in(24) {
        // A number is missing; with one column that is a row.
        input.rows.pop();
    }
    input.term = asked(random, rows.records);
    input.group = group(random, rows.width);
    input.answers = match random.below(16) {
        0 => random.below(count + 1),
        1 => count.saturating_sub(1),
        2 => count + 30,
        _ => count + random.below(3),
    };
}

/// The row to compare with: another, or the first again, changed in one column, or mirrored.
fn second(random: &mut Random, rows: &Rows, first: &[i32]) -> Vec<i32> {
    let mut row = first.to_vec();
    match random.below(8) {
        0 => {}
        1..=2 => rows.mirror(random, &mut row),
        3..=5 if !row.is_empty() => rows.change(random, &mut row),
        _ => row = single(random, rows),
    }
    row
}

/// A row, once in sixteen of a wrong length.
fn single(random: &mut Random, rows: &Rows) -> Vec<i32> {
    let mut row = if random.once_in(2) {
        rows.wished(random)
    } else {
        rows.drawn(random)
    };
    if random.once_in(16) {
        match random.below(3) {
            0 => row.clear(),
            1 => row.push(0),
            _ => row.truncate(row.len() - 1),
        }
    }
    row
}

/// The top, any term, or once in sixteen no term.
fn asked(random: &mut Random, records: &[Record]) -> usize {
    let terms: Vec<usize> = (0..records.len())
        .filter(|i| records[*i].is_term())
        .collect();
    match random.below(16) {
        0 => faults::no_term(random, records),
        1..=9 => terms[terms.len() - 1],
        _ => random.pick(&terms),
    }
}

/// One group, or bits of some columns, once in sixteen with one too high.
fn group(random: &mut Random, columns: usize) -> u8 {
    let below = (1u16 << columns) - 1;
    let one = || 1u16 << columns.min(7);
    (match random.below(16) {
        0 => one() | random.next() as u16,
        1..=7 => 0,
        8..=13 => 1 << random.below(columns),
        _ => random.next() as u16 & below,
    }) as u8
}
