//! The wrong readings themselves. Each function stands beside a right one and
//! answers only if the planted mistake concerns the question.

use crate::better::{cell, distance, equal_in, in_edge, listed, reached, Pair};
use crate::leaving::{Left, Numbered};
use crate::query::Query;
use crate::refusals::{
    both_parts_same, columns_of_both, earlier_edges, filler, reused_earlier, roles_of_clash,
    stands_earlier, values_before, Asked, APART, BOUNDS, CLASH, COLUMN, CROWD, FILLER, GROUP, KIND,
    LOOP, MOST_ROWS, MOST_TABLE_BYTES, MOST_VALUES, PART, REUSED, SHORT, STRAY, TERM,
};
use crate::table::{
    Record, Table, ANY, AROUND, BETWEEN, BOTH, DISLIKED, DUAL, EDGE, EXPLICIT, FAVOURITE, HIGHEST,
    LOWEST, NEG, PARETO, POS, POS_NEG, POS_POS, PRIOR, RECORD_BYTES, SECOND_CHOICE, VALUE,
};
use crate::{Mistake, Oracle};

impl Oracle {
    /// Whether this mistake is planted.
    pub(crate) fn has(&self, mistake: Mistake) -> bool {
        self.mistake == Some(mistake)
    }

    /// The wrong answer, if a mistake is planted that concerns the question.
    pub(crate) fn wrong<T>(&self, answer: impl FnOnce(Mistake) -> Option<T>) -> Option<T> {
        self.mistake.and_then(answer)
    }

    pub(crate) fn count_taken(&self, count: usize) -> usize {
        match self.has(Mistake::WidthByte) {
            true => count % 256,
            false => count,
        }
    }

    pub(crate) fn term_taken(&self, term: usize) -> usize {
        match self.has(Mistake::TermByte) {
            true => term % 256,
            false => term,
        }
    }

    pub(crate) fn record_numbers(&self) -> [u32; 11] {
        match self.mistake {
            Some(Mistake::ColumnBeforeFiller) => [3, 5, 4, 6, 7, 8, 9, 10, 11, 12, 13],
            Some(Mistake::StrayBeforeFiller) => [3, 8, 4, 5, 6, 7, 9, 10, 11, 12, 13],
            Some(Mistake::ReusedBeforePart) => [3, 4, 5, 7, 6, 8, 9, 10, 11, 12, 13],
            _ => [3, 4, 5, 6, 7, 8, 9, 10, 11, 12, 13],
        }
    }

    pub(crate) fn call_numbers(&self) -> [u32; 4] {
        match self.mistake {
            Some(Mistake::RowsAfterTerm) => [16, 15, 17, 18],
            Some(Mistake::GroupBeforeTerm) => [15, 17, 16, 18],
            Some(Mistake::ShortBeforeGroup) => [15, 16, 18, 17],
            _ => [15, 16, 17, 18],
        }
    }
}

pub fn base(mistake: Mistake, table: &Table, i: usize, x: i32, y: i32) -> Option<bool> {
    let record = &table.records[i];
    let run = table.run(i);
    let favourite = |value| listed(run, FAVOURITE, value);
    let disliked = |value| listed(run, DISLIKED, value);
    let second = |value| listed(run, SECOND_CHOICE, value);
    let around = |value: i32| i64::from(value.max(record.u)) - i64::from(record.u);
    let from_low = |value: i32| (i64::from(value) - i64::from(record.u)).abs();
    let first = |value| run.first().is_some_and(|value_0| value_0.u == value);
    Some(match (mistake, record.kind) {
        (Mistake::NarrowDistance, AROUND | BETWEEN) => narrow(record, x) > narrow(record, y),
        (Mistake::LowestAsHighest, LOWEST) => x < y,
        (Mistake::HighestAsLowest, HIGHEST) => x > y,
        (Mistake::AroundOneSided, AROUND) => around(x) > around(y),
        (Mistake::BetweenFromLow, BETWEEN) => from_low(x) > from_low(y),
        (Mistake::BetweenInside, BETWEEN) => nearer(record, x) > nearer(record, y),
        (Mistake::PosFirstOnly, POS) => !first(x) && first(y),
        (Mistake::NegAsPos, NEG) => !disliked(x) && disliked(y),
        (Mistake::PosNegNoDisliked, POS_NEG) => !favourite(x) && favourite(y),
        (Mistake::PosNegNoFavourites, POS_NEG) => disliked(x) && !disliked(y),
        (Mistake::PosPosSecondsFirst, POS_POS) => {
            !(favourite(x) || second(x)) && (favourite(y) || second(y))
        }
        (Mistake::PosPosNoSeconds, POS_POS) => !favourite(x) && favourite(y),
        (Mistake::ExplicitOneEdge, EXPLICIT) => {
            let direct = |edge: &Record| edge.p == EDGE && edge.u == x && edge.v == y;
            run.iter().any(direct) || (!in_edge(run, x) && in_edge(run, y))
        }
        (Mistake::ExplicitOutside, EXPLICIT) => reached(run, x, y),
        (Mistake::ExplicitTurned, EXPLICIT) => {
            reached(run, y, x) || (!in_edge(run, x) && in_edge(run, y))
        }
        (Mistake::ExplicitItself, EXPLICIT) if x == y => in_edge(run, x),
        (Mistake::AnyRanks, ANY) => x > y,
        _ => return None,
    })
}

pub fn compound(mistake: Mistake, table: &Table, i: usize, pair: &Pair) -> Option<bool> {
    let record = &table.records[i];
    let (p, q) = (usize::from(record.p), usize::from(record.q));
    let (left, right) = (pair.up[p], pair.up[q]);
    let equal = |part: usize| equal_in(table.columns(part), pair.x, pair.y);
    let equal_distance = |part: usize| equal(part) || equally_far(&table.records[part], pair);
    let first = |part: usize| &table.columns(part)[..1];
    Some(match (mistake, record.kind) {
        (Mistake::EqualDistanceEqual, PARETO) => {
            (left && (right || equal_distance(q))) || (right && (left || equal_distance(p)))
        }
        (Mistake::ParetoEither, PARETO) => left || right,
        (Mistake::ParetoNotWorse, PARETO) => (left && !pair.down[q]) || (right && !pair.down[p]),
        (Mistake::ParetoBoth, PARETO) => left && right,
        (Mistake::PriorExchanged, PRIOR) => right || (equal(q) && left),
        (Mistake::PriorUnranked, PRIOR) => left || (!pair.down[p] && right),
        (Mistake::PriorFirstColumn, PRIOR) => left || (equal_in(first(p), pair.x, pair.y) && right),
        (Mistake::BothEither, BOTH) => left || right,
        (Mistake::DualIgnored, DUAL) => left,
        _ => return None,
    })
}

/// Keeps the rows that one of the two placings of a PARETO keeps; a row that
/// different rows beat under the two placings goes with the others.
pub fn kept(mistake: Mistake, query: &Query) -> Option<Vec<bool>> {
    let record = query.table.records[query.term];
    if mistake != Mistake::BettersOutside || record.kind != PARETO {
        return None;
    }
    let kept_by_placing = |p: u8, q: u8| {
        let mut table = query.table.clone();
        let kind = PRIOR;
        table.records[query.term] = Record {
            kind,
            p,
            q,
            ..record
        };
        let table = &table;
        Oracle::default().kept(&Query {
            table,
            ..query.clone()
        })
    };
    let first = kept_by_placing(record.p, record.q);
    let second = kept_by_placing(record.q, record.p);
    let either = first.iter().zip(second).map(|(&one, other)| one || other);
    Some(either.collect())
}

pub fn unmatched(
    mistake: Mistake,
    table: &Table,
    i: usize,
    value: i32,
    turned: bool,
) -> Option<bool> {
    let kind = table.records[i].kind;
    Some(match (mistake, kind) {
        (Mistake::OnlyFavouritePerfect, POS | POS_NEG | POS_POS) if !turned => {
            listed(table.run(i), FAVOURITE, value)
        }
        (Mistake::NoEnds, LOWEST | HIGHEST) => false,
        _ => return None,
    })
}

/// Whether no other row's entry is this row's number: so it is of dropped rows,
/// but of some kept ones too.
pub fn unnamed(entries: &[u16], i: usize) -> bool {
    let mut others = (0..entries.len()).filter(|&other| other != i);
    others.all(|other| usize::from(entries[other]) != i)
}

pub fn left<'a>(mistake: Mistake, left: &[Numbered<'a>]) -> Option<Vec<Numbered<'a>>> {
    let turned = left.iter().rev().copied();
    match mistake {
        Mistake::LeftTurned => Some(turned.collect()),
        Mistake::RunTurned => {
            let rows = turned.map(|(_, row)| row);
            let numbers = left.iter().map(|(number, _)| *number);
            Some(numbers.zip(rows).collect())
        }
        _ => None,
    }
}

pub fn entry_left(mistake: Mistake, left: &Left, named: usize) -> Option<usize> {
    match mistake {
        Mistake::OldNumbers => Some(named),
        Mistake::NamedByCells => {
            let columns = left.rows.len() / left.old.len();
            let row = |i: usize| &left.rows[i * columns..(i + 1) * columns];
            let named = left.renumbered(named)?;
            (0..left.old.len()).find(|&i| row(i) == row(named))
        }
        _ => None,
    }
}

pub fn together<'a>(
    mistake: Mistake,
    first: &[Numbered<'a>],
    second: &[Numbered<'a>],
) -> Option<Vec<Numbered<'a>>> {
    let in_first = |row: &[i32]| first.iter().any(|(_, other)| *other == row);
    match mistake {
        Mistake::SecondFirst => Some([second, first].concat()),
        Mistake::EqualOnce => {
            let others = second.iter().filter(|(_, row)| !in_first(row));
            Some(first.iter().chain(others).copied().collect())
        }
        _ => None,
    }
}

pub fn length(mistake: Mistake, length: usize) -> Option<bool> {
    let whole = length.is_multiple_of(RECORD_BYTES);
    Some(match mistake {
        Mistake::LengthMore => length == 0 || length > MOST_TABLE_BYTES + 12 || !whole,
        Mistake::LengthRest => !(RECORD_BYTES..=MOST_TABLE_BYTES).contains(&length),
        _ => return None,
    })
}

pub fn record_rule(mistake: Mistake, number: u32, table: &Table, i: usize) -> Option<bool> {
    let record = &table.records[i];
    match number {
        KIND if mistake == Mistake::KindGap => Some(record.kind > DUAL),
        FILLER => wrong_filler(mistake, table, i),
        COLUMN if mistake == Mistake::ColumnEight => Some(record.is_base() && record.p >= 8),
        PART if mistake == Mistake::PartValue => Some(record.parts().any(|part| part >= i)),
        REUSED if mistake == Mistake::ReusedSame => Some(reused_earlier(table, i)),
        REUSED if mistake == Mistake::ReusedEarlier => Some(both_parts_same(record)),
        STRAY if mistake == Mistake::StrayRole => {
            Some(record.is_value() && table.term_before[i].is_none())
        }
        CROWD => wrong_crowd(mistake, table, i),
        CLASH => wrong_clash(mistake, table, i),
        LOOP => wrong_loop(mistake, table, i),
        BOUNDS if mistake == Mistake::BoundsEqual => {
            Some(record.kind == BETWEEN && record.u >= record.v)
        }
        APART if mistake == Mistake::ApartDisjoint => {
            let shared = |(left, right): (&[usize], &[usize])| {
                left.iter().any(|column| right.contains(column))
            };
            Some(columns_of_both(table, i).is_some_and(|both| !shared(both)))
        }
        _ => None,
    }
}

pub fn call_rule(mistake: Mistake, number: u32, table: &Table, asked: &Asked) -> Option<bool> {
    Some(match (mistake, number) {
        (Mistake::TermValue, TERM) => asked.term.is_some_and(|i| i >= table.records.len()),
        (Mistake::GroupRest, GROUP) => false,
        (Mistake::ShortEqual, SHORT) => asked
            .entries
            .is_some_and(|entries| Some(entries) <= asked.rows(table.count)),
        _ => return None,
    })
}

pub fn rows(mistake: Mistake, asked: &Asked, count: usize) -> Option<bool> {
    let whole = asked.run.unwrap_or(&[]).len().is_multiple_of(count);
    let over = |most: usize| asked.rows(count).is_some_and(|rows| rows > most);
    let off = |row: &&[i32]| row.len() != count;
    Some(match mistake {
        Mistake::RowsMore => !whole || over(MOST_ROWS + 1) || asked.single_rows.iter().any(off),
        Mistake::RowsRest => over(MOST_ROWS) || asked.single_rows.iter().any(off),
        Mistake::RowsSecond => {
            !whole || over(MOST_ROWS) || asked.single_rows.iter().take(1).any(off)
        }
        _ => return None,
    })
}

/// The difference in 32 bits, which runs over.
fn narrow(record: &Record, x: i32) -> i32 {
    let (u, v) = (record.u, record.v);
    match record.kind {
        AROUND => x.wrapping_sub(u).wrapping_abs(),
        _ if x < u => u.wrapping_sub(x),
        _ if x > v => x.wrapping_sub(v),
        _ => 0,
    }
}

/// The difference to the nearer bound, inside as well.
fn nearer(record: &Record, x: i32) -> i64 {
    let (x, u, v) = (i64::from(x), i64::from(record.u), i64::from(record.v));
    (x - u).abs().min((x - v).abs())
}

fn equally_far(record: &Record, pair: &Pair) -> bool {
    let column = usize::from(record.p);
    matches!(record.kind, AROUND | BETWEEN)
        && distance(record, cell(pair.x, column)) == distance(record, cell(pair.y, column))
}

fn wrong_filler(mistake: Mistake, table: &Table, i: usize) -> Option<bool> {
    let record = table.records[i];
    let without_v = Record { v: 0, ..record };
    let under_explicit =
        table.term_before[i].is_some_and(|term| table.records[term].kind == EXPLICIT);
    Some(match (mistake, record.kind) {
        (Mistake::FillerAnyRole, VALUE) => filler(&without_v),
        (Mistake::FillerSpare, _) => filler(&Record { s: 0, ..record }),
        (Mistake::FillerTaken, VALUE) => filler(&record) || (record.v != 0 && !under_explicit),
        (Mistake::FillerUnknownRole, VALUE) if !(1..=4).contains(&record.p) => filler(&without_v),
        _ => return None,
    })
}

fn wrong_crowd(mistake: Mistake, table: &Table, i: usize) -> Option<bool> {
    let record = &table.records[i];
    let before = values_before(table, i);
    Some(match mistake {
        Mistake::CrowdEarly => record.is_value() && before == MOST_VALUES - 1,
        Mistake::CrowdLate => record.is_value() && before == MOST_VALUES + 1,
        Mistake::CrowdRepeats => {
            let mut different: Vec<&Record> = Vec::new();
            let term = table.term_before[i].filter(|_| record.is_value())?;
            for value in table.earlier_values(term, i) {
                if !different.contains(&value) {
                    different.push(value);
                }
            }
            different.len() == MOST_VALUES && !different.contains(&record)
        }
        _ => return None,
    })
}

fn wrong_clash(mistake: Mistake, table: &Table, i: usize) -> Option<bool> {
    let (own, other) = roles_of_clash(table, i)?;
    Some(match mistake {
        Mistake::ClashSeconds if own == SECOND_CHOICE || other == SECOND_CHOICE => false,
        Mistake::ClashOneWay if own == FAVOURITE => false,
        Mistake::ClashSameRole => stands_earlier(table, i, own) || stands_earlier(table, i, other),
        _ => return None,
    })
}

fn wrong_loop(mistake: Mistake, table: &Table, i: usize) -> Option<bool> {
    let edge = &table.records[i];
    let earlier = earlier_edges(table, i)?;
    match mistake {
        Mistake::LoopItself => Some(edge.u == edge.v),
        Mistake::LoopRepeat if earlier.contains(edge) => Some(true),
        _ => None,
    }
}
