//! Rows left out (SPECIFICATION, "Leaving out rows"): dropped rows taken out, and two catalogues queried apart and then
//! their kept rows together. What both engines give for the rows that are left must be what the oracle says of them,
//! from the entries over all rows.

use crate::compare::{difference, expected, words};
use crate::input::{Asks, Call, Input};
use crate::library::{Reply, Room};
use crate::random::Random;
use oracle::{Catalogue, Left, Oracle};
use std::fmt::{self, Display, Formatter};

const ENGINES: [Call; 2] = [Call::Direct, Call::ByParts];
/// The stream of random numbers. The input has the seed, so that one that is made smaller has rows to leave out too.
const STREAM: u64 = 1 << 50;
/// How often rows are taken out where some of few rows are dropped, which costs little. Elsewhere it is once.
const TIMES: usize = 3;
const FEW: usize = 40;
/// The oracle's own query takes the square of the rows: over more than these it is run once in four times.
const OWN: usize = 256;

/// How rows are left out of a query.
#[derive(Clone, Debug)]
pub enum Way {
    /// These dropped rows are taken out.
    Out(Vec<usize>),
    /// The rows from this number on are a second catalogue.
    Split(usize),
}

impl Way {
    pub fn words(&self) -> &'static str {
        match self {
            Way::Out(_) => "left out",
            Way::Split(_) => "split",
        }
    }
}

impl Display for Way {
    fn fmt(&self, f: &mut Formatter) -> fmt::Result {
        match self {
            Way::Out(rows) => write!(f, "rows taken out: {rows:?}"),
            Way::Split(at) => write!(f, "two catalogues, the second from row {at} on"),
        }
    }
}

/// What went wrong, and with which rows left out.
pub struct Failure {
    pub way: Way,
    pub words: String,
}

/// Leaves rows out of an accepted query in every way drawn for it, and hands each way and the rows left to `seen`.
/// Gives the first failure.
pub fn failure(
    oracle: &Oracle,
    room: &mut Room,
    input: &Input,
    whole: &Reply,
    mut seen: impl FnMut(&Way, &Left),
) -> Option<Failure> {
    let mut random = Random::of(input.placing, STREAM);
    let ways = ways(&mut random, oracle, input, whole);
    let mut asked = Asked {
        oracle,
        room,
        random,
        input,
        whole,
    };
    for way in ways {
        let left = match &way {
            Way::Out(rows) => asked.without(rows),
            Way::Split(at) => asked.apart(*at),
        };
        match left {
            Ok(left) => seen(&way, &left),
            Err(words) => return Some(Failure { way, words }),
        }
    }
    None
}

/// Prints the ways drawn for an input.
pub fn print(input: &Input) {
    let oracle = Oracle::default();
    let mut random = Random::of(input.placing, STREAM);
    let ways = ways(&mut random, &oracle, input, &expected(&oracle, input));
    ways.iter().for_each(|way| println!("{way}"));
}

/// None for an input that is no query, is refused or has no rows.
fn ways(random: &mut Random, oracle: &Oracle, input: &Input, whole: &Reply) -> Vec<Way> {
    let rows = input.row_count();
    if input.asks != Asks::Query || !whole.accepted() || rows == 0 {
        return vec![];
    }
    let dropped = oracle.may_go(entries(input, whole));
    let few = rows <= FEW && !dropped.is_empty();
    let out = (0..if few { TIMES } else { 1 }).map(|_| Way::Out(some(random, &dropped)));
    let mut ways: Vec<Way> = out.collect();
    ways.push(Way::Split(place(random, rows)));
    ways
}

/// Each of these rows with the same chance and one at least, or all, or none.
fn some(random: &mut Random, rows: &[usize]) -> Vec<usize> {
    let eighths = 1 + random.below(7);
    let mut taken = rows.to_vec();
    match random.below(12) {
        _ if rows.is_empty() => {}
        0 => taken.clear(),
        1 => {}
        _ => {
            let one = random.pick(rows);
            taken.retain(|row| *row == one || random.below(8) < eighths);
        }
    }
    taken
}

/// Between two rows, or at either end.
fn place(random: &mut Random, rows: usize) -> usize {
    match random.below(12) {
        0 => 0,
        1 => rows,
        _ if rows == 1 => random.below(2),
        _ => 1 + random.below(rows - 1),
    }
}

/// A query, the reply to it, and what it takes to ask again with other rows.
struct Asked<'a> {
    oracle: &'a Oracle,
    room: &'a mut Room,
    random: Random,
    input: &'a Input,
    whole: &'a Reply,
}

impl Asked<'_> {
    /// The query without these rows.
    fn without(&mut self, out: &[usize]) -> Result<Left, String> {
        let input = self.input;
        let mut stays = vec![true; input.row_count()];
        out.iter().for_each(|row| stays[*row] = false);
        let left = self.oracle.left(input.columns, &input.rows, &stays);
        let again = self.again(&left.rows);
        let right = self.right(&again, &left);
        self.both_engines(&again, &right, &left)?;
        // With no row out, the oracle's own query is the one over all rows.
        let own = left.old.len() <= OWN || self.random.once_in(4);
        if own && !out.is_empty() {
            let own = expected(self.oracle, &again);
            agree(&again, &right, &own, "the oracle's own query")?;
        }
        Ok(left)
    }

    /// The rows before this one and those from it on as two catalogues, one with each engine; then their kept rows.
    fn apart(&mut self, at: usize) -> Result<Left, String> {
        let columns = self.input.columns;
        let (first, second) = self.input.rows.split_at(at * columns);
        let mut engines = ENGINES;
        if self.random.once_in(2) {
            engines.reverse();
        }
        let one = self.alone(first, engines[0])?;
        let two = self.alone(second, engines[1])?;
        let catalogue = |rows, entries| Catalogue { rows, entries };
        let (first, second) = (catalogue(first, &one), catalogue(second, &two));
        let left = self.oracle.together(columns, first, second);
        let again = self.again(&left.rows);
        let right = self.right(&again, &left);
        self.both_engines(&again, &right, &left)?;
        Ok(left)
    }

    /// The entries of a catalogue by itself: of few rows, those of the oracle. Of more, where the oracle takes long, only
    /// the kept count and what stands behind the rows are looked at here.
    fn alone(&mut self, rows: &[i32], engine: Call) -> Result<Vec<u16>, String> {
        let alone = self.again(rows);
        let mut given = self.room.call(&alone, engine);
        if alone.row_count() <= FEW {
            let right = expected(self.oracle, &alone);
            agree(&alone, &right, &given, engine.words())?;
        }
        let behind = given.answers.split_off(alone.row_count());
        let untouched = alone.patterned().ends_with(&behind) && given.strayed == 0;
        let counted = given.values[0] as usize == kept(&given.answers).count();
        if given.accepted() && counted && untouched {
            return Ok(given.answers);
        }
        Err(format!(
            "{} of {} rows alone: {}, entries {:?}, behind them {behind:?}",
            engine.words(),
            alone.row_count(),
            words(&given),
            given.answers
        ))
    }

    /// The same query over other rows, with a buffer of its own that may be longer than they need.
    fn again(&mut self, rows: &[i32]) -> Input {
        let input = self.input;
        let (table, columns) = (input.table.clone(), input.columns);
        let again = Input::new(&mut self.random, Asks::Query, table, columns, input.origin);
        Input {
            rows: rows.to_vec(),
            term: input.term,
            group: input.group,
            answers: rows.len() / columns + self.random.pick(&[0, 0, 1, 2, 9]),
            ..again
        }
    }

    /// As many rows kept as before, and the entries that the oracle makes of those over all rows.
    fn right(&self, again: &Input, left: &Left) -> Reply {
        let entries = entries(self.input, self.whole);
        let mut answers = self.oracle.entries_left(entries, left);
        answers.extend((answers.len()..again.answers).map(|k| again.pattern(k)));
        Reply {
            answers,
            ..*self.whole
        }
    }

    /// Both engines over the rows that are left give the right reply. They keep the rows that the query over all rows
    /// keeps, in the same order: by their old numbers, and cell by cell.
    fn both_engines(&mut self, again: &Input, right: &Reply, left: &Left) -> Result<(), String> {
        let (input, whole) = (self.input, entries(self.input, self.whole));
        for engine in ENGINES {
            let given = self.room.call(again, engine);
            agree(again, right, &given, engine.words())?;
            let rows = || kept(entries(again, &given));
            let old = || rows().map(|row| left.old[row]);
            if !old().eq(kept(whole)) {
                let (old, whole): (Vec<_>, Vec<_>) = (old().collect(), kept(whole).collect());
                let engine = engine.words();
                return Err(format!("{engine} keeps {old:?}, one query keeps {whole:?}"));
            }
            let cells = rows().map(|row| cells(again, row));
            if !cells.eq(kept(whole).map(|row| self::cells(input, row))) {
                return Err(format!("{} keeps other cells", engine.words()));
            }
        }
        Ok(())
    }
}

fn agree(input: &Input, right: &Reply, given: &Reply, who: &str) -> Result<(), String> {
    match difference(input, right, given) {
        Some(words) => Err(format!("{who}: {words}")),
        None => Ok(()),
    }
}

/// The entries of the rows, without those behind the last row.
fn entries<'a>(input: &Input, reply: &'a Reply) -> &'a [u16] {
    &reply.answers[..input.row_count()]
}

/// The rows whose entry is their own number.
fn kept(entries: &[u16]) -> impl Iterator<Item = usize> + '_ {
    (0..entries.len()).filter(|row| entries[*row] as usize == *row)
}

fn cells(input: &Input, row: usize) -> &[i32] {
    &input.rows[row * input.columns..(row + 1) * input.columns]
}
