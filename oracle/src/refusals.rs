//! SPECIFICATION, "What a call refuses": the table of refusals, row by row, and
//! its order.

use crate::table::{
    Record, Table, AROUND, BETWEEN, BOTH, DISLIKED, EDGE, EXPLICIT, FAVOURITE, NEG, PARETO, POS,
    POS_NEG, POS_POS, PRIOR, RECORD_BYTES, SECOND_CHOICE, VALUE,
};
use crate::{better, wrong, Mistake, Oracle, Refused};

pub const WIDTH: u32 = 1;
pub const LENGTH: u32 = 2;
pub const KIND: u32 = 3;
pub const FILLER: u32 = 4;
pub const COLUMN: u32 = 5;
pub const PART: u32 = 6;
pub const REUSED: u32 = 7;
pub const STRAY: u32 = 8;
pub const CROWD: u32 = 9;
pub const CLASH: u32 = 10;
pub const LOOP: u32 = 11;
pub const BOUNDS: u32 = 12;
pub const APART: u32 = 13;
pub const LOOSE: u32 = 14;
pub const ROWS: u32 = 15;
pub const TERM: u32 = 16;
pub const GROUP: u32 = 17;
pub const SHORT: u32 = 18;

pub const MOST_TABLE_BYTES: usize = 1_536;
pub const MOST_ROWS: usize = 1_024;
pub const MOST_VALUES: usize = 16;

/// What a call is given besides the table and the column count. "Calls without
/// an input skip its number."
#[derive(Clone, Copy, Default)]
pub struct Asked<'a> {
    pub run: Option<&'a [i32]>,
    pub single_rows: &'a [&'a [i32]],
    pub term: Option<usize>,
    pub group: Option<u8>,
    pub entries: Option<usize>,
}

/// "3 to 14 give the record as place; the others give none."
fn refuse<T>(number: u32, place: Option<usize>) -> Result<T, Refused> {
    Err(Refused { number, place })
}

impl Oracle {
    /// "Order: 1, 2, then records from 0 upward, each judged for 3 to 13 in
    /// number order from itself and the records before it, then 14 (lowest such
    /// record), then 15 to 18."
    pub(crate) fn accepted(
        &self,
        bytes: &[u8],
        count: usize,
        asked: &Asked,
    ) -> Result<Table, Refused> {
        let count = self.count_taken(count);
        if self.has(Mistake::LengthFirst) && self.length(bytes) {
            return refuse(LENGTH, None);
        }
        if self.width(count) {
            return refuse(WIDTH, None);
        }
        if self.has(Mistake::RowsBeforeTable) && self.rows(asked, count) {
            return refuse(ROWS, None);
        }
        if self.length(bytes) {
            return refuse(LENGTH, None);
        }
        let table = self.decode(bytes, count);
        self.judge_records(&table)?;
        self.judge_loose(&table)?;
        self.judge_call(&table, asked)?;
        Ok(table)
    }

    /// "Records from 0 upward, each judged for 3 to 13 in number order."
    fn judge_records(&self, table: &Table) -> Result<(), Refused> {
        let numbers = self.record_numbers();
        if self.has(Mistake::RuleByRule) {
            for number in numbers {
                for i in 0..table.records.len() {
                    self.judge_record(number, table, i)?;
                }
            }
        }
        for i in 0..table.records.len() {
            for number in numbers {
                self.judge_record(number, table, i)?;
            }
        }
        Ok(())
    }

    fn judge_record(&self, number: u32, table: &Table, i: usize) -> Result<(), Refused> {
        if !self.record_turned_down(number, table, i) {
            return Ok(());
        }
        if self.has(Mistake::CrowdPlace) && number == CROWD {
            return refuse(number, table.term_before[i]);
        }
        refuse(number, Some(i))
    }

    /// "Then 14 (lowest such record)."
    fn judge_loose(&self, table: &Table) -> Result<(), Refused> {
        match self.loose(table) {
            None => Ok(()),
            Some(_) if self.has(Mistake::LooseNoPlace) => refuse(LOOSE, None),
            place => refuse(LOOSE, place),
        }
    }

    /// "Then 15 to 18", which give no place.
    fn judge_call(&self, table: &Table, asked: &Asked) -> Result<(), Refused> {
        for number in self.call_numbers() {
            if self.call_turned_down(number, table, asked) {
                if self.has(Mistake::TermPlace) && number == TERM {
                    return refuse(number, asked.term);
                }
                return refuse(number, None);
            }
        }
        Ok(())
    }

    /// 1 WIDTH: "column count not 1 to 8".
    pub(crate) fn width(&self, count: usize) -> bool {
        if self.has(Mistake::WidthNine) {
            return !(1..=9).contains(&count);
        }
        !(1..=8).contains(&count)
    }

    /// 2 LENGTH: "table bytes 0, over 1,536, or not a multiple of 12".
    pub(crate) fn length(&self, bytes: &[u8]) -> bool {
        if let Some(wrong) = self.wrong(|mistake| wrong::length(mistake, bytes.len())) {
            return wrong;
        }
        bytes.is_empty()
            || bytes.len() > MOST_TABLE_BYTES
            || !bytes.len().is_multiple_of(RECORD_BYTES)
    }

    /// 3 to 13 for one record, each judged apart from the others.
    pub(crate) fn record_turned_down(&self, number: u32, table: &Table, i: usize) -> bool {
        if let Some(wrong) = self.wrong(|mistake| wrong::record_rule(mistake, number, table, i)) {
            return wrong;
        }
        let record = &table.records[i];
        match number {
            // "Kind not in the list."
            KIND => !record.is_value() && !record.is_term(),
            FILLER => filler(record),
            // "Base term's column not below the count."
            COLUMN => record.is_base() && usize::from(record.p) >= table.count,
            // "Part not below the record's own number, or not a term."
            PART => record
                .parts()
                .any(|part| part >= i || !table.records[part].is_term()),
            REUSED => reused_earlier(table, i) || both_parts_same(record),
            STRAY => record.is_value() && !role_taken(table, i),
            // "A term's 17th value."
            CROWD => record.is_value() && values_before(table, i) == MOST_VALUES,
            CLASH => clash(table, i),
            LOOP => closes_cycle(table, i),
            // "BETWEEN with low above up."
            BOUNDS => record.kind == BETWEEN && record.u > record.v,
            // "BOTH of parts that read different columns."
            APART => columns_of_both(table, i).is_some_and(|(left, right)| left != right),
            _ => false,
        }
    }

    /// 14 LOOSE: "a term other than the last that is no part". The lowest such.
    pub(crate) fn loose(&self, table: &Table) -> Option<usize> {
        let mut last = table.last_term();
        if self.has(Mistake::LooseLastRecord) {
            last = table.records.len().checked_sub(1);
        }
        let mut is_part = vec![false; table.records.len()];
        for part in table.records.iter().flat_map(Record::parts) {
            if part < is_part.len() {
                is_part[part] = true;
            }
        }
        let mut loose = (0..table.records.len())
            .filter(|&i| table.records[i].is_term() && Some(i) != last && !is_part[i]);
        if self.has(Mistake::LooseHighest) {
            return loose.next_back();
        }
        loose.next()
    }

    /// 15 to 18, each judged apart from the others.
    pub(crate) fn call_turned_down(&self, number: u32, table: &Table, asked: &Asked) -> bool {
        if let Some(wrong) = self.wrong(|mistake| wrong::call_rule(mistake, number, table, asked)) {
            return wrong;
        }
        match number {
            ROWS => self.rows(asked, table.count),
            // "Number given is not a term record."
            TERM => asked
                .term
                .is_some_and(|term| !table.records.get(term).is_some_and(Record::is_term)),
            // "Group bit at or above the count."
            GROUP => asked
                .group
                .is_some_and(|group| (table.count..8).any(|bit| group >> bit & 1 == 1)),
            // "Answer buffer with fewer entries than there are rows."
            SHORT => asked.entries.is_some_and(|entries| {
                asked
                    .rows(table.count)
                    .is_some_and(|number_of_rows| entries < number_of_rows)
            }),
            _ => false,
        }
    }

    /// 15 ROWS: "run not a multiple of the count, or over 1,024 rows; a single
    /// row not of the count's length".
    fn rows(&self, asked: &Asked, count: usize) -> bool {
        if let Some(wrong) = self.wrong(|mistake| wrong::rows(mistake, asked, count)) {
            return wrong;
        }
        let run = asked.run.unwrap_or(&[]);
        !run.len().is_multiple_of(count)
            || asked.rows(count).is_some_and(|rows| rows > MOST_ROWS)
            || asked.single_rows.iter().any(|row| row.len() != count)
    }

    /// Every number that the input earns by itself anywhere, as bits.
    pub(crate) fn every_refusal(&self, bytes: &[u8], count: usize, asked: &Asked) -> u32 {
        let count = self.count_taken(count);
        let table = self.decode(bytes, count);
        let earned = |number: u32| match number {
            WIDTH => self.width(count),
            LENGTH => self.length(bytes),
            KIND..=APART => {
                (0..table.records.len()).any(|i| self.record_turned_down(number, &table, i))
            }
            LOOSE => self.loose(&table).is_some(),
            _ => self.call_turned_down(number, &table, asked),
        };
        (WIDTH..=SHORT)
            .filter(|&number| earned(number))
            .fold(0, |bits, number| bits | 1 << number)
    }
}

impl Asked<'_> {
    /// How many whole rows the run holds; none without a run or a width.
    pub fn rows(&self, count: usize) -> Option<usize> {
        self.run?.len().checked_div(count)
    }
}

/// 4 FILLER: "a field not filled for this kind (for kind 0, this role; an
/// unknown role counts as not 4) is not zero".
pub fn filler(record: &Record) -> bool {
    let Record { q, s, u, v, .. } = *record;
    match record.kind {
        // "p role, u value; v only for role 4".
        VALUE if record.p == EDGE => q != 0 || s != 0,
        VALUE => q != 0 || s != 0 || v != 0,
        // "p column, u the wish".
        AROUND => q != 0 || s != 0 || v != 0,
        // "p column, u low, v up".
        BETWEEN => q != 0 || s != 0,
        // "p left part, q right part".
        PARETO | PRIOR | BOTH => s != 0 || u != 0 || v != 0,
        // All other kinds fill p alone: a column, or DUAL's part.
        _ if record.is_term() => q != 0 || s != 0 || u != 0 || v != 0,
        // A kind that is not in the list has no list of fields.
        _ => false,
    }
}

/// 7 REUSED, first half: "part already a part of an earlier term".
pub fn reused_earlier(table: &Table, i: usize) -> bool {
    let mut parts = table.records[i].parts();
    parts.any(|part| {
        let mut earlier = table.records[..i].iter().flat_map(Record::parts);
        earlier.any(|taken| taken == part)
    })
}

/// 7 REUSED, second half: "or both parts the same".
pub fn both_parts_same(record: &Record) -> bool {
    matches!(record.kind, PARETO | PRIOR | BOTH) && record.p == record.q
}

/// "POS takes role 1; NEG 2; POS/NEG 1 and 2; POS/POS 1 and 3; EXPLICIT 4; all
/// others none."
fn roles_of(kind: u8) -> &'static [u8] {
    match kind {
        POS => &[FAVOURITE],
        NEG => &[DISLIKED],
        POS_NEG => &[FAVOURITE, DISLIKED],
        POS_POS => &[FAVOURITE, SECOND_CHOICE],
        EXPLICIT => &[EDGE],
        _ => &[],
    }
}

/// 8 STRAY is its opposite: "value with no term before it, or role not taken
/// there".
pub fn role_taken(table: &Table, i: usize) -> bool {
    table.term_before[i]
        .is_some_and(|term| roles_of(table.records[term].kind).contains(&table.records[i].p))
}

/// For 9 CROWD: how many values of the same term stand before this one.
pub fn values_before(table: &Table, i: usize) -> usize {
    table.term_before[i].map_or(0, |term| table.earlier_values(term, i).count())
}

/// The two roles of a POS/NEG or POS/POS value: its own and the other one.
pub fn roles_of_clash(table: &Table, i: usize) -> Option<(u8, u8)> {
    let record = &table.records[i];
    let term = table.term_before[i].filter(|_| record.is_value())?;
    match roles_of(table.records[term].kind) {
        [one, other] if record.p == *one => Some((*one, *other)),
        [other, one] if record.p == *one => Some((*one, *other)),
        _ => None,
    }
}

/// Whether a value stands "earlier in its term's run" under this role.
pub fn stands_earlier(table: &Table, i: usize, role: u8) -> bool {
    table.term_before[i].is_some_and(|term| {
        table
            .earlier_values(term, i)
            .any(|earlier| earlier.p == role && earlier.u == table.records[i].u)
    })
}

/// 10 CLASH: "POS/NEG or POS/POS value standing earlier in its term's run under
/// the other role".
fn clash(table: &Table, i: usize) -> bool {
    roles_of_clash(table, i).is_some_and(|(_, other)| stands_earlier(table, i, other))
}

/// The edges of an EXPLICIT term that stand before this edge of it.
pub fn earlier_edges(table: &Table, i: usize) -> Option<Vec<Record>> {
    let record = &table.records[i];
    let term = table.term_before[i].filter(|_| record.is_value() && record.p == EDGE)?;
    if table.records[term].kind != EXPLICIT {
        return None;
    }
    let earlier = table
        .earlier_values(term, i)
        .filter(|value| value.p == EDGE);
    Some(earlier.copied().collect())
}

/// 11 LOOP: "edge that closes a cycle with itself or earlier edges of its
/// term": from its better end its worse end can be reached.
fn closes_cycle(table: &Table, i: usize) -> bool {
    let edge = &table.records[i];
    earlier_edges(table, i)
        .is_some_and(|earlier| edge.u == edge.v || better::reached(&earlier, edge.v, edge.u))
}

/// For 13 APART: the columns of a BOTH's two parts, where both are known.
pub fn columns_of_both(table: &Table, i: usize) -> Option<(&[usize], &[usize])> {
    let record = &table.records[i];
    let (left, right) = (usize::from(record.p), usize::from(record.q));
    if record.kind != BOTH || left >= i || right >= i {
        return None;
    }
    Some((table.known_columns(left)?, table.known_columns(right)?))
}
