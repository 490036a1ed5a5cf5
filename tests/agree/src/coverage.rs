//! What the inputs reached, counted as they are judged.

use crate::input::{Asks, Call, Input};
use crate::left_counts::Leaving;
use crate::library::{Lending, Placing, Reply};
use crate::limits::{COLUMN_COUNTS, ROW_COUNTS, TERM_NUMBERS};
use crate::memory::Flush;
use crate::order;
use crate::records::*;

/// Kinds of terms run to 19, refusals to 18.
pub const KINDS: usize = 20;
pub const REFUSALS: usize = 19;

/// What accepted inputs asked about terms, for one of compare, perfect and query.
#[derive(Default, Clone)]
pub struct Terms {
    pub asked: [u64; KINDS],
    pub as_part: [u64; KINDS],
    pub under_dual: [u64; KINDS],
    pub deep: u64,
    pub deepest: usize,
    pub shared: u64,
    /// A value at an end of the range, in a column that the term reads.
    pub extremes: u64,
    /// Differences that 32 bits do not hold, under an asked AROUND or BETWEEN.
    pub far: u64,
}

/// How a piece was lent.
#[derive(Default, Clone)]
pub struct Lengths {
    pub at_end: u64,
    pub at_start: u64,
    pub inside: u64,
    pub null: u64,
    pub none: u64,
    pub one: u64,
}

pub const PIECES: [&str; 5] = ["table", "first row", "second row", "rows", "answers"];

#[derive(Clone)]
pub struct Coverage {
    pub inputs: u64,
    pub calls: [u64; 5],
    /// By call and refusal number; 0 is accepted.
    pub replies: [[u64; REFUSALS]; 5],
    /// Inputs that earn both numbers, by what is asked.
    pub pairs: [[[u64; REFUSALS]; REFUSALS]; 4],
    /// Replies of 3 to 13 though a later record earns a lower number.
    pub record_first: u64,
    /// By case of two faults in one record: none, the lower, the higher, both.
    pub order: [[u64; 4]; order::CASES.len()],
    pub tables: u64,
    pub accepted: u64,
    /// By origin: accepted, refused.
    pub origins: [[u64; 2]; 11],
    /// By compare, perfect and query.
    pub terms: [Terms; 3],
    pub outcomes: [[u64; 4]; KINDS],
    pub marks: [[u64; 2]; KINDS],
    pub queries: Queries,
    pub leaving: Leaving,
    pub lent: [Lengths; 5],
    pub one_row: u64,
    pub column_counts: [u64; COLUMN_COUNTS.len()],
    pub term_numbers: [u64; TERM_NUMBERS.len()],
}

/// What accepted queries held.
#[derive(Default, Clone)]
pub struct Queries {
    /// By row count: accepted, refused.
    pub rows: [[u64; 2]; ROW_COUNTS.len()],
    pub kept: u64,
    pub dropped: u64,
    /// Two rows equal in the term's columns, both kept.
    pub ties: u64,
    /// Two groups or more of two rows or more.
    pub groups: u64,
    /// The group byte changes an entry.
    pub changed: u64,
}

impl Coverage {
    pub fn new() -> Coverage {
        Coverage {
            inputs: 0,
            calls: [0; 5],
            replies: [[0; REFUSALS]; 5],
            pairs: [[[0; REFUSALS]; REFUSALS]; 4],
            record_first: 0,
            order: [[0; 4]; order::CASES.len()],
            tables: 0,
            accepted: 0,
            origins: [[0; 2]; 11],
            terms: Default::default(),
            outcomes: [[0; 4]; KINDS],
            marks: [[0; 2]; KINDS],
            queries: Queries::default(),
            leaving: Leaving::default(),
            lent: Default::default(),
            one_row: 0,
            column_counts: [0; COLUMN_COUNTS.len()],
            term_numbers: [0; TERM_NUMBERS.len()],
        }
    }

    /// One call and its reply.
    pub fn note_call(&mut self, input: &Input, call: Call, reply: &Reply) {
        self.calls[call as usize] += 1;
        self.replies[call as usize][reply.refusal as usize % REFUSALS] += 1;
        let placing = Placing::of(input, call);
        let mut lent =
            |piece: usize, lending: Lending, length: usize| self.lent[piece].note(lending, length);
        lent(0, placing.table, input.table.len());
        match input.asks {
            Asks::Check => {}
            Asks::Compare => {
                lent(1, placing.first, input.first.len());
                lent(2, placing.second, input.second.len());
                self.one_row += (placing.one_row && input.first == input.second) as u64;
            }
            Asks::Perfect => lent(1, placing.first, input.first.len()),
            Asks::Query => {
                lent(3, placing.rows, input.rows.len());
                lent(4, placing.answers, input.answers);
            }
        }
    }

    /// One input, its reply and the refusals that it earns.
    pub fn note_input(&mut self, input: &Input, reply: &Reply, earned: u32) {
        self.inputs += 1;
        let accepted = reply.accepted() || reply.refusal > 14;
        self.tables += 1;
        self.accepted += accepted as u64;
        self.origins[input.origin as usize][!accepted as usize] += 1;
        self.note_refusals(input, reply, earned);
        self.note_numbers(input, reply);
        if let Some((case, faults)) = input.case {
            self.order[case][faults] += 1;
        }
        if reply.accepted() && input.asks != Asks::Check {
            self.note_terms(input);
            let kind = input.table[12 * input.term] as usize;
            match input.asks {
                Asks::Compare => self.outcomes[kind][reply.values[0] as usize % 4] += 1,
                Asks::Perfect => self.marks[kind][reply.values[0] as usize % 2] += 1,
                _ => self.note_query(input, reply),
            }
        }
    }

    fn note_refusals(&mut self, input: &Input, reply: &Reply, earned: u32) {
        let has = |number: usize| earned >> number & 1 == 1;
        for low in 1..REFUSALS {
            for high in (low + 1..REFUSALS).filter(|high| has(low) && has(*high)) {
                self.pairs[input.asks as usize][low][high] += 1;
            }
        }
        let given = reply.refusal as usize;
        self.record_first += ((3..=13).contains(&given) && (3..given).any(has)) as u64;
    }

    /// Row counts, column counts and term numbers of the lists.
    fn note_numbers(&mut self, input: &Input, reply: &Reply) {
        let refused = !reply.accepted() as usize;
        // Counts that are none must be refused for it; the others must come to be accepted.
        let judged = match input.columns {
            1..=8 => reply.accepted(),
            _ => reply.refusal == 1,
        };
        let known = COLUMN_COUNTS
            .iter()
            .position(|count| *count == input.columns);
        if let Some(at) = known.filter(|_| judged) {
            self.column_counts[at] += 1;
        }
        if input.asks == Asks::Check {
            return;
        }
        let known = TERM_NUMBERS.iter().position(|term| *term == input.term);
        if let Some(at) = known.filter(|_| reply.refusal == 16) {
            self.term_numbers[at] += 1;
        }
        let right = input.asks == Asks::Query && (reply.accepted() || reply.refusal == 15);
        if right && input.rows.len() == input.row_count() * input.columns {
            if let Some(at) = ROW_COUNTS
                .iter()
                .position(|count| *count == input.row_count())
            {
                self.queries.rows[at][refused] += 1;
            }
        }
    }

    fn note_terms(&mut self, input: &Input) {
        let records = read(&input.table);
        let shape = Shape::of(&records);
        let terms = &mut self.terms[input.asks as usize - 1];
        let asked = records[input.term];
        terms.asked[asked.kind as usize] += 1;
        terms.deep += (shape.depth[input.term] >= 5) as u64;
        terms.deepest = terms.deepest.max(shape.depth[input.term]);
        let under = beneath(&records, input.term);
        let is = |seen: bool| seen as u64;
        let part = |kind: u8| under[1..].iter().any(|i| records[*i].kind == kind);
        let turned = |kind: u8| {
            let mut duals = under.iter().filter(|i| records[**i].kind == DUAL);
            duals.any(|i| records[records[*i].p as usize].kind == kind)
        };
        for (kind, _) in TERMS {
            terms.as_part[kind as usize] += is(part(kind));
            terms.under_dual[kind as usize] += is(turned(kind));
        }
        let shares = |i: &usize| match records[*i].parts()[..] {
            [left, right] => {
                records[*i].kind != BOTH && shape.columns[left] & shape.columns[right] != 0
            }
            _ => false,
        };
        terms.shared += is(under.iter().any(shares));
        let cells = cells(input, shape.columns[input.term]);
        terms.extremes += is(cells.iter().any(|cell| [i32::MIN, i32::MAX].contains(cell)));
        let measured = [AROUND, BETWEEN].contains(&asked.kind);
        let far = |cell: &i32| (*cell as i64 - asked.u as i64).abs() > i32::MAX as i64;
        terms.far += is(measured && cells.iter().any(far));
    }

    fn note_query(&mut self, input: &Input, reply: &Reply) {
        let count = input.row_count();
        let kept = |i: usize| reply.answers[i] as usize == i;
        let queries = &mut self.queries;
        queries.kept += reply.values[0] as u64;
        queries.dropped += count as u64 - reply.values[0] as u64;
        if count > 40 {
            return;
        }
        let columns = Shape::of(&read(&input.table)).columns[input.term];
        let equal = |mask: u8, i: usize, j: usize| {
            let column =
                |k: usize| input.rows[i * input.columns + k] == input.rows[j * input.columns + k];
            (0..input.columns).all(|k| mask >> k & 1 == 0 || column(k))
        };
        let before = |j: usize| 0..j;
        let tie = |j: usize| before(j).any(|i| kept(i) && kept(j) && equal(columns, i, j));
        queries.ties += (0..count).any(tie) as u64;
        // A group is counted at its second row.
        let second = |j: usize| before(j).filter(|i| equal(input.group, *i, j)).count() == 1;
        queries.groups += ((0..count).filter(|j| second(*j)).count() >= 2) as u64;
    }
}

/// The values of all rows of the input in these columns.
fn cells(input: &Input, columns: u8) -> Vec<i32> {
    let rows: Vec<&[i32]> = match input.asks {
        Asks::Compare => vec![&input.first, &input.second],
        Asks::Perfect => vec![&input.first],
        _ => input.rows.chunks_exact(input.columns).take(40).collect(),
    };
    let read = |row: &[i32]| -> Vec<i32> {
        (0..row.len())
            .filter(|k| columns >> k & 1 == 1)
            .map(|k| row[k])
            .collect()
    };
    rows.into_iter().flat_map(read).collect()
}

impl Lengths {
    fn note(&mut self, lending: Lending, length: usize) {
        self.none += (length == 0) as u64;
        self.one += (length == 1) as u64;
        if length == 0 && lending.null {
            self.null += 1;
            return;
        }
        match lending.flush {
            Flush::End => self.at_end += 1,
            Flush::Start => self.at_start += 1,
            Flush::Inside(_) => self.inside += 1,
        }
    }
}
