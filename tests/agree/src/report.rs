//! Prints what the inputs reached, and what of it is too little.

use crate::coverage::{Coverage, Lengths, Terms, PIECES, REFUSALS};
use crate::faults;
use crate::input::{Asks, Call, Origin};
use crate::left_counts::{Out, Split};
use crate::limits::{COLUMN_COUNTS, ROW_COUNTS, TERM_NUMBERS};
use crate::order;
use crate::records::*;

/// "Many times".
const MANY: u64 = 100;
/// For what costs much, or comes in three lists only.
const SOME: u64 = 10;
/// For the largest queries with rows left out: not every one has a dropped row.
const FEW: u64 = 5;
/// For queries over rows that are left, a row or more being taken out, and for those split between two rows. A query of
/// few rows is asked again with more than one set taken out.
const LEFT: u64 = 50_000;

/// What is missing, one line each.
struct Needs(Vec<String>);

impl Needs {
    fn at_least(&mut self, least: u64, found: u64, what: impl FnOnce() -> String) {
        if found < least {
            self.0
                .push(format!("{}: {found}, at least {least} needed", what()));
        }
    }
}

/// Prints all figures. Gives what was not reached.
pub fn report(coverage: &Coverage) -> Vec<String> {
    let mut needs = Needs(vec![]);
    tables(coverage, &mut needs);
    replies(coverage, &mut needs);
    pairs(coverage, &mut needs);
    orders(coverage, &mut needs);
    for (terms, name) in coverage.terms.iter().zip(["compare", "perfect", "query"]) {
        terms_of(terms, name, &mut needs);
    }
    outcomes(coverage, &mut needs);
    queries(coverage, &mut needs);
    left_out(&coverage.leaving.out, &mut needs);
    catalogues(&coverage.leaving.split, &mut needs);
    numbers(coverage, &mut needs);
    for (lengths, piece) in coverage.lent.iter().zip(PIECES) {
        lent(lengths, piece, &mut needs);
    }
    println!("one row lent as both rows of compare: {}", coverage.one_row);
    needs.at_least(MANY, coverage.one_row, || {
        "one row lent as both".to_string()
    });
    needs.0
}

fn tables(coverage: &Coverage, needs: &mut Needs) {
    let percent = 100 * coverage.accepted / coverage.tables.max(1);
    println!(
        "tables: {} of {} accepted, {percent}%",
        coverage.accepted, coverage.tables
    );
    if !(35..=65).contains(&percent) {
        needs.0.push(format!(
            "{percent}% of the tables accepted, 35% to 65% needed"
        ));
    }
    println!("tables by origin, accepted and refused:");
    for origin in Origin::ALL {
        let [accepted, refused] = coverage.origins[origin as usize];
        println!("  {:32}{accepted:8}{refused:8}", origin.words());
        needs.at_least(MANY, accepted + refused, || {
            format!("tables: {}", origin.words())
        });
    }
}

fn replies(coverage: &Coverage, needs: &mut Needs) {
    print!("replies by refusal number:\n  {:16}", "");
    (0..REFUSALS).for_each(|number| print!("{number:>7}"));
    println!();
    for call in Call::ALL {
        let replies = &coverage.replies[call as usize];
        print!("  {:16}", call.words());
        replies.iter().for_each(|count| print!("{count:7}"));
        println!();
        for (number, count) in replies.iter().enumerate().take(call.refusals() + 1) {
            needs.at_least(MANY, *count, || {
                format!("{}: refusal {number}", call.words())
            });
        }
    }
}

fn pairs(coverage: &Coverage, needs: &mut Needs) {
    let pairs = faults::pairs();
    let count = |(asks, low, high): (Asks, usize, usize)| coverage.pairs[asks as usize][low][high];
    let reached = pairs.iter().filter(|pair| count(**pair) > 0).count();
    let rarest = pairs.iter().map(|pair| count(*pair)).min().unwrap_or(0);
    println!(
        "two refusals earned at once: {reached} of {} pairs, each by {rarest} inputs or more",
        pairs.len()
    );
    for (asks, low, high) in pairs {
        needs.at_least(SOME, count((asks, low, high)), || {
            format!("{}: {low} and {high}", asks.words())
        });
    }
    println!(
        "an earlier record's number over a later record's lower one: {}",
        coverage.record_first
    );
    needs.at_least(MANY, coverage.record_first, || {
        "an earlier record first".to_string()
    });
}

fn orders(coverage: &Coverage, needs: &mut Needs) {
    println!("two faults in one record; inputs with none, the lower, the higher, both:");
    for ((low, high), counts) in order::CASES.iter().zip(&coverage.order) {
        println!("  {low:2} and {high:2}: {counts:?}");
        for count in counts {
            needs.at_least(MANY, *count, || format!("{low} and {high} in one record"));
        }
    }
}

fn terms_of(terms: &Terms, name: &str, needs: &mut Needs) {
    println!("{name}, inputs by kind: asked, as a part, under a DUAL");
    for (kind, word) in TERMS {
        let kind = kind as usize;
        let counts = [
            terms.asked[kind],
            terms.as_part[kind],
            terms.under_dual[kind],
        ];
        println!("  {word:12}{:8}{:8}{:8}", counts[0], counts[1], counts[2]);
        for (count, how) in counts.iter().zip(["asked", "as a part", "under a DUAL"]) {
            needs.at_least(MANY, *count, || format!("{name}: {word} {how}"));
        }
    }
    println!(
        "  depth 5 and more: {}, deepest {}; shared columns: {}; ends of the range: {}; differences over 31 bits: {}",
        terms.deep, terms.deepest, terms.shared, terms.extremes, terms.far
    );
    needs.at_least(MANY, terms.deep, || format!("{name}: depth 5"));
    needs.at_least(100, terms.deepest as u64, || {
        format!("{name}: deepest term")
    });
    needs.at_least(MANY, terms.shared, || format!("{name}: shared columns"));
    needs.at_least(MANY, terms.extremes, || {
        format!("{name}: ends of the range")
    });
    needs.at_least(MANY, terms.far, || {
        format!("{name}: differences over 31 bits")
    });
}

fn outcomes(coverage: &Coverage, needs: &mut Needs) {
    println!("by asked kind: same, first better, second better, unranked; not perfect, perfect");
    for (kind, word) in TERMS {
        let outcomes = coverage.outcomes[kind as usize];
        let marks = coverage.marks[kind as usize];
        print!("  {word:12}");
        outcomes
            .iter()
            .chain(&marks)
            .for_each(|count| print!("{count:8}"));
        println!();
        for (outcome, count) in outcomes.iter().enumerate() {
            // Two values are ranked by LOWEST and HIGHEST, and not by ANY.
            let never = match kind {
                LOWEST | HIGHEST => outcome == 3,
                ANY => outcome == 1 || outcome == 2,
                _ => false,
            };
            if !never {
                needs.at_least(MANY, *count, || format!("{word}: outcome {outcome}"));
            }
        }
        for (mark, count) in marks.iter().enumerate() {
            // No value is better or worse under ANY.
            if kind != ANY || mark == 1 {
                needs.at_least(MANY, *count, || format!("{word}: perfect {mark}"));
            }
        }
    }
}

fn queries(coverage: &Coverage, needs: &mut Needs) {
    let queries = &coverage.queries;
    println!("queries by number of rows, accepted and ROWS:");
    for (count, [accepted, refused]) in ROW_COUNTS.iter().zip(queries.rows) {
        println!("  {count:6}{accepted:8}{refused:8}");
        let (found, least) = match count {
            1_023 | 1_024 => (accepted, SOME),
            1_025 => (refused, MANY),
            _ => (accepted, MANY),
        };
        needs.at_least(least, found, || format!("{count} rows"));
    }
    println!("rows kept: {}, dropped: {}", queries.kept, queries.dropped);
    println!(
        "queries that keep two rows equal in the term's columns: {}; with two groups of two rows: {}; whose groups \
         change an entry: {}",
        queries.ties, queries.groups, queries.changed
    );
    needs.at_least(MANY, queries.ties, || "equal rows kept".to_string());
    needs.at_least(MANY, queries.groups, || "groups of two rows".to_string());
    needs.at_least(MANY, queries.changed, || {
        "groups that change an entry".to_string()
    });
    needs.at_least(MANY, queries.dropped, || "dropped rows".to_string());
}

fn left_out(left: &Out, needs: &mut Needs) {
    let counts = [
        (MANY, left.none, "no row taken out"),
        (LEFT, left.some + left.all, "a row or more taken out"),
        (MANY, left.some, "some dropped rows taken out"),
        (MANY, left.all, "all dropped rows taken out"),
        (MANY, left.ungrouped, "without groups"),
        (MANY, left.grouped, "with groups"),
        (MANY, left.renumbered, "a named row's number changes"),
        (MANY, left.renumbered_in_groups, "the same with groups"),
        (MANY, left.part_asked, "a term that is not the top"),
        (MANY, left.over_64, "over 64 rows left"),
        (FEW, left.most_rows, "1,024 rows before"),
    ];
    listed("rows left out", &counts, needs);
}

fn catalogues(apart: &Split, needs: &mut Needs) {
    let counts = [
        (MANY, apart.first_empty, "no row in the first"),
        (MANY, apart.second_empty, "no row in the second"),
        (LEFT, apart.both, "rows in both"),
        (MANY, apart.ungrouped, "without groups"),
        (MANY, apart.grouped, "with groups"),
        (MANY, apart.beaten, "a row kept apart, dropped together"),
        (MANY, apart.beaten_in_groups, "the same with groups"),
        (MANY, apart.equal, "equal rows, one in each, both kept"),
        (MANY, apart.renumbered, "a named row's number changes"),
        (MANY, apart.part_asked, "a term that is not the top"),
        (MANY, apart.over_64, "over 64 rows kept apart"),
        (FEW, apart.most_rows, "1,024 rows in both"),
    ];
    listed("two catalogues", &counts, needs);
}

/// How many are needed, how many were found, and of what.
fn listed(name: &str, counts: &[(u64, u64, &str)], needs: &mut Needs) {
    println!("{name}:");
    for (least, count, what) in counts {
        println!("  {what:40}{count:8}");
        needs.at_least(*least, *count, || format!("{name}: {what}"));
    }
}

fn numbers(coverage: &Coverage, needs: &mut Needs) {
    print!("column counts:");
    for (columns, count) in COLUMN_COUNTS.iter().zip(coverage.column_counts) {
        print!("  {columns}: {count}");
        needs.at_least(MANY, count, || format!("column count {columns}"));
    }
    print!("\nterm numbers refused:");
    for (term, count) in TERM_NUMBERS.iter().zip(coverage.term_numbers) {
        print!("  {term}: {count}");
        needs.at_least(MANY, count, || format!("term number {term}"));
    }
    println!();
}

fn lent(lengths: &Lengths, piece: &str, needs: &mut Needs) {
    let Lengths {
        at_end,
        at_start,
        inside,
        null,
        none,
        one,
    } = *lengths;
    println!(
        "{piece} lent: flush at the end {at_end}, at the start {at_start}, inside {inside}, NULL {null}; length 0 \
         {none}, length 1 {one}"
    );
    let counts = [at_end, at_start, null, none, one];
    for (count, how) in
        counts
            .iter()
            .zip(["at the end", "at the start", "NULL", "length 0", "length 1"])
    {
        needs.at_least(MANY, *count, || format!("{piece} lent: {how}"));
    }
}
