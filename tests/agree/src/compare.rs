//! The oracle's reply to an input in the library's form, and what differs between two replies.

use crate::input::{Asks, Input};
use crate::library::Reply;
use finialbasil::ffi::NO_PLACE;
use oracle::{Oracle, Outcome, Refused};

pub fn expected(oracle: &Oracle, input: &Input) -> Reply {
    let (table, columns, term) = (&input.table[..], input.columns, input.term);
    let mut answers = vec![];
    let values = match input.asks {
        Asks::Check => oracle.check(table, columns).map(|checked| {
            [
                checked.records as u32,
                checked.top as u32,
                checked.columns,
                checked.column_count,
            ]
        }),
        Asks::Compare => oracle
            .compare(table, columns, term, &input.first, &input.second)
            .map(|outcome| [number(outcome), 0, 0, 0]),
        Asks::Perfect => oracle
            .perfect(table, columns, term, &input.first)
            .map(|perfect| [perfect as u32, 0, 0, 0]),
        Asks::Query => {
            answers = input.patterned();
            oracle
                .query(table, columns, &input.rows, term, input.group, &mut answers)
                .map(|kept| [kept as u32, 0, 0, 0])
        }
    };
    let (refusal, place, values) = match values {
        Ok(values) => (0, NO_PLACE, values),
        Err(Refused { number, place }) => {
            (number, place.map_or(NO_PLACE, |place| place as u32), [0; 4])
        }
    };
    Reply {
        refusal,
        place,
        values,
        answers,
        strayed: 0,
    }
}

/// The numbers of the C interface.
fn number(outcome: Outcome) -> u32 {
    match outcome {
        Outcome::Same => 0,
        Outcome::FirstBetter => 1,
        Outcome::SecondBetter => 2,
        Outcome::Unranked => 3,
    }
}

/// All refusal numbers that the input earns, one bit each.
pub fn earned(oracle: &Oracle, input: &Input) -> u32 {
    let single: &[&[i32]] = match input.asks {
        Asks::Compare => &[&input.first, &input.second],
        Asks::Perfect => &[&input.first],
        _ => &[],
    };
    let query = input.asks == Asks::Query;
    oracle.earned(
        &input.table,
        input.columns,
        query.then_some(&input.rows[..]),
        single,
        (input.asks != Asks::Check).then_some(input.term),
        query.then_some(input.group),
        query.then_some(input.answers),
    )
}

/// The first difference in words, or none.
pub fn difference(input: &Input, expected: &Reply, given: &Reply) -> Option<String> {
    let head = |reply: &Reply| (reply.refusal, reply.place, reply.values);
    if let Some((refusal, place)) = input.stated {
        if (given.refusal, given.place) != (refusal, place) {
            return Some(format!(
                "stated: refusal {refusal} place {place:#x}, given: {}",
                words(given)
            ));
        }
    }
    if head(expected) != head(given) {
        return Some(format!(
            "expected: {}, given: {}",
            words(expected),
            words(given)
        ));
    }
    let entries = expected.answers.iter().zip(&given.answers);
    if let Some(k) = entries.clone().position(|(one, two)| one != two) {
        let (one, two) = (expected.answers[k], given.answers[k]);
        return Some(format!("entry {k}: expected {one}, given {two}"));
    }
    if expected.answers.len() != given.answers.len() {
        return Some("answer buffers of different lengths".to_string());
    }
    (given.strayed > 0).then(|| format!("{} entries outside the buffer written", given.strayed))
}

pub fn words(reply: &Reply) -> String {
    match reply.refusal {
        0 => format!("values {:?}", reply.values),
        number if reply.place == NO_PLACE => {
            format!("refusal {number} no place, values {:?}", reply.values)
        }
        number => format!(
            "refusal {number} place {}, values {:?}",
            reply.place, reply.values
        ),
    }
}
