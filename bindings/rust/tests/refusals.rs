//! Each of the 18 refusals, earned by a call: number, word, place and sentence (SPECIFICATION, "What a call refuses").
use finialbasil::{check, compare, perfect, query, Engine, Place, Reason, Refusal, Rows};

/// A record as kind, p, q, u, v.
type Fields = (u8, u8, u8, i32, i32);

fn table(records: &[Fields]) -> Vec<u8> {
    let mut bytes = Vec::new();
    for (kind, p, q, u, v) in records {
        bytes.extend([*kind, *p, *q, 0]);
        bytes.extend(u.to_le_bytes());
        bytes.extend(v.to_le_bytes());
    }
    bytes
}

const LOWEST: Fields = (1, 0, 0, 0, 0);
const ENGINES: [Engine; 3] = [Engine::Auto, Engine::Direct, Engine::ByParts];

/// The reason, with number, word and place as `short` has them, such as "14 LOOSE at record 0".
fn refused<T: std::fmt::Debug>(got: Result<T, Refusal>, reason: Reason, short: &str) {
    let refusal = got.unwrap_err();
    assert_eq!(refusal.reason(), reason);
    let words: Vec<&str> = short.split(' ').collect();
    assert_eq!(refusal.number().to_string(), words[0]);
    assert_eq!(refusal.word(), words[1]);
    assert_eq!(reason.to_string(), words[..2].join(" "));
    let record = words.get(4).map(|record| record.parse().unwrap());
    assert_eq!(refusal.record(), record);
    assert_eq!(refusal.place(), record.map(Place::Record));

    let said = refusal.to_string();
    let start = record.map_or(String::new(), |record| format!("record {record}: "));
    let end = format!(" (refusal {}, {})", words[0], words[1]);
    assert!(said.starts_with(&start) && said.ends_with(&end), "{said}");
    assert_eq!(said.starts_with("record "), record.is_some(), "{said}");
}

#[test]
fn width_and_length_have_no_place() {
    let lowest = table(&[LOWEST]);
    for columns in [0, 9, 264, usize::MAX] {
        refused(check(&lowest, columns), Reason::Width, "1 WIDTH");
    }
    for bytes in [0, 11, 13, 1548] {
        refused(check(&vec![1; bytes], 1), Reason::Length, "2 LENGTH");
    }
}

#[test]
fn a_record_by_itself() {
    let got = check(&table(&[(11, 0, 0, 0, 0)]), 1);
    refused(got, Reason::Kind, "3 KIND at record 0");

    // AROUND with column 8 and v = 1: FILLER goes before COLUMN.
    let got = check(&table(&[(3, 8, 0, 0, 1)]), 8);
    refused(got, Reason::Filler, "4 FILLER at record 0");

    let got = check(&table(&[(1, 1, 0, 0, 0)]), 1);
    refused(got, Reason::Column, "5 COLUMN at record 0");

    let got = check(&table(&[(4, 0, 0, 1, 0)]), 1);
    refused(got, Reason::Bounds, "12 BOUNDS at record 0");
}

#[test]
fn parts() {
    let got = check(&table(&[LOWEST, (16, 0, 1, 0, 0)]), 1);
    refused(got, Reason::Part, "6 PART at record 1");

    let got = check(&table(&[LOWEST, (16, 0, 0, 0, 0)]), 1);
    refused(got, Reason::Reused, "7 REUSED at record 1");

    let got = check(&table(&[LOWEST, (1, 1, 0, 0, 0), (18, 0, 1, 0, 0)]), 2);
    refused(got, Reason::Apart, "13 APART at record 2");

    let got = check(&table(&[LOWEST, (2, 0, 0, 0, 0)]), 1);
    refused(got, Reason::Loose, "14 LOOSE at record 0");
}

#[test]
fn values_of_terms() {
    let got = check(&table(&[(0, 1, 0, 5, 0)]), 1);
    refused(got, Reason::Stray, "8 STRAY at record 0");

    let mut crowd = vec![(5, 0, 0, 0, 0)];
    crowd.extend([(0, 1, 0, 5, 0); 17]);
    let got = check(&table(&crowd), 1);
    refused(got, Reason::Crowd, "9 CROWD at record 17");
    assert!(check(&table(&crowd[..17]), 1).is_ok());

    let pos_neg = [(7, 0, 0, 0, 0), (0, 1, 0, 5, 0), (0, 2, 0, 5, 0)];
    let got = check(&table(&pos_neg), 1);
    refused(got, Reason::Clash, "10 CLASH at record 2");

    let explicit = (9, 0, 0, 0, 0);
    let got = check(&table(&[explicit, (0, 4, 0, 1, 2), (0, 4, 0, 2, 1)]), 1);
    refused(got, Reason::Loop, "11 LOOP at record 2");
    let got = check(&table(&[explicit, (0, 4, 0, 1, 1)]), 1);
    refused(got, Reason::Loop, "11 LOOP at record 1");
}

/// The column count is that of the first row, so that a row without numbers is refused for its width.
#[test]
fn rows_and_terms() {
    let lowest = table(&[LOWEST]);
    for (first, second) in [(&[1, 2][..], &[3][..]), (&[1], &[]), (&[1], &[1, 2])] {
        refused(compare(&lowest, 0, first, second), Reason::Rows, "15 ROWS");
    }
    refused(compare(&lowest, 0, &[], &[1]), Reason::Width, "1 WIDTH");
    refused(perfect(&lowest, 0, &[]), Reason::Width, "1 WIDTH");
    refused(perfect(&lowest, 0, &[1; 9]), Reason::Width, "1 WIDTH");
    for term in [1, 256, usize::MAX] {
        refused(compare(&lowest, term, &[1], &[3]), Reason::Term, "16 TERM");
        refused(perfect(&lowest, term, &[1]), Reason::Term, "16 TERM");
    }
}

/// Each query earns the named refusal and all that come after it in the order, and writes nothing.
#[test]
fn queries_refuse_in_order_and_write_nothing() {
    let lowest = table(&[LOWEST]);
    for engine in ENGINES {
        let mut answers = [7u16; 1];
        let mut ask = |numbers: &[i32], term, group: usize| {
            let query = query(&lowest, term).group_by([group]).engine(engine);
            query.run_into(Rows::flat(numbers, 2), &mut answers)
        };
        refused(ask(&[1, 2, 3, 4, 5], 1, 2), Reason::Rows, "15 ROWS");
        refused(ask(&[1, 2, 3, 4], 1, 2), Reason::Term, "16 TERM");
        refused(ask(&[1, 2, 3, 4], 0, 2), Reason::Group, "17 GROUP");
        refused(ask(&[1, 2, 3, 4], 0, 1), Reason::Short, "18 SHORT");
        assert_eq!(answers, [7]);
    }
}

/// A query that makes its own buffer refuses the same, and is never short.
#[test]
fn queries_that_allocate_refuse_the_same() {
    let lowest = table(&[LOWEST]);
    for engine in ENGINES {
        let ask = |columns, numbers: &[i32], term, group: usize| {
            let query = query(&lowest, term).group_by([group]).engine(engine);
            query.run(Rows::flat(numbers, columns))
        };
        refused(ask(0, &[1, 2], 1, 2), Reason::Width, "1 WIDTH");
        refused(ask(9, &[1, 2], 1, 2), Reason::Width, "1 WIDTH");
        refused(ask(2, &[1, 2, 3], 1, 2), Reason::Rows, "15 ROWS");
        refused(ask(1, &[0; 1025], 1, 2), Reason::Rows, "15 ROWS");
        refused(ask(2, &[1, 2], 1, 2), Reason::Term, "16 TERM");
        refused(ask(2, &[1, 2], 0, 2), Reason::Group, "17 GROUP");
        assert_eq!(ask(2, &[1, 2], 0, 1).unwrap().kept_count(), 1);
    }
}

/// Columns for which the group byte has no bit: refused where a bit at the count would be, whatever the count.
#[test]
fn columns_beyond_the_group_byte_in_order() {
    let (lowest, loose) = (table(&[LOWEST]), table(&[LOWEST, LOWEST]));
    for engine in ENGINES {
        for beyond in [8, 9, 64, 256, usize::MAX] {
            for columns in 1..=8 {
                // No room for any answer, so that SHORT would come last.
                let ask = |bytes: &[u8], numbers: &[i32], term| {
                    let query = query(bytes, term).group_by([0, beyond]).engine(engine);
                    query.run_into(Rows::flat(numbers, columns), &mut [])
                };
                let numbers = [0; 16];
                let two = &numbers[..2 * columns];
                refused(ask(&[], two, 1), Reason::Length, "2 LENGTH");
                refused(ask(&loose, two, 9), Reason::Loose, "14 LOOSE at record 0");
                refused(ask(&lowest, two, 1), Reason::Term, "16 TERM");
                refused(ask(&lowest, two, 0), Reason::Group, "17 GROUP");
                refused(ask(&lowest, &[], 0), Reason::Group, "17 GROUP");
                if columns > 1 {
                    let cut = &numbers[..2 * columns - 1];
                    refused(ask(&lowest, cut, 1), Reason::Rows, "15 ROWS");
                }
            }
            let query = query(&lowest, 0).group_by([beyond]).engine(engine);
            refused(query.run(&[[0; 9]]), Reason::Width, "1 WIDTH");
            // With room, and with one query run by itself.
            let mut answers = [7; 2];
            let got = query.run_into(&[[1], [2]], &mut answers);
            refused(got, Reason::Group, "17 GROUP");
            assert_eq!(answers, [7, 7]);
            refused(query.run(&[[1], [2]]), Reason::Group, "17 GROUP");
            // Columns that are added later do not mend it.
            let got = query.group_by([0]).run(&[[1], [2]]);
            refused(got, Reason::Group, "17 GROUP");
        }
    }
}

/// All 18 as a user sees them, by number, for the calls below.
const SAID: [&str; 18] = [
    "the column count is not 1 to 8; use rows of 1 to 8 columns (refusal 1, WIDTH)",
    "the table is not 1 to 128 whole records of 12 bytes; \
     give it at least one term, and at most 128 records (refusal 2, LENGTH)",
    "record 0: byte 0 is no kind of record; \
     write a kind from 0 to 10 or from 16 to 19 (refusal 3, KIND)",
    "record 0: a field that this kind of record or this role does not use is not zero; \
     set that field to zero (refusal 4, FILLER)",
    "record 0: this term reads a column that the rows do not have; \
     use a column below the column count (refusal 5, COLUMN)",
    "record 1: a part of this term is no earlier term of this table; \
     use terms that stand before it in the same table (refusal 6, PART)",
    "record 1: a part of this term is a part already; \
     use the term that it became a part of, or add its wish once more, as a term of its own (refusal 7, REUSED)",
    "record 1: there is no term before this value, or that term does not take this role; \
     put the value behind a term that takes its role (refusal 8, STRAY)",
    "record 17: this is the 17th value of its term; \
     give a term at most 16 values (refusal 9, CROWD)",
    "record 2: this value stands in its term under the other role too; \
     leave it out under one of the two roles (refusal 10, CLASH)",
    "record 1: this edge closes a cycle, which would make a value better than itself; \
     leave out one edge of the cycle (refusal 11, LOOP)",
    "record 0: the low bound is above the up bound; \
     give the lower bound first (refusal 12, BOUNDS)",
    "record 2: the two parts of this BOTH read different columns; \
     use parts that read the same columns, or join them by PARETO (refusal 13, APART)",
    "record 0: this term is no part of a later term, as every term but the last must be; \
     join it to another term, by PARETO or PRIOR for instance (refusal 14, LOOSE)",
    "a row is longer or shorter than the column count, or there are over 1,024 rows; \
     give whole rows, and query more than 1,024 in parts, then the kept rows together (refusal 15, ROWS)",
    "what is asked for is no term of this table; \
     ask for a term of this table, such as its top (refusal 16, TERM)",
    "a column to group by is one that the rows do not have; \
     group by columns below the column count (refusal 17, GROUP)",
    "the answer buffer has fewer entries than there are rows; \
     give it an entry for each row (refusal 18, SHORT)",
];

#[test]
fn what_each_refusal_says() {
    let lowest = table(&[LOWEST]);
    let checked = |records: &[Fields], columns| check(&table(records), columns).unwrap_err();
    let mut crowd = vec![(5, 0, 0, 0, 0)];
    crowd.extend([(0, 1, 0, 5, 0); 17]);
    let refusals = [
        checked(&[LOWEST], 0),
        checked(&[], 1),
        checked(&[(11, 0, 0, 0, 0)], 1),
        checked(&[(1, 0, 0, 0, 1)], 1),
        checked(&[(1, 1, 0, 0, 0)], 1),
        checked(&[LOWEST, (19, 1, 0, 0, 0)], 1),
        checked(&[LOWEST, (16, 0, 0, 0, 0)], 1),
        checked(&[LOWEST, (0, 1, 0, 5, 0)], 1),
        checked(&crowd, 1),
        checked(&[(8, 0, 0, 0, 0), (0, 3, 0, 5, 0), (0, 1, 0, 5, 0)], 1),
        checked(&[(9, 0, 0, 0, 0), (0, 4, 0, 5, 5)], 1),
        checked(&[(4, 0, 0, 5, 4)], 1),
        checked(&[LOWEST, (1, 1, 0, 0, 0), (18, 0, 1, 0, 0)], 2),
        checked(&[LOWEST, LOWEST], 1),
        query(&lowest, 0).run(&[[0]; 1025]).unwrap_err(),
        query(&lowest, 1).run(&[[0]]).unwrap_err(),
        query(&lowest, 0).group_by([1]).run(&[[0]]).unwrap_err(),
        query(&lowest, 0).run_into(&[[0]], &mut []).unwrap_err(),
    ];
    for (number, (refusal, said)) in (1..).zip(refusals.into_iter().zip(SAID)) {
        assert_eq!(refusal.number(), number);
        assert_eq!(refusal.to_string(), said);
        let reason = refusal.reason();
        let middle = format!("{}; {} (", reason.sentence(), reason.advice());
        assert!(said.contains(&middle), "{middle}");
    }
}

#[test]
fn a_refusal_is_an_error() {
    fn asked() -> Result<(), Box<dyn std::error::Error>> {
        check(&[], 1)?;
        Ok(())
    }
    let refusal = asked().unwrap_err();
    assert_eq!(refusal.to_string(), SAID[1]);
    // What a `main` prints whose error it is.
    assert_eq!(format!("{refusal:?}"), SAID[1]);
}
