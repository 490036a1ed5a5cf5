//! The builder: the bytes of each kind by hand from SPECIFICATION, "The table", and what each method refuses.
use finialbasil::{Columns, Engine, Mark, Reason, Refusal, Table, Term};

type Built = Result<Term, Refusal>;

/// A table with what the method under test gives.
fn built(method: impl Fn(&mut Table) -> Built) -> (Table, Built) {
    let mut table = Table::new();
    let got = method(&mut table);
    (table, got)
}

/// The method's records, each as its 12 bytes.
fn writes<const N: usize>(method: impl Fn(&mut Table) -> Built, records: [[u8; 12]; N]) {
    let (table, got) = built(method);
    let term = got.unwrap();
    assert_eq!(term.record(), 0);
    assert_eq!(table.top(), Some(term));
    assert_eq!(table.records(), N);
    assert_eq!(table.as_bytes(), records.as_flattened());
    assert_eq!(table.to_bytes(), table.as_bytes());
    assert_eq!(table.as_ref(), table.as_bytes());
}

/// On a fresh table the method is refused, and nothing is left of it.
fn refuses(method: impl Fn(&mut Table) -> Built, reason: Reason, place: Option<usize>) {
    let (table, got) = built(method);
    refused(got, reason, place);
    assert_eq!((table.records(), table.top()), (0, None));
}

fn refused<T: std::fmt::Debug>(got: Result<T, Refusal>, reason: Reason, place: Option<usize>) {
    let refusal = got.unwrap_err();
    assert_eq!((refusal.reason(), refusal.record()), (reason, place));
}

#[test]
fn base_terms_without_values() {
    writes(|t| t.lowest(0), [[1, 0, 0, 0, 0, 0, 0, 0, 0, 0, 0, 0]]);
    writes(|t| t.highest(7), [[2, 7, 0, 0, 0, 0, 0, 0, 0, 0, 0, 0]]);
    writes(|t| t.any(3), [[10, 3, 0, 0, 0, 0, 0, 0, 0, 0, 0, 0]]);
    // -2 is ff ff ff fe, 300 is 01 2c, low byte first.
    writes(
        |t| t.around(2, -2),
        [[3, 2, 0, 0, 254, 255, 255, 255, 0, 0, 0, 0]],
    );
    writes(
        |t| t.between(1, -2, 300),
        [[4, 1, 0, 0, 254, 255, 255, 255, 44, 1, 0, 0]],
    );
    writes(
        |t| t.between(1, i32::MIN, i32::MAX),
        [[4, 1, 0, 0, 0, 0, 0, 128, 255, 255, 255, 127]],
    );
}

#[test]
fn base_terms_with_values() {
    let value = |role, u| [0, role, 0, 0, u, 0, 0, 0, 0, 0, 0, 0];
    let term = |kind| [kind, 1, 0, 0, 0, 0, 0, 0, 0, 0, 0, 0];
    writes(|t| t.pos(1, &[2, 3]), [term(5), value(1, 2), value(1, 3)]);
    writes(|t| t.neg(1, &[4]), [term(6), value(2, 4)]);
    writes(
        |t| t.pos_neg(1, &[5], &[6, 7]),
        [term(7), value(1, 5), value(2, 6), value(2, 7)],
    );
    writes(
        |t| t.pos_pos(1, &[5, 6], &[7]),
        [term(8), value(1, 5), value(1, 6), value(3, 7)],
    );
    writes(
        |t| t.explicit(1, &[(4, 3), (-1, 256)]),
        [
            term(9),
            [0, 4, 0, 0, 4, 0, 0, 0, 3, 0, 0, 0],
            [0, 4, 0, 0, 255, 255, 255, 255, 0, 1, 0, 0],
        ],
    );
}

#[test]
fn no_values_at_all() {
    let term = |kind| [[kind, 1, 0, 0, 0, 0, 0, 0, 0, 0, 0, 0]];
    writes(|t| t.pos(1, &[]), term(5));
    writes(|t| t.neg(1, &[]), term(6));
    writes(|t| t.pos_neg(1, &[], &[]), term(7));
    writes(|t| t.pos_pos(1, &[], &[]), term(8));
    writes(|t| t.explicit(1, &[]), term(9));
}

/// Values stand between terms, so record numbers are not the order of the calls.
#[test]
fn compound_terms() -> Result<(), Refusal> {
    let mut table = Table::new();
    let pos = table.pos(0, &[5])?; // records 0 and 1
    let low = table.lowest(0)?;
    let both = table.both(pos, low)?;
    let high = table.highest(1)?;
    let equally = table.pareto(high, both)?;
    let dual = table.dual(equally)?;
    let any = table.any(2)?;
    let top = table.prior(dual, any)?;
    let numbers = [pos, low, both, high, equally, dual, any, top].map(Term::record);
    assert_eq!(numbers, [0, 2, 3, 4, 5, 6, 7, 8]);
    let compounds = [
        (3, [18, 0, 2, 0, 0, 0, 0, 0, 0, 0, 0, 0]),
        (5, [16, 4, 3, 0, 0, 0, 0, 0, 0, 0, 0, 0]),
        (6, [19, 5, 0, 0, 0, 0, 0, 0, 0, 0, 0, 0]),
        (8, [17, 6, 7, 0, 0, 0, 0, 0, 0, 0, 0, 0]),
    ];
    for (number, record) in compounds {
        assert_eq!(table.as_bytes()[12 * number..12 * (number + 1)], record);
    }
    let summary = table.check(3)?;
    assert_eq!((summary.records, summary.top), (9, 8));
    assert_eq!((summary.columns.bits(), summary.column_count), (0b111, 3));
    Ok(())
}

#[test]
fn a_table_without_terms() {
    let table = Table::default();
    assert_eq!((table.records(), table.top()), (0, None));
    assert!(table.as_bytes().is_empty());
    refused(table.check(1), Reason::Length, None);
}

#[test]
fn columns_that_no_rows_have() {
    // 256 and 264 would be columns 0 and 8 if they were cut to a byte.
    for column in [8, 255, 256, 264, usize::MAX] {
        let here = Some(0);
        refuses(|t| t.lowest(column), Reason::Column, here);
        refuses(|t| t.highest(column), Reason::Column, here);
        refuses(|t| t.around(column, 1), Reason::Column, here);
        refuses(|t| t.between(column, 1, 2), Reason::Column, here);
        refuses(|t| t.pos(column, &[1]), Reason::Column, here);
        refuses(|t| t.neg(column, &[1]), Reason::Column, here);
        refuses(|t| t.pos_neg(column, &[1], &[2]), Reason::Column, here);
        refuses(|t| t.pos_pos(column, &[1], &[2]), Reason::Column, here);
        refuses(|t| t.explicit(column, &[(1, 2)]), Reason::Column, here);
        refuses(|t| t.any(column), Reason::Column, here);
    }
}

#[test]
fn left_to_the_check() -> Result<(), Refusal> {
    let mut table = Table::new();
    let volts = table.around(0, 24)?;
    let price = table.lowest(7)?;
    refused(table.check(8), Reason::Loose, Some(0));
    refused(table.check(7), Reason::Column, Some(1));
    refused(table.check(9), Reason::Width, None);
    let top = table.pareto(volts, price)?;
    assert_eq!(table.check(8)?.top, top.record());
    refused(table.check(7), Reason::Column, Some(1));
    Ok(())
}

#[test]
fn sixteen_values_pass_and_seventeen_do_not() {
    let many: Vec<i32> = (0..17).collect();
    let path: Vec<(i32, i32)> = (0..17).map(|i| (i, i + 1)).collect();
    let last = Some(17);
    refuses(|t| t.pos(0, &many), Reason::Crowd, last);
    refuses(|t| t.neg(0, &many), Reason::Crowd, last);
    refuses(
        |t| t.pos_neg(0, &many[..9], &many[9..]),
        Reason::Crowd,
        last,
    );
    refuses(
        |t| t.pos_pos(0, &many[..9], &many[9..]),
        Reason::Crowd,
        last,
    );
    refuses(|t| t.explicit(0, &path), Reason::Crowd, last);

    let passes = |method: &dyn Fn(&mut Table) -> Built| {
        let (table, got) = built(method);
        assert!(got.is_ok() && table.check(1).is_ok());
        assert_eq!(table.records(), 17);
    };
    passes(&|t| t.pos(0, &many[..16]));
    passes(&|t| t.neg(0, &many[..16]));
    passes(&|t| t.pos_neg(0, &many[..8], &many[8..16]));
    passes(&|t| t.pos_pos(0, &many[..8], &many[8..16]));
    passes(&|t| t.explicit(0, &path[..16]));
    // The same value twice in one role.
    passes(&|t| t.pos(0, &[1; 16]));
}

#[test]
fn values_that_contradict() {
    refuses(|t| t.pos_neg(0, &[5], &[5]), Reason::Clash, Some(2));
    refuses(|t| t.pos_pos(0, &[4, 5], &[6, 4]), Reason::Clash, Some(4));
    refuses(|t| t.explicit(0, &[(1, 2), (2, 1)]), Reason::Loop, Some(2));
    refuses(|t| t.explicit(0, &[(1, 1)]), Reason::Loop, Some(1));
    refuses(|t| t.between(0, 5, 4), Reason::Bounds, Some(0));
    assert!(built(|t| t.between(0, 5, 5)).1.is_ok());
}

#[test]
fn parts_used_twice() -> Result<(), Refusal> {
    let mut table = Table::new();
    let (a, b, c) = (table.lowest(0)?, table.highest(0)?, table.any(0)?);
    refused(table.pareto(a, a), Reason::Reused, Some(3));
    refused(table.prior(b, b), Reason::Reused, Some(3));
    let d = table.pareto(a, b)?;
    let before = table.to_bytes();
    refused(table.dual(a), Reason::Reused, Some(4));
    refused(table.pareto(b, c), Reason::Reused, Some(4));
    refused(table.prior(c, a), Reason::Reused, Some(4));
    refused(table.both(d, d), Reason::Reused, Some(4));
    assert_eq!((table.top(), table.to_bytes()), (Some(d), before));
    let top = table.both(c, d)?;
    assert_eq!((top.record(), table.check(1)?.top), (4, 4));
    Ok(())
}

#[test]
fn both_asks_for_the_same_columns() -> Result<(), Refusal> {
    let mut table = Table::new();
    let (a, b, c) = (table.lowest(0)?, table.highest(1)?, table.any(0)?);
    refused(table.both(a, b), Reason::Apart, Some(3));
    let ab = table.pareto(a, b)?;
    refused(table.both(ab, c), Reason::Apart, Some(4));
    Ok(())
}

/// Terms of another table, with record numbers that this table has too.
#[test]
fn parts_of_another_table() -> Result<(), Refusal> {
    let (mut table, mut other) = (Table::new(), Table::new());
    let (own, _) = (table.lowest(0)?, table.highest(0)?);
    let (low, foreign) = (other.lowest(0)?, other.highest(0)?);
    let before = table.to_bytes();
    refused(table.pareto(own, foreign), Reason::Part, Some(2));
    refused(table.pareto(foreign, own), Reason::Part, Some(2));
    refused(table.prior(own, foreign), Reason::Part, Some(2));
    refused(table.both(foreign, own), Reason::Part, Some(2));
    refused(table.dual(foreign), Reason::Part, Some(2));
    assert_eq!(table.to_bytes(), before);
    assert!(other.both(low, foreign).is_ok());
    Ok(())
}

/// As the order of the refusals has it: after ROWS, before GROUP.
#[test]
fn terms_of_another_table_in_calls() -> Result<(), Refusal> {
    let (mut table, mut other) = (Table::new(), Table::new());
    let (own, foreign) = (table.lowest(0)?, other.lowest(0)?);
    assert_ne!(own, foreign);
    refused(table.compare(foreign, &[1], &[2]), Reason::Term, None);
    refused(table.compare(foreign, &[1], &[]), Reason::Rows, None);
    refused(table.perfect(foreign, &[1]), Reason::Term, None);
    for engine in [Engine::Auto, Engine::Direct, Engine::ByParts] {
        // Bits above the column count: GROUP would come next.
        let all = Columns::from_bits(255);
        let asked = table.query(foreign).group_by(all).engine(engine);
        refused(asked.run(&[[1]]), Reason::Term, None);
        let mut answers = [7];
        refused(asked.run_into(&[[1]], &mut answers), Reason::Term, None);
        assert_eq!(answers, [7]);
        let asked = table.query(own).group_by([0]).engine(engine);
        assert_eq!(asked.run_into(&[[1]], &mut answers), Ok(1));
        assert_eq!(answers, [0]);
    }
    Ok(())
}

/// A run too long for any table is refused for that, before its values are judged.
#[test]
fn more_values_than_records() {
    refuses(|t| t.pos(0, &[1; 127]), Reason::Crowd, Some(17));
    refuses(|t| t.pos(0, &[1; 128]), Reason::Length, None);
    refuses(
        |t| t.explicit(0, &vec![(1, 2); 100_000]),
        Reason::Length,
        None,
    );
}

#[test]
fn records_to_the_limit() -> Result<(), Refusal> {
    let mut table = Table::new();
    let mut top = table.lowest(0)?;
    for _ in 1..127 {
        top = table.dual(top)?;
    }
    // Only record 127 is left; a term with a value needs one more.
    refused(table.pos(0, &[1]), Reason::Length, None);
    refused(table.pos(0, &vec![1; 100_000]), Reason::Length, None);
    top = table.dual(top)?;
    assert_eq!((table.records(), table.as_bytes().len()), (128, 1536));
    refused(table.dual(top), Reason::Length, None);
    refused(table.lowest(0), Reason::Length, None);
    assert_eq!((table.top(), table.records()), (Some(top), 128));
    assert_eq!(table.check(1)?.top, 127);
    // 127 DUALs: an odd number.
    assert_eq!(table.perfect(top, &[i32::MAX]), Ok(Mark::Yes));
    Ok(())
}

/// A table with every kind and every role; its terms in record order.
fn every_kind() -> Result<(Table, Vec<Term>), Refusal> {
    let mut table = Table::new();
    let mut terms = vec![
        table.lowest(0)?,
        table.highest(1)?,
        table.around(2, -24)?,
        table.between(3, 10, 16)?,
        table.pos(4, &[7])?,
        table.neg(4, &[-9])?,
        table.pos_neg(5, &[1, 2], &[3])?,
        table.pos_pos(5, &[4], &[5])?,
        table.explicit(6, &[(30, 20), (20, 10)])?,
        table.any(7)?,
    ];
    terms.push(table.pareto(terms[0], terms[1])?);
    terms.push(table.prior(terms[2], terms[3])?);
    terms.push(table.both(terms[4], terms[5])?);
    terms.push(table.both(terms[6], terms[7])?);
    terms.push(table.dual(terms[8])?);
    terms.push(table.pareto(terms[10], terms[11])?);
    terms.push(table.pareto(terms[12], terms[13])?);
    terms.push(table.prior(terms[14], terms[9])?);
    terms.push(table.prior(terms[15], terms[16])?);
    terms.push(table.pareto(terms[17], terms[18])?);
    Ok((table, terms))
}

#[test]
fn from_bytes_and_back() -> Result<(), Refusal> {
    let (table, terms) = every_kind()?;
    let read = Table::from_bytes(table.as_bytes())?;
    assert_eq!(read.as_bytes(), table.as_bytes());
    assert_eq!(read.records(), table.records());
    assert_eq!(read.check(8), table.check(8));
    assert_eq!(read.to_string(), table.to_string());

    // The same numbers, and terms of the read table alone.
    let numbers = |table: &Table| table.terms().map(Term::record).collect::<Vec<_>>();
    let expected: Vec<usize> = terms.iter().map(|term| term.record()).collect();
    assert_eq!(numbers(&table), expected);
    assert_eq!(numbers(&read), expected);
    assert_eq!(table.terms().collect::<Vec<_>>(), terms);
    assert_ne!(read.terms().collect::<Vec<_>>(), terms);
    assert_eq!(read.top(), read.terms().last());
    assert_eq!(read.top().map(Term::record), Some(28));
    for record in 0..40 {
        let expected = expected.contains(&record).then_some(record);
        assert_eq!(read.term(record).map(Term::record), expected);
    }
    assert_eq!(read.term(usize::MAX), None);
    refused(read.perfect(terms[0], &[0; 8]), Reason::Term, None);
    let lowest = read.term(0).unwrap();
    assert_eq!(read.perfect(lowest, &[i32::MIN; 8]), Ok(Mark::Yes));
    Ok(())
}

#[test]
fn a_read_table_can_be_built_on() -> Result<(), Refusal> {
    let mut stored = Table::new();
    stored.pos(0, &[5])?; // records 0 and 1
    let mut table = Table::from_bytes(stored.as_bytes())?;
    let (brand, price) = (table.top().unwrap(), table.lowest(1)?);
    let wish = table.prior(brand, price)?;
    assert_eq!((brand.record(), price.record(), wish.record()), (0, 2, 3));
    assert_eq!((table.top(), table.check(2)?.top), (Some(wish), 3));
    let answers = table.query(wish).run(&[[5, 9], [5, 8], [4, 1]])?;
    assert_eq!(answers.entries(), [1, 1, 1]);
    Ok(())
}

/// What the check refuses with eight columns, and nothing else: fewer columns are the caller's to name.
#[test]
fn bytes_that_are_no_table() -> Result<(), Refusal> {
    refused(Table::from_bytes(&[]), Reason::Length, None);
    refused(Table::from_bytes(&[1; 13]), Reason::Length, None);
    let column_7 = [1, 7, 0, 0, 0, 0, 0, 0, 0, 0, 0, 0];
    let column_8 = [1, 8, 0, 0, 0, 0, 0, 0, 0, 0, 0, 0];
    let table = Table::from_bytes(&column_7)?;
    assert!(table.check(8).is_ok());
    refused(table.check(7), Reason::Column, Some(0));
    refused(Table::from_bytes(&column_8), Reason::Column, Some(0));
    let loose = [column_7, column_7].concat();
    refused(Table::from_bytes(&loose), Reason::Loose, Some(0));
    Ok(())
}

#[test]
fn every_kind_in_words() -> Result<(), Refusal> {
    let (table, _) = every_kind()?;
    let expected = "\
0: LOWEST column 0, the lower the better
1: HIGHEST column 1, the higher the better
2: AROUND column 2, wish -24, the nearer the better
3: BETWEEN column 3, 10 to 16, the nearer the better
4: POS column 4, favourites first
5:   favourite 7
6: NEG column 4, disliked values last
7:   disliked -9
8: POS/NEG column 5, favourites first, disliked values last
9:   favourite 1
10:   favourite 2
11:   disliked 3
12: POS/POS column 5, favourites first, then second choices
13:   favourite 4
14:   second choice 5
15: EXPLICIT column 6, ranked by edges
16:   edge: 20 is better than 30
17:   edge: 10 is better than 20
18: ANY column 7, nothing is better
19: PARETO of 0 and 1, ranking equally
20: PRIOR: 2 first, then 3
21: BOTH of 4 and 6, better only if better in both
22: BOTH of 8 and 12, better only if better in both
23: DUAL of 15, better and worse exchanged
24: PARETO of 19 and 20, ranking equally
25: PARETO of 21 and 22, ranking equally
26: PRIOR: 23 first, then 18
27: PRIOR: 24 first, then 25
28: PARETO of 26 and 27, ranking equally (the top)";
    assert_eq!(table.to_string(), expected);
    assert_eq!(Table::new().to_string(), "");
    Ok(())
}

/// The top is the last term, not the last record.
#[test]
fn a_top_with_values_in_words() -> Result<(), Refusal> {
    let mut table = Table::new();
    table.pos(0, &[i32::MIN])?;
    let expected = "0: POS column 0, favourites first (the top)\n1:   favourite -2147483648";
    assert_eq!(table.to_string(), expected);
    Ok(())
}
