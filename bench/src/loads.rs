//! The loads: a table, its top as the asked term, 1,024 rows of which the first are taken, and a group byte.
use crate::rows::{self, anti_correlated, correlated, grouped, independent};
use crate::table::*;

#[derive(Clone)]
pub struct Load {
    pub name: String,
    pub table: Vec<u8>,
    pub term: usize,
    pub rows: Vec<i32>,
    pub group: u8,
}

fn load(name: &str, (table, term): (Table, usize), rows: Vec<i32>) -> Load {
    Load {
        name: name.to_string(),
        table: table.bytes,
        term,
        rows,
        group: 0,
    }
}

/// Every load of the first table, in its order.
pub fn loads() -> Vec<Load> {
    let mut all = vec![t1_over_v()];
    for columns in [2, 4, 8] {
        all.push(pareto(columns, "independent"));
    }
    all.push(pareto(8, "correlated"));
    for columns in [4, 8] {
        all.push(pareto(columns, "anti-correlated"));
    }
    all.push(pareto(8, "equal rows"));
    all.extend(priors());
    all.push(load("EXPLICIT, 16 edges", edges(), independent(21, 20)));
    all.push(load(
        "POS, NEG, POS/NEG, POS/POS",
        classes(),
        independent(33, 40),
    ));
    all.push(load(
        "4 AROUND, 4 BETWEEN",
        distances(),
        independent(35, 1_000_000),
    ));
    all.push(load(
        "DUAL and BOTH",
        dual_and_both(),
        independent(37, 1_000),
    ));
    all.extend([4, 256].map(groups));
    all.push(sixty_four());
    all.push(load(
        "64 base terms, balanced",
        balanced(),
        independent(9, 20),
    ));
    all
}

pub fn t1_over_v() -> Load {
    load("T1 over V, repeated", t1(), rows::repeated(&rows::V))
}

/// Three rows of V, none better than another: the direct engine compares every pair of rows once.
pub fn t1_over_kept() -> Load {
    let kept = [rows::V[0], rows::V[2], rows::V[4]];
    load(
        "T1 over the kept rows of V, repeated",
        t1(),
        rows::repeated(&kept),
    )
}

pub fn pareto(columns: usize, points: &str) -> Load {
    let seed = 77 + columns as u64;
    let rows = match points {
        "correlated" => correlated(seed),
        "anti-correlated" => anti_correlated(seed),
        "equal rows" => independent(seed, 1),
        _ => independent(seed, 1_000_000),
    };
    let name = format!("PARETO of {columns}, {points}");
    load(&name, lowest(PARETO, columns), rows)
}

/// The first column decides nearly all pairs where values are many; pairs go deep where they are few.
fn priors() -> [Load; 2] {
    [
        load("PRIOR of 8", lowest(PRIOR, 8), independent(5, 1_000_000)),
        load(
            "PRIOR of 8, two values",
            lowest(PRIOR, 8),
            independent(5, 2),
        ),
    ]
}

/// The last column, with as many values as there are groups, is what rows of a group are equal in.
fn groups(count: u64) -> Load {
    let name = format!("PARETO of 4, {count} groups");
    let rows = grouped(independent(41, 1_000_000), count);
    Load {
        group: 1 << (rows::COLUMNS - 1),
        ..load(&name, lowest(PARETO, 4), rows)
    }
}

pub fn sixty_four() -> Load {
    load("64 base terms, left-leaning", deep(), independent(9, 20))
}

/// PARETO of LOWEST and AROUND in turn, over so many base terms.
pub fn lowest_and_around(terms: usize, rows: Vec<i32>) -> Load {
    let mut t = Table::default();
    let mut top = t.base(LOWEST, 0, 0, 0);
    for i in 1..terms {
        let kind = if i / 8 % 2 == 0 { LOWEST } else { AROUND };
        let next = t.base(kind, i % rows::COLUMNS, 0, 0);
        top = t.join(PARETO, top, next);
    }
    load(&format!("{terms} base terms"), (t, top), rows)
}

fn t1() -> (Table, usize) {
    let mut t = Table::default();
    let around = t.base(AROUND, 0, 0, 0);
    let lowest = t.base(LOWEST, 1, 0, 0);
    let joined = t.join(PARETO, around, lowest);
    let highest = t.base(HIGHEST, 2, 0, 0);
    let top = t.join(PARETO, joined, highest);
    (t, top)
}

/// LOWEST of the first columns, joined one by one.
fn lowest(compound: u8, columns: usize) -> (Table, usize) {
    let mut t = Table::default();
    let mut top = t.base(LOWEST, 0, 0, 0);
    for c in 1..columns {
        let next = t.base(LOWEST, c, 0, 0);
        top = t.join(compound, top, next);
    }
    (t, top)
}

/// Eight LOWEST, eight AROUND 0, eight BETWEEN 0 and 2, eight LOWEST, and these again.
fn mixed(t: &mut Table, i: usize) -> usize {
    let kind = [LOWEST, AROUND, BETWEEN, LOWEST][i / 8 % 4];
    t.base(
        kind,
        i % rows::COLUMNS,
        0,
        if kind == BETWEEN { 2 } else { 0 },
    )
}

/// 64 base terms, joined one by one; every third join is a PRIOR.
fn deep() -> (Table, usize) {
    let mut t = Table::default();
    let mut top = mixed(&mut t, 0);
    for i in 1..64 {
        let next = mixed(&mut t, i);
        let compound = if i % 3 == 2 { PRIOR } else { PARETO };
        top = t.join(compound, top, next);
    }
    (t, top)
}

/// The same 64 base terms, joined by PARETO in pairs, the pairs in pairs, and so on.
fn balanced() -> (Table, usize) {
    let mut t = Table::default();
    let mut layer: Vec<usize> = (0..64).map(|i| mixed(&mut t, i)).collect();
    while layer.len() > 1 {
        layer = layer
            .chunks(2)
            .map(|pair| t.join(PARETO, pair[0], pair[1]))
            .collect();
    }
    (t, layer[0])
}

fn role(role: u8, values: impl Iterator<Item = i32>) -> Vec<(u8, i32, i32)> {
    values.map(|u| (role, u, 0)).collect()
}

/// PARETO of an EXPLICIT of 16 edges, and PRIOR of a POS/NEG and a LOWEST.
fn edges() -> (Table, usize) {
    let mut t = Table::default();
    let sixteen: Vec<_> = (0..16).rev().map(|a| (EDGE, a + 1, a * 2 / 3)).collect();
    let graph = t.with_values(EXPLICIT, 0, &sixteen);
    let mut values = role(FAVOURITE, (0..4).map(|i| 3 * i));
    values.extend(role(DISLIKED, (0..4).map(|i| 3 * i + 1)));
    let classes = t.with_values(POS_NEG, 1, &values);
    let right = t.base(LOWEST, 2, 0, 0);
    let right = t.join(PRIOR, classes, right);
    let top = t.join(PARETO, graph, right);
    (t, top)
}

/// PARETO of the four kinds of classes, 16 values each.
fn classes() -> (Table, usize) {
    let mut t = Table::default();
    let eight = || (0..8).map(|i| 4 * i);
    let pos = t.with_values(POS, 0, &role(FAVOURITE, 0..16));
    let neg = t.with_values(NEG, 1, &role(DISLIKED, 0..16));
    let left = t.join(PARETO, pos, neg);
    let mut values = role(FAVOURITE, eight());
    values.extend(role(DISLIKED, eight().map(|v| v + 1)));
    let pos_neg = t.with_values(POS_NEG, 2, &values);
    let mut values = role(FAVOURITE, eight());
    values.extend(role(SECOND_CHOICE, eight().map(|v| v + 1)));
    let pos_pos = t.with_values(POS_POS, 3, &values);
    let right = t.join(PARETO, pos_neg, pos_pos);
    let top = t.join(PARETO, left, right);
    (t, top)
}

fn distances() -> (Table, usize) {
    let mut t = Table::default();
    let mut top = t.base(AROUND, 0, 500_000, 0);
    for c in 1..8 {
        let next = match c % 2 {
            0 => t.base(AROUND, c, 500_000, 0),
            _ => t.base(BETWEEN, c, 400_000, 600_000),
        };
        top = t.join(PARETO, top, next);
    }
    (t, top)
}

/// PARETO of BOTH of a LOWEST and a BETWEEN, and DUAL of a PARETO of HIGHEST and DUAL of LOWEST.
fn dual_and_both() -> (Table, usize) {
    let mut t = Table::default();
    let lowest = t.base(LOWEST, 0, 0, 0);
    let between = t.base(BETWEEN, 0, 0, 99);
    let both = t.join(BOTH, lowest, between);
    let highest = t.base(HIGHEST, 1, 0, 0);
    let other = t.base(LOWEST, 2, 0, 0);
    let other = t.dual(other);
    let pair = t.join(PARETO, highest, other);
    let turned = t.dual(pair);
    let top = t.join(PARETO, both, turned);
    (t, top)
}
