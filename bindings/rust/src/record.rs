//! A record of a table: its bytes as they are written, and what they say in words (SPECIFICATION, "The table").
use crate::RECORD_BYTES;
use core::fmt;

pub(crate) type Record = [u8; RECORD_BYTES];

pub(crate) mod kind {
    pub(crate) const VALUE: u8 = 0;
    pub(crate) const LOWEST: u8 = 1;
    pub(crate) const HIGHEST: u8 = 2;
    pub(crate) const AROUND: u8 = 3;
    pub(crate) const BETWEEN: u8 = 4;
    pub(crate) const POS: u8 = 5;
    pub(crate) const NEG: u8 = 6;
    pub(crate) const POS_NEG: u8 = 7;
    pub(crate) const POS_POS: u8 = 8;
    pub(crate) const EXPLICIT: u8 = 9;
    pub(crate) const ANY: u8 = 10;
    pub(crate) const PARETO: u8 = 16;
    pub(crate) const PRIOR: u8 = 17;
    pub(crate) const BOTH: u8 = 18;
    pub(crate) const DUAL: u8 = 19;
}

pub(crate) mod role {
    pub(crate) const FAVOURITE: u8 = 1;
    pub(crate) const DISLIKED: u8 = 2;
    pub(crate) const SECOND_CHOICE: u8 = 3;
    pub(crate) const EDGE: u8 = 4;
}

/// A base term.
pub(crate) fn base(kind: u8, column: usize, u: i32, v: i32) -> Record {
    record(kind, byte(column), 0, u, v)
}

/// A compound term; DUAL has 0 for its right part.
pub(crate) fn compound(kind: u8, left: usize, right: usize) -> Record {
    record(kind, byte(left), byte(right), 0, 0)
}

/// The values of one role.
pub(crate) fn values(role: u8, values: &[i32]) -> impl Iterator<Item = Record> + '_ {
    values
        .iter()
        .map(move |value| record(kind::VALUE, role, 0, *value, 0))
}

pub(crate) fn edges(edges: &[(i32, i32)]) -> impl Iterator<Item = Record> + '_ {
    edges
        .iter()
        .map(|(worse, better)| record(kind::VALUE, role::EDGE, 0, *worse, *better))
}

/// Whether the record is a term; else it is a value.
pub(crate) fn is_term(record: &Record) -> bool {
    record[0] != kind::VALUE
}

/// The bytes of a record; s is zero in every kind.
fn record(kind: u8, p: u8, q: u8, u: i32, v: i32) -> Record {
    let [u0, u1, u2, u3] = u.to_le_bytes();
    let [v0, v1, v2, v3] = v.to_le_bytes();
    [kind, p, q, 0, u0, u1, u2, u3, v0, v1, v2, v3]
}

/// A column or record number as its field. Numbers without a byte become 255, which is refused as well: there are 8
/// columns and 128 records at most.
fn byte(number: usize) -> u8 {
    u8::try_from(number).unwrap_or(u8::MAX)
}

/// A record in words, on one line. A value is set in, below its term.
pub(crate) struct InWords<'a>(pub(crate) &'a Record);

impl fmt::Display for InWords<'_> {
    #[rustfmt::skip] // a line for each kind
    fn fmt(&self, out: &mut fmt::Formatter<'_>) -> fmt::Result {
        let [kind, p, q, _, u0, u1, u2, u3, v0, v1, v2, v3] = *self.0;
        let u = i32::from_le_bytes([u0, u1, u2, u3]);
        let v = i32::from_le_bytes([v0, v1, v2, v3]);
        match (kind, p) {
            (kind::VALUE, role::FAVOURITE) => write!(out, "  favourite {u}"),
            (kind::VALUE, role::DISLIKED) => write!(out, "  disliked {u}"),
            (kind::VALUE, role::SECOND_CHOICE) => write!(out, "  second choice {u}"),
            (kind::VALUE, role::EDGE) => write!(out, "  edge: {v} is better than {u}"),
            (kind::LOWEST, _) => write!(out, "LOWEST column {p}, the lower the better"),
            (kind::HIGHEST, _) => write!(out, "HIGHEST column {p}, the higher the better"),
            (kind::AROUND, _) => write!(out, "AROUND column {p}, wish {u}, the nearer the better"),
            (kind::BETWEEN, _) => write!(out, "BETWEEN column {p}, {u} to {v}, the nearer the better"),
            (kind::POS, _) => write!(out, "POS column {p}, favourites first"),
            (kind::NEG, _) => write!(out, "NEG column {p}, disliked values last"),
            (kind::POS_NEG, _) => write!(out, "POS/NEG column {p}, favourites first, disliked values last"),
            (kind::POS_POS, _) => write!(out, "POS/POS column {p}, favourites first, then second choices"),
            (kind::EXPLICIT, _) => write!(out, "EXPLICIT column {p}, ranked by edges"),
            (kind::ANY, _) => write!(out, "ANY column {p}, nothing is better"),
            (kind::PARETO, _) => write!(out, "PARETO of {p} and {q}, ranking equally"),
            (kind::PRIOR, _) => write!(out, "PRIOR: {p} first, then {q}"),
            (kind::BOTH, _) => write!(out, "BOTH of {p} and {q}, better only if better in both"),
            (kind::DUAL, _) => write!(out, "DUAL of {p}, better and worse exchanged"),
            // No table has such a record, unless the library knows more kinds or roles than this crate.
            _ => write!(out, "kind {kind} with {p}, {q}, {u}, {v}, which this version has no words for"),
        }
    }
}

#[cfg(test)]
mod tests {
    use super::*;
    use alloc::string::ToString;

    /// No table can have such records, so only here can they be tried.
    #[test]
    fn kinds_and_roles_outside_the_list() {
        let kind_20 = [20, 1, 2, 0, 3, 0, 0, 0, 255, 255, 255, 255];
        assert_eq!(
            InWords(&kind_20).to_string(),
            "kind 20 with 1, 2, 3, -1, which this version has no words for"
        );
        let role_5 = [0, 5, 0, 0, 7, 0, 0, 0, 0, 0, 0, 0];
        assert_eq!(
            InWords(&role_5).to_string(),
            "kind 0 with 5, 0, 7, 0, which this version has no words for"
        );
    }
}
