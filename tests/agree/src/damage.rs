//! Damaged tables: a valid one with one thing changed, and tables that were never valid.

use crate::input::Origin;
use crate::random::Random;
use crate::records::*;

const SORTS: [Origin; 7] = [
    Origin::Byte,
    Origin::Field,
    Origin::Swapped,
    Origin::Moved,
    Origin::Cut,
    Origin::RandomRecords,
    Origin::RandomBytes,
];

/// The table damaged, and how.
pub fn damaged(random: &mut Random, records: &[Record]) -> (Vec<u8>, Origin) {
    let origin = random.pick(&SORTS);
    let mut table = written(records);
    match origin {
        Origin::Byte => {
            let at = random.below(table.len());
            table[at] = byte(random);
        }
        Origin::Field => table = field(random, records),
        Origin::Swapped => table = swapped(random, records),
        Origin::Moved => table = moved(random, records),
        Origin::Cut => table.truncate(random.below(table.len())),
        Origin::RandomRecords => table = random_records(random),
        _ => {
            let count = random.below(200);
            table = (0..count).map(|_| random.next() as u8).collect();
        }
    }
    (table, origin)
}

/// Small numbers are kinds, columns and parts; others are seldom anything.
fn byte(random: &mut Random) -> u8 {
    match random.below(4) {
        0 => random.next() as u8,
        1 => random.pick(&[0, 10, 11, 15, 16, 17, 18, 19, 20, 127, 128, 255]),
        _ => random.below(10) as u8,
    }
}

fn number(random: &mut Random) -> i32 {
    match random.below(4) {
        0 => random.pick(&[i32::MIN, i32::MAX, 0, 256, 65_536]),
        _ => random.between(-4, 6),
    }
}

fn field(random: &mut Random, records: &[Record]) -> Vec<u8> {
    let mut records = records.to_vec();
    let at = random.below(records.len());
    let record = &mut records[at];
    match random.below(6) {
        0 => record.kind = random.pick(&TERMS).0,
        1 => record.p = byte(random),
        2 => record.q = byte(random),
        3 => record.s = byte(random),
        4 => record.u = number(random),
        _ => record.v = number(random),
    }
    written(&records)
}

fn swapped(random: &mut Random, records: &[Record]) -> Vec<u8> {
    let mut records = records.to_vec();
    let (one, two) = (random.below(records.len()), random.below(records.len()));
    records.swap(one, two);
    written(&records)
}

/// A record taken away, or standing twice; the parts keep their numbers or their terms.
fn moved(random: &mut Random, records: &[Record]) -> Vec<u8> {
    let mut records = records.to_vec();
    let at = random.below(records.len());
    match random.below(3) {
        0 => {
            records.remove(at);
        }
        1 => remove(&mut records, at),
        _ => records.insert(at, records[at]),
    }
    written(&records)
}

/// Records that each look right: they pass KIND and FILLER mostly, so that later refusals are reached.
fn random_records(random: &mut Random) -> Vec<u8> {
    let count = 1 + random.below(10);
    let records: Vec<Record> = (0..count)
        .map(|own| match random.below(3) {
            0 => {
                let role = random.below(5) as u8;
                let v = if role == 4 { random.between(0, 3) } else { 0 };
                Record {
                    v,
                    ..Record::value(role, random.between(0, 3))
                }
            }
            1 => {
                let mut base = Record::base(random.pick(&TERMS[..10]).0, random.below(3));
                if base.kind == BETWEEN {
                    (base.u, base.v) = (random.between(0, 3), random.between(0, 3));
                }
                base
            }
            _ => {
                let kind = random.pick(&TERMS[10..]).0;
                let right = if kind == DUAL {
                    0
                } else {
                    random.below(own + 1)
                };
                Record::compound(kind, random.below(own + 1), right)
            }
        })
        .collect();
    written(&records)
}
