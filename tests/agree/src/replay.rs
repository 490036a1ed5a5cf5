//! The file that `tests/replay` runs through the C header: inputs, and the library's replies as seen from Rust.
//!
//! Numbers are low byte first. "fnbrply1", the number of cases, then for each case eight numbers of 64 bits (call,
//! columns, term, group, bytes of the table, numbers of the first row or of the rows, numbers of the second row,
//! entries), the table, the rows, the entries before the call and after it, and six numbers of 32 bits: the reply.

use crate::coverage::REFUSALS;
use crate::input::{Asks, Call, Input};
use crate::library::Reply;
use std::path::Path;

/// Cases of one call and one refusal number, and of one call that accepts.
const REFUSED: u64 = 40;
const ACCEPTED: u64 = 500;

pub struct Replay {
    bytes: Vec<u8>,
    cases: u64,
    kept: [[u64; REFUSALS]; 5],
}

impl Replay {
    pub fn new() -> Replay {
        Replay {
            bytes: vec![],
            cases: 0,
            kept: [[0; REFUSALS]; 5],
        }
    }

    /// Keeps the case unless there are enough of its sort.
    pub fn note(&mut self, input: &Input, call: Call, reply: &Reply) {
        let kept = &mut self.kept[call as usize][reply.refusal as usize % REFUSALS];
        if *kept >= if reply.accepted() { ACCEPTED } else { REFUSED } {
            return;
        }
        *kept += 1;
        self.cases += 1;
        self.write(input, call, reply);
    }

    fn write(&mut self, input: &Input, call: Call, reply: &Reply) {
        let none: &[i32] = &[];
        let (first, second) = match input.asks {
            Asks::Check => (none, none),
            Asks::Compare => (&input.first[..], &input.second[..]),
            Asks::Perfect => (&input.first[..], none),
            Asks::Query => (&input.rows[..], none),
        };
        let before = if call.is_query() {
            input.patterned()
        } else {
            vec![]
        };
        let numbers = [
            call as usize,
            input.columns,
            input.term,
            input.group as usize,
            input.table.len(),
            first.len(),
            second.len(),
            before.len(),
        ];
        let lengths = numbers
            .iter()
            .flat_map(|number| (*number as u64).to_le_bytes());
        self.bytes.extend(lengths);
        self.bytes.extend(&input.table);
        let rows = first.iter().chain(second);
        self.bytes
            .extend(rows.flat_map(|number| number.to_le_bytes()));
        let entries = before.iter().chain(&reply.answers);
        self.bytes
            .extend(entries.flat_map(|entry| entry.to_le_bytes()));
        let head = [reply.refusal, reply.place];
        let reply = head.iter().chain(&reply.values);
        self.bytes
            .extend(reply.flat_map(|number| number.to_le_bytes()));
    }

    /// Writes the file. Gives what went wrong.
    pub fn save(&self, path: &Path) -> Option<String> {
        let head = [&b"fnbrply1"[..], &self.cases.to_le_bytes()].concat();
        println!("replay: {} cases in {}", self.cases, path.display());
        let written = std::fs::write(path, [&head[..], &self.bytes].concat());
        written
            .err()
            .map(|error| format!("{}: {error}", path.display()))
    }
}
