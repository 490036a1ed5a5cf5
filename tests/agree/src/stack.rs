//! Every call on its worst input, on a thread with the stack that `finialbasil.h` asks for.

use crate::compare::{difference, expected};
use crate::input::{Asks, Input, Origin};
use crate::library::Room;
use crate::limits::costliest_tables;
use crate::random::Random;
use crate::records::*;
use crate::rows::Rows;
use oracle::Oracle;

const STACK: usize = 1 << 20;
const ROWS: usize = 1_024;

/// Runs the calls. Gives what went wrong.
pub fn judge(seed: u64) -> Vec<String> {
    let mut wrong = vec![];
    for (which, records) in costliest_tables().into_iter().enumerate() {
        for asks in Asks::ALL {
            let input = worst(seed, asks, &records);
            let reply = expected(&Oracle::default(), &input);
            if !reply.accepted() {
                wrong.push(format!("worst input {which} is refused"));
            }
            let thread = std::thread::Builder::new().stack_size(STACK);
            let call = move || {
                let mut room = Room::new();
                let given = asks
                    .calls()
                    .iter()
                    .map(|call| (*call, room.call(&input, *call)));
                let differs = given.filter_map(|(call, given)| {
                    let words = difference(&input, &reply, &given)?;
                    Some(format!("worst input {which}, {}: {words}", call.words()))
                });
                differs.collect::<Vec<String>>()
            };
            let ended = thread.spawn(call).expect("a thread").join();
            wrong.extend(
                ended.unwrap_or_else(|_| vec![format!("worst input {which}: the thread failed")]),
            );
        }
    }
    println!("worst inputs on a stack of {STACK} bytes: 3 tables of 128 records, {ROWS} rows, every call");
    wrong
}

fn worst(seed: u64, asks: Asks, records: &[Record]) -> Input {
    let mut random = Random::of(seed, 1 << 49);
    let palette: Vec<i32> = (-2..34).collect();
    let rows = Rows {
        palette: &palette,
        records,
        width: 8,
    };
    let mut input = Input::new(&mut random, asks, written(records), 8, Origin::Limit);
    input.first = rows.drawn(&mut random);
    input.second = rows.drawn(&mut random);
    input.rows = rows.run(&mut random, ROWS);
    input.answers = ROWS;
    input.term = MOST - 1;
    input
}
