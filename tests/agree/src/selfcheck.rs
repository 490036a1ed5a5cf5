//! That the tests can fail: wrong replies are reported, guard pages and read-only pages fault, and a run against a
//! mistaken oracle ends as failed.

use crate::compare::{difference, expected};
use crate::generator;
use crate::library::Reply;
use crate::memory::{Flush, Lent};
use crate::picks;
use oracle::{Mistake, Oracle};
use std::os::unix::process::ExitStatusExt;
use std::process::{Command, ExitStatus, Output, Stdio};

/// The argument for a child that touches what it may not.
pub const TOUCH: &str = "--touch";
/// The argument for a child that runs against a mistaken oracle.
pub const MISTAKE: &str = "--mistake";
const TOUCHES: [&str; 5] = ["nothing", "before", "behind", "behind-answers", "table"];
const SEGMENTATION_FAULT: i32 = 11;

/// Gives what is wrong with the tests.
pub fn judge(seed: u64) -> Vec<String> {
    let mut wrong = guards();
    wrong.extend(wrong_replies(seed));
    wrong.extend(wrong_picks());
    wrong.extend(failing_runs(seed));
    println!("self-check: {} wrong", wrong.len());
    wrong
}

/// Touches one byte. Only "nothing" returns.
pub fn touch(what: &str) {
    let mut table = Lent::read_only(1);
    let mut answers = Lent::writable(1);
    let lent = table.place(&[1, 2, 3], Flush::End);
    let entries = answers.place_entries(&[7], 0, Flush::End);
    let at = match what {
        "before" => table.guards()[0],
        "behind" => table.guards()[1],
        "behind-answers" => answers.guards()[1],
        "table" => lent,
        _ => entries.cast(),
    };
    // SAFETY: none of these touches what the program uses; all but the last fault, which is what the parent waits for.
    unsafe {
        match what {
            "before" | "behind" => std::hint::black_box(at.read_volatile()),
            _ => {
                at.write_volatile(9);
                0
            }
        }
    };
}

fn guards() -> Vec<String> {
    let program = std::env::current_exe().expect("the program's own path");
    let ends = |what: &str| {
        let mut child = Command::new(&program);
        child
            .args([TOUCH, what])
            .stderr(Stdio::null())
            .status()
            .expect("a child")
    };
    let mut wrong = vec![];
    for what in TOUCHES {
        let status = ends(what);
        let faulted = status.signal() == Some(SEGMENTATION_FAULT);
        let right = if what == "nothing" {
            status.success()
        } else {
            faulted
        };
        if !right {
            wrong.push(format!("self-check: touching {what}: {status}"));
        }
    }
    wrong
}

/// Each field of a reply changed in turn must be reported.
fn wrong_replies(seed: u64) -> Vec<String> {
    let mut wrong = vec![];
    for number in 0..400 {
        let input = generator::input(seed, number);
        let right = expected(&Oracle::default(), &input);
        if let Some(words) = difference(&input, &right, &right) {
            wrong.push(format!("self-check, input {number}: {words}"));
        }
        for (what, changed) in changed(&right) {
            if difference(&input, &right, &changed).is_none() {
                wrong.push(format!(
                    "self-check, input {number}: a wrong {what} is not reported"
                ));
            }
        }
    }
    wrong
}

fn changed(right: &Reply) -> Vec<(&'static str, Reply)> {
    let mut all = vec![];
    let mut change = |what: &'static str, edit: &dyn Fn(&mut Reply)| {
        let mut reply = right.clone();
        edit(&mut reply);
        all.push((what, reply));
    };
    change("refusal", &|reply| reply.refusal ^= 1);
    change("place", &|reply| reply.place ^= 1);
    (0..4).for_each(|k| change("value", &|reply| reply.values[k] ^= 1));
    (0..right.answers.len()).for_each(|k| change("entry", &|reply| reply.answers[k] ^= 1));
    change("entry outside the buffer", &|reply| reply.strayed = 1);
    all
}

/// Each wrong end of the pick program must be reported, and the right one not.
fn wrong_picks() -> Vec<String> {
    let output = |status: i32, out: &str, err: &str| Output {
        status: ExitStatus::from_raw(status),
        stdout: out.into(),
        stderr: err.into(),
    };
    // The last field: whether a difference is due. A status stands in the second byte, a signal in the first.
    let cases = [
        (output(0, "ok\n", ""), None, false),
        (output(0, "ok\n", "rows.bin: no\n"), Some("rows.bin"), false),
        (output(0, "ok", ""), None, true),
        (output(0, "ok\n\n", ""), None, true),
        (output(0, "", ""), None, true),
        (output(1 << 8, "ok\n", ""), None, true),
        (output(SEGMENTATION_FAULT, "ok\n", ""), None, true),
        (output(0, "ok\n", "rows.bin: no\n"), None, true),
        (output(0, "ok\n", ""), Some("rows.bin"), true),
        (output(0, "ok\n", "prefs.bin: no\n"), Some("rows.bin"), true),
    ];
    let wrong = cases
        .iter()
        .enumerate()
        .filter(|(_, (output, unread, due))| {
            picks::difference(output, "ok\n", *unread).is_some() != *due
        });
    wrong
        .map(|(case, _)| format!("self-check: end {case} of pick is judged wrong"))
        .collect()
}

/// With a mistaken oracle in the place of the right one a run must end as failed and print the smallest input found.
/// Tried are some mistakes about calls, and all about rows that are left out.
fn failing_runs(seed: u64) -> Vec<String> {
    let program = std::env::current_exe().expect("the program's own path");
    let mut wrong = vec![];
    let calls = [0, Mistake::ALL.len() / 2, Mistake::ALL.len() - 1];
    let leaving = Mistake::LEAVING
        .iter()
        .filter_map(|mistake| Mistake::ALL.iter().position(|other| other == mistake));
    for which in calls.into_iter().chain(leaving) {
        let mut child = Command::new(&program);
        child.args([MISTAKE, &which.to_string()]);
        child.env("FINIALBASIL_SEED", seed.to_string());
        child.env("FINIALBASIL_INPUTS", "200000");
        let output = child.output().expect("a child");
        let printed = String::from_utf8_lossy(&output.stdout);
        let line = |start: &str| printed.lines().find_map(|line| line.strip_prefix(start));
        let words = Mistake::ALL[which].words();
        let found = line("FAILED: ").zip(line("the smallest input found that fails, "));
        match found.filter(|_| output.status.code() == Some(1)) {
            Some((failure, smaller)) => {
                println!(
                    "self-check: a run against a mistake fails: {words}\n  {failure}\n  {smaller}"
                )
            }
            None => wrong.push(format!(
                "self-check: no failure against: {words}\n{printed}"
            )),
        }
    }
    wrong
}
