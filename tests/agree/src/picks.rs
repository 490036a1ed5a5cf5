//! The `pick` program against the oracle's reading of it, on random pairs of files.

use crate::damage;
use crate::faults;
use crate::input::Asks;
use crate::random::Random;
use crate::records::*;
use crate::rows::Rows;
use crate::trees;
use oracle::Oracle;
use std::fs;
use std::path::Path;
use std::process::{Command, Output};

/// Pairs of files.
const PAIRS: u64 = 400;
/// The streams of random numbers that no input has.
const STREAM: u64 = 1 << 48;
const NAMES: [&str; 2] = ["prefs.bin", "rows.bin"];

/// What stands under a file's name.
enum File {
    Bytes(Vec<u8>),
    Missing,
    /// A folder: it is there but cannot be read, which is said on standard error.
    Folder,
}

impl File {
    /// What is not there and what cannot be read is as an empty file.
    fn bytes(&self) -> &[u8] {
        match self {
            File::Bytes(bytes) => bytes,
            _ => &[],
        }
    }
}

/// What the pairs reached.
#[derive(Default)]
struct Reached {
    /// By refusal number; 0 is `ok`.
    replies: [u64; 19],
    missing: u64,
    folders: u64,
}

/// Runs every pair. Gives what went wrong, and what was not reached.
pub fn judge(program: &Path, seed: u64) -> Vec<String> {
    let folder = std::env::temp_dir().join(format!("agree-pick-{}", std::process::id()));
    let program = match fs::create_dir_all(&folder).and_then(|_| fs::canonicalize(program)) {
        Ok(program) => program,
        Err(error) => return vec![format!("pick: {}: {error}", program.display())],
    };
    let mut reached = Reached::default();
    let wrong = (0..PAIRS).find_map(|number| pair(&program, &folder, seed, number, &mut reached));
    let _ = fs::remove_dir_all(&folder);
    let Reached {
        replies,
        missing,
        folders,
    } = reached;
    println!("pick: {PAIRS} pairs of files; by refusal number: {replies:?}");
    println!("  missing files: {missing}, folders in their place: {folders}");
    if wrong.is_some() {
        return wrong.into_iter().collect();
    }
    // The column count is 8, so 1 is never earned; the program has no inputs for 16 to 18.
    let none = (0..=15).filter(|number| *number != 1 && replies[*number] == 0);
    let mut lacks: Vec<String> = none
        .map(|number| format!("pick: no pair with refusal {number}"))
        .collect();
    if missing == 0 || folders == 0 {
        lacks.push("pick: no missing file, or no folder".to_string());
    }
    lacks
}

/// Runs one pair. Gives what differs.
fn pair(
    program: &Path,
    folder: &Path,
    seed: u64,
    number: u64,
    reached: &mut Reached,
) -> Option<String> {
    let files = files(seed, number);
    let expected = Oracle::default().pick(files[0].bytes(), files[1].bytes());
    reached.replies[refusal(&expected)] += 1;
    let mut unread = None;
    for (name, file) in NAMES.iter().zip(&files) {
        let path = folder.join(name);
        let _ = fs::remove_file(&path).or_else(|_| fs::remove_dir(&path));
        match file {
            File::Bytes(bytes) => fs::write(&path, bytes).expect("a file for pick"),
            File::Missing => reached.missing += 1,
            File::Folder => {
                reached.folders += 1;
                unread = Some(*name);
                fs::create_dir(&path).expect("a folder for pick");
            }
        }
    }
    let words = match Command::new(program).current_dir(folder).output() {
        Ok(output) => difference(&output, &expected, unread)?,
        Err(error) => format!("{}: {error}", program.display()),
    };
    Some(format!("pick, pair {number}: {words}\n{}", show(&files)))
}

/// What differs from the expected output, in words. Standard error names the file that cannot be read, or is empty.
pub fn difference(output: &Output, expected: &str, unread: Option<&str>) -> Option<String> {
    let said = String::from_utf8_lossy(&output.stderr);
    let right = match unread {
        Some(name) => said.contains(name) && said.lines().count() == 1,
        None => said.is_empty(),
    };
    if output.status.code() != Some(0) {
        return Some(format!("ended with {}", output.status));
    }
    if !right {
        return Some(format!("standard error: {said}"));
    }
    let given = String::from_utf8_lossy(&output.stdout);
    (output.stdout != expected.as_bytes()).then(|| format!("expected:\n{expected}given:\n{given}"))
}

/// The refusal number of an expected output, 0 for `ok`.
fn refusal(output: &str) -> usize {
    let mut fields = output.split(' ');
    match fields.next() {
        Some("refused") => fields
            .next()
            .and_then(|number| number.parse().ok())
            .unwrap_or(0),
        _ => 0,
    }
}

/// Two files, right, damaged or not there.
fn files(seed: u64, number: u64) -> [File; 2] {
    let mut random = Random::of(seed, STREAM + number);
    let (mut table, mut rows) = contents(&mut random);
    match number % 4 {
        0 => table = damage::damaged(&mut random, &read(&table)).0,
        1 => {
            let number = 2 + random.below(13);
            table = faults::both(&mut random, Asks::Check, number, number).table;
        }
        2 if random.once_in(2) => rows = cut(&mut random, rows),
        _ => {}
    }
    if random.once_in(20) {
        rows = cut(&mut random, rows);
    }
    let (table, rows) = (File::Bytes(table), File::Bytes(rows));
    match random.below(40) {
        0 => [File::Missing, rows],
        1 => [table, File::Missing],
        2 => [File::Folder, rows],
        3 => [table, File::Folder],
        _ => [table, rows],
    }
}

/// A table and rows that are right.
fn contents(random: &mut Random) -> (Vec<u8>, Vec<u8>) {
    let palette = trees::palette(random);
    let terms = 1 + random.below(12);
    let records = trees::tree(random, &palette, 8, terms, MOST);
    let count = if random.once_in(40) {
        1_024
    } else {
        random.below(20)
    };
    let rows = Rows {
        palette: &palette,
        records: &records,
        width: 8,
    };
    let run = rows.run(random, count);
    (
        written(&records),
        run.iter().flat_map(|cell| cell.to_le_bytes()).collect(),
    )
}

/// Bytes too few or too many, up to well over the limit.
fn cut(random: &mut Random, mut rows: Vec<u8>) -> Vec<u8> {
    match random.below(4) {
        0 => rows.truncate(rows.len().saturating_sub(1 + random.below(31))),
        1 => rows.push(0),
        _ => rows.resize(random.pick(&[32_768, 32_769, 32_800, 65_536, 100_000]), 0),
    }
    rows
}

fn show(files: &[File; 2]) -> String {
    let hex = |file: &File| match file {
        File::Missing => "missing".to_string(),
        File::Folder => "a folder".to_string(),
        File::Bytes(bytes) => bytes.iter().map(|byte| format!("{byte:02x}")).collect(),
    };
    let lines = NAMES
        .iter()
        .zip(files)
        .map(|(name, file)| format!("{name} in hex: {}", hex(file)));
    lines.collect::<Vec<String>>().join("\n")
}
