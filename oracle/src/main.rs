//! Prints what `pick` prints (SPECIFICATION, "The program pick"), from `prefs.bin`
//! and `rows.bin` in the working directory.

use oracle::Oracle;
use std::fs::File;
use std::io::{ErrorKind, Read, Write};

fn main() {
    // One byte beyond the limits tells that a file is too long.
    let prefs = contents("prefs.bin", 1_536 + 1);
    let rows = contents("rows.bin", 32_768 + 1);
    let lines = Oracle::default().pick(&prefs, &rows);
    if let Err(error) = std::io::stdout().write_all(lines.as_bytes()) {
        eprintln!("standard output: {error}");
    }
}

/// "A missing file reads as empty." One that is there but cannot be read counts
/// as empty, and a line on standard error names it.
fn contents(name: &str, most: u64) -> Vec<u8> {
    let mut bytes = Vec::new();
    let read = File::open(name).and_then(|file| file.take(most).read_to_end(&mut bytes));
    match read {
        Ok(_) => bytes,
        Err(error) => {
            if error.kind() != ErrorKind::NotFound {
                eprintln!("{name}: {error}");
            }
            Vec::new()
        }
    }
}
