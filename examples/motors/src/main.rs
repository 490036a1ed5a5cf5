//! Writes the example: `prefs.bin` (the wish), `rows.bin` (the catalogue) and `motors.csv` (the catalogue as text) to
//! the folder that is named, or to this example's own.
mod catalogue;
mod wish;

use catalogue::{catalogue, Row, COLUMNS};
use std::error::Error;
use std::path::PathBuf;
use std::{env, fs};

fn main() -> Result<(), Box<dyn Error>> {
    let own = || env!("CARGO_MANIFEST_DIR").into();
    let folder = env::args_os().nth(1).map_or_else(own, PathBuf::from);
    let table = wish::wish()?;
    table.check(COLUMNS.len())?;
    let rows = catalogue();
    fs::write(folder.join("prefs.bin"), table.as_bytes())?;
    fs::write(folder.join("rows.bin"), bytes(&rows))?;
    fs::write(folder.join("motors.csv"), text(&rows))?;
    Ok(())
}

/// Row after row, each number in four bytes, low byte first.
fn bytes(rows: &[Row]) -> Vec<u8> {
    rows.iter()
        .flatten()
        .flat_map(|number| number.to_le_bytes())
        .collect()
}

/// A line for the names of the columns, then one for each row, with its number first.
fn text(rows: &[Row]) -> String {
    let mut text = format!("number,{}\n", COLUMNS.join(","));
    for (number, row) in rows.iter().enumerate() {
        let numbers = row.map(|number| number.to_string());
        text += &format!("{number},{}\n", numbers.join(","));
    }
    text
}
