//! SPECIFICATION, "The program pick": what it prints for the bytes of its two files.

use crate::refusals::{MOST_ROWS, ROWS};
use crate::{Oracle, Refused};

/// "Rows of eight columns, 32 bytes each."
const COLUMNS: usize = 8;
const ROW_BYTES: usize = 32;

impl Oracle {
    /// All that `pick` prints for the bytes of its two files.
    pub fn pick(&self, prefs: &[u8], rows: &[u8]) -> String {
        match self.picked(prefs, rows) {
            Ok(lines) => lines,
            // "A refusal prints only `refused`, the number, and the place or `-`."
            Err(Refused { number, place }) => match place {
                Some(place) => format!("refused {number} {place}\n"),
                None => format!("refused {number} -\n"),
            },
        }
    }

    /// "Runs the top, ungrouped."
    fn picked(&self, prefs: &[u8], rows: &[u8]) -> Result<String, Refused> {
        let checked = self.check(prefs, COLUMNS)?;
        // "Files longer than 1,536 and 32,768 bytes get 2 and 15, as does a
        // `rows.bin` not a multiple of 32."
        if rows.len() > MOST_ROWS * ROW_BYTES || !rows.len().is_multiple_of(ROW_BYTES) {
            return Err(Refused {
                number: ROWS,
                place: None,
            });
        }
        let numbers: Vec<i32> = rows
            .chunks_exact(4)
            .map(|bytes| i32::from_le_bytes([bytes[0], bytes[1], bytes[2], bytes[3]]))
            .collect();
        let mut entries = vec![0; rows.len() / ROW_BYTES];
        let kept = self.query(prefs, COLUMNS, &numbers, checked.top, 0, &mut entries)?;
        // "It prints `ok`, the number of records, how many columns the top reads,
        // how many rows were kept; then a line per row."
        let mut lines = format!("ok {} {} {kept}\n", checked.records, checked.column_count);
        for (i, &entry) in entries.iter().enumerate() {
            // "Its number and `keep`, or `drop` and the better row."
            if usize::from(entry) == i {
                lines += &format!("{i} keep\n");
            } else {
                lines += &format!("{i} drop {entry}\n");
            }
        }
        Ok(lines)
    }
}
