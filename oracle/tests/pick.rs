//! SPECIFICATION, "The program pick": its lines, and the program itself in a
//! folder.

mod common;

use common::*;
use oracle::Oracle;
use std::fs;
use std::path::{Path, PathBuf};
use std::process::Command;

const T1_OVER_V: &str = "\
ok 5 3 3
0 keep
1 drop 0
2 keep
3 drop 2
4 keep
5 drop 4
6 drop 2
";

fn lines(prefs: &[u8], rows: &[u8]) -> String {
    Oracle::default().pick(prefs, rows)
}

#[test]
fn t1_over_v() {
    assert_eq!(lines(&t1(), &file_of_rows(&V)), T1_OVER_V);
}

#[test]
fn no_rows() {
    assert_eq!(lines(&t1(), &[]), "ok 5 3 0\n");
}

#[test]
fn refusals() {
    let loose = table(&[base(LOWEST, 0), base(HIGHEST, 0)]);
    assert_eq!(lines(&loose, &[]), "refused 14 0\n");
    assert_eq!(lines(&[], &[]), "refused 2 -\n");
    assert_eq!(lines(&[0; 1_537], &[]), "refused 2 -\n");
    for length in [1, 4, 31, 33, 36, 32_769, 32_800] {
        assert_eq!(lines(&t1(), &vec![0; length]), "refused 15 -\n");
    }
    // A bad table goes before a bad rows.bin.
    assert_eq!(lines(&loose, &[0]), "refused 14 0\n");
    assert_eq!(lines(&[1], &[0]), "refused 2 -\n");
}

#[test]
fn most_rows() {
    let printed = lines(&t1(), &[0; 32_768]);
    assert!(printed.starts_with("ok 5 3 1024\n0 keep\n1 keep\n"));
    assert!(printed.ends_with("\n1022 keep\n1023 keep\n"));
    assert_eq!(printed.lines().count(), 1_025);
}

/// A folder of this test's own, removed when it goes out of scope.
struct Folder(PathBuf);

impl Folder {
    fn new(name: &str) -> Folder {
        let path = Path::new(env!("CARGO_TARGET_TMPDIR")).join(name);
        let _ = fs::remove_dir_all(&path);
        fs::create_dir_all(&path).unwrap();
        Folder(path)
    }

    /// What the program prints on standard output and standard error.
    fn run(&self) -> (String, String) {
        let mut program = Command::new(env!("CARGO_BIN_EXE_oracle"));
        let output = program.current_dir(&self.0).output().unwrap();
        assert_eq!(output.status.code(), Some(0));
        let text = |bytes: Vec<u8>| String::from_utf8(bytes).unwrap();
        (text(output.stdout), text(output.stderr))
    }
}

impl Drop for Folder {
    fn drop(&mut self) {
        let _ = fs::remove_dir_all(&self.0);
    }
}

#[test]
fn the_program_reads_both_files() {
    let folder = Folder::new("both");
    fs::write(folder.0.join("prefs.bin"), t1()).unwrap();
    fs::write(folder.0.join("rows.bin"), file_of_rows(&V)).unwrap();
    assert_eq!(folder.run(), (T1_OVER_V.to_string(), String::new()));
}

#[test]
fn a_missing_file_reads_as_empty() {
    let folder = Folder::new("missing");
    let silent = String::new();
    assert_eq!(folder.run(), ("refused 2 -\n".to_string(), silent.clone()));
    fs::write(folder.0.join("prefs.bin"), t1()).unwrap();
    assert_eq!(folder.run(), ("ok 5 3 0\n".to_string(), silent));
}

#[test]
fn an_unreadable_file_answers_as_empty_and_is_named() {
    let folder = Folder::new("unreadable");
    fs::write(folder.0.join("prefs.bin"), t1()).unwrap();
    fs::create_dir(folder.0.join("rows.bin")).unwrap();
    let (printed, complaint) = folder.run();
    assert_eq!(printed, "ok 5 3 0\n");
    assert!(complaint.starts_with("rows.bin"), "{complaint}");
    assert_eq!(complaint.lines().count(), 1);
}

#[test]
fn files_that_are_too_long() {
    let folder = Folder::new("long");
    fs::write(folder.0.join("prefs.bin"), vec![0; 5_000]).unwrap();
    assert_eq!(folder.run().0, "refused 2 -\n");
    fs::write(folder.0.join("prefs.bin"), t1()).unwrap();
    fs::write(folder.0.join("rows.bin"), vec![0; 65_536]).unwrap();
    assert_eq!(folder.run().0, "refused 15 -\n");
}
