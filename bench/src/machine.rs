//! The lines that say where the figures come from.
use std::fs;
use std::process::Command;

pub fn describe() {
    let cores = std::thread::available_parallelism().map_or(0, |n| n.get());
    println!("- Machine: {}, {cores} cores, Linux {}", model(), kernel());
    println!("- Compiler of the library: {}", said("rt", "version"));
    println!(
        "- Compiler of bench and peer: {}, opt-level 3, LTO",
        said("rustc", "--version")
    );
    println!("- All for plain x86-64");
    println!(
        "- Load of the machine at the start (1, 5, 15 minutes): {}",
        load()
    );
    println!();
}

fn model() -> String {
    let info = fs::read_to_string("/proc/cpuinfo").unwrap_or_default();
    let line = info.lines().find(|line| line.starts_with("model name"));
    let name = line.and_then(|line| line.split_once(": "));
    name.map_or("unknown processor".to_string(), |(_, name)| {
        name.to_string()
    })
}

fn kernel() -> String {
    let release = fs::read_to_string("/proc/sys/kernel/osrelease").unwrap_or_default();
    release.trim().to_string()
}

fn load() -> String {
    let averages = fs::read_to_string("/proc/loadavg").unwrap_or_default();
    averages.split(' ').take(3).collect::<Vec<_>>().join(", ")
}

/// The first line that a program says of itself.
fn said(program: &str, word: &str) -> String {
    let output = Command::new(program).arg(word).output();
    let text = output.map_or(Vec::new(), |output| output.stdout);
    let text = String::from_utf8_lossy(&text);
    text.lines()
        .next()
        .map_or(format!("{program} unknown"), str::to_string)
}
