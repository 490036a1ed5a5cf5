//! Pipe tables and numbers for people.

/// A pipe table. The first `left` columns are set left, the others right.
pub fn table(left: usize, head: &[&str], lines: &[Vec<String>]) {
    let widths: Vec<usize> = (0..head.len())
        .map(|i| {
            let cells = lines.iter().map(|line| line[i].chars().count());
            cells.chain([head[i].chars().count(), 3]).max().unwrap_or(3)
        })
        .collect();
    let head: Vec<String> = head.iter().map(|cell| cell.to_string()).collect();
    let rule = widths.iter().enumerate().map(|(i, &width)| match i < left {
        true => "-".repeat(width),
        false => "-".repeat(width - 1) + ":",
    });
    line(left, &widths, &head);
    line(left, &widths, &rule.collect::<Vec<_>>());
    for cells in lines {
        line(left, &widths, cells);
    }
    println!();
}

fn line(left: usize, widths: &[usize], cells: &[String]) {
    let mut text = String::from("|");
    for (i, (cell, &width)) in cells.iter().zip(widths).enumerate() {
        let padded = match i < left {
            true => format!(" {cell:<width$} |"),
            false => format!(" {cell:>width$} |"),
        };
        text.push_str(&padded);
    }
    println!("{text}");
}

/// Lines of a list item have at most so many characters.
const WIDTH: usize = 116;

/// A list item, on as many lines as it needs.
pub fn item(words: &str) {
    let mut line = String::from("-");
    for word in words.split(' ') {
        if line.chars().count() + 1 + word.chars().count() > WIDTH {
            println!("{line}");
            line = String::from(" ");
        }
        line = line + " " + word;
    }
    println!("{line}");
}

/// Thousands with commas.
pub fn whole(number: usize) -> String {
    let digits = number.to_string();
    let mut text = String::new();
    for (i, digit) in digits.chars().enumerate() {
        if i > 0 && (digits.len() - i).is_multiple_of(3) {
            text.push(',');
        }
        text.push(digit);
    }
    text
}

/// Three digits that count, or all before the point.
pub fn figure(number: f64) -> String {
    match number {
        n if n < 10.0 => format!("{n:.2}"),
        n if n < 100.0 => format!("{n:.1}"),
        n => whole(n.round() as usize),
    }
}
