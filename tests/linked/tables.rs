// The typed wrapper on task tables from standard input, as tables.c has them: a line each, its numbers in decimal (an empty line is a table
// without numbers). Writes a line for each: the status, both places of the answer and the 64 finishes, which a refusal does not have and are
// written as 0. A table that the types cannot say, of a length that is no multiple of eleven or with a count that no slice can have, gives the
// line 'untyped'.
use slotfigures::{finishes, Task, MOST_TASKS};
use std::io::Read;

// No slice is longer.
const LONGEST: u64 = (isize::MAX as usize / std::mem::size_of::<usize>()) as u64;

// A row's waits, as many as its count says: what goes beyond its eight places begins again with the first.
fn waits(row: &[u64]) -> Option<Vec<usize>> {
    let waits = row[3..].iter().map(|wait| *wait as usize).cycle();
    (row[2] <= LONGEST).then(|| waits.take(row[2] as usize).collect())
}

fn line(numbers: &[u64]) -> String {
    let rows = numbers.chunks_exact(11);
    let waits: Option<Vec<Vec<usize>>> = rows.clone().map(waits).collect();
    let waits = match waits {
        Some(waits) if rows.remainder().is_empty() => waits,
        _ => return "untyped".to_string(),
    };
    let tasks: Vec<Task> = rows
        .zip(&waits)
        .map(|(row, waits)| Task {
            core: row[0] as usize,
            time: row[1],
            waits,
        })
        .collect();
    let (head, ends) = match finishes(&tasks) {
        Ok(ends) => ("0 0 0".to_string(), ends),
        Err(r) if r.to_string() == format!("refused 21 {} (task)", r.place) => {
            (format!("1 {} {}", r.number, r.place), [0; MOST_TASKS])
        }
        Err(r) => return format!("wrong {r}"),
    };
    ends.iter().fold(head, |line, end| format!("{line} {end}"))
}

fn main() {
    let mut text = String::new();
    std::io::stdin()
        .read_to_string(&mut text)
        .expect("standard input");
    for table in text.lines() {
        let numbers: Vec<u64> = table
            .split_whitespace()
            .map(|n| n.parse().expect("a number"))
            .collect();
        println!("{}", line(&numbers));
    }
}
