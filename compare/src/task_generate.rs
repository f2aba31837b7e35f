//! Makes task tables: those written by hand, random ones and damaged ones, each once. Everything follows from the seed.

use crate::generate::Random;
use crate::graphs::{Graph, Listed};
use crate::task_cases;
use crate::tasks::{judge, CORES, MOST_TASKS, MOST_TIME, MOST_WAITS, NUMBERS};
use std::collections::HashMap;

/// What is known of a table's answer before the second reading gives its own.
pub enum Expected {
    Open,
    Refused(usize),
    /// the finishes; 0 past them
    Finishes(Vec<u64>),
}

/// What is tried with the finishes that the program answers.
#[derive(Clone, Copy, PartialEq)]
pub enum Then {
    Nothing,
    /// tasks take less than their time
    Shorter,
    /// the images of this graph run on one clock
    Run(usize, Listed),
}

pub struct Case {
    pub category: &'static str,
    pub numbers: Vec<u64>,
    pub expected: Expected,
    pub then: Vec<Then>,
}

/// The tables, each once.
#[derive(Default)]
pub struct Tables {
    pub list: Vec<Case>,
    places: HashMap<Vec<u64>, usize>,
}

impl Tables {
    pub fn add(&mut self, category: &'static str, numbers: Vec<u64>, expected: Expected) {
        self.add_then(category, numbers, expected, Then::Nothing);
    }

    /// A table that is there already gets what is tried with its finishes.
    fn add_then(&mut self, category: &'static str, numbers: Vec<u64>, expected: Expected, then: Then) {
        let place = *self.places.entry(numbers.clone()).or_insert(self.list.len());
        if place == self.list.len() {
            self.list.push(Case { category, numbers, expected, then: Vec::new() });
        }
        if then != Then::Nothing {
            self.list[place].then.push(then);
        }
    }
}

/// Numbers of a line that the program under test reads.
const MOST_NUMBERS: usize = 1_024;

/// A number that breaks a range somewhere, or just does not.
fn odd(random: &mut Random) -> u64 {
    let near =
        [0, 1, 7, 8, 9, 10, 14, 15, 16, 17, 62, 63, 64, 255, 256, MOST_TIME - 1, MOST_TIME, MOST_TIME + 1, 1 << 32, u64::MAX];
    match random.below(4) {
        0 => random.any(),
        1 => random.below(70),
        _ => *random.one_of(&near),
    }
}

/// How the times of a table are.
enum Times {
    /// few cycles: both clocks are tried
    Few,
    Some,
    Any,
    AtTheEnds,
}

fn random_time(random: &mut Random, times: &Times) -> u64 {
    if random.once_in(8) {
        return 0;
    }
    match times {
        Times::Few => random.below(12),
        Times::Some => random.below(400),
        Times::Any => random.from(0, MOST_TIME),
        Times::AtTheEnds => *random.one_of(&[0, 1, MOST_TIME, MOST_TIME - 1, (1 << 32) - 1, 1 << 32, 1 << 31]),
    }
}

/// A valid table.
fn random_table(random: &mut Random) -> Vec<u64> {
    let size = match random.below(10) {
        0..=4 => random.from(1, 6),
        5..=7 => random.from(1, MOST_TASKS as u64),
        8 => random.from(7, 16),
        _ => *random.one_of(&[1, 2, 62, 63, 64, 64]),
    };
    let times = match random.below(10) {
        0..=3 => Times::Few,
        4..=5 => Times::Some,
        6..=8 => Times::Any,
        _ => Times::AtTheEnds,
    };
    // the cores that it uses; one may be there twice
    let cores: Vec<u64> = (0..*random.one_of(&[1, 2, 3, 4, 6, 8, 16, 30])).map(|_| random.below(CORES as u64)).collect();
    let most_waits = random.from(0, MOST_WAITS);
    let ignored = random.below(4);
    let mut numbers = Vec::new();
    for own in 0..size {
        let count = if own == 0 { 0 } else { random.from(0, most_waits) };
        numbers.extend([*random.one_of(&cores), random_time(random, &times), count]);
        for place in 0..MOST_WAITS {
            numbers.push(if place < count {
                // one of the last few, any, the first, or the one named before
                match random.below(8) {
                    0..=3 => own - 1 - random.below(own.min(4)),
                    4..=5 => random.below(own),
                    6 => 0,
                    _ if place > 0 => numbers[numbers.len() - 1],
                    _ => own - 1,
                }
            } else {
                match ignored {
                    0 => 0,
                    1 => odd(random),
                    2 => random.below(own + 2),
                    _ => u64::MAX,
                }
            });
        }
    }
    numbers
}

/// One or more changes to a table.
fn damage(random: &mut Random, numbers: &mut Vec<u64>) {
    for _ in 0..*random.one_of(&[1, 1, 1, 2, 2, 3]) {
        if numbers.is_empty() {
            break;
        }
        let at = random.below(numbers.len() as u64) as usize;
        let own = at / NUMBERS;
        let row = own * NUMBERS;
        let end = (row + NUMBERS).min(numbers.len());
        match random.below(16) {
            0..=1 => numbers[at] = odd(random),
            2 => numbers[at] = numbers[at].wrapping_add(1),
            3 => numbers[at] = numbers[at].wrapping_sub(1),
            // a number of an entry just out of its range, or far
            4 => numbers[row] = if random.once_in(2) { CORES as u64 } else { random.any() },
            5 if row + 1 < end => numbers[row + 1] = if random.once_in(2) { MOST_TIME + 1 } else { random.any() },
            6 if row + 2 < end => numbers[row + 2] = if random.once_in(2) { MOST_WAITS + 1 } else { random.any() },
            // a predecessor that is not earlier, or just is
            7..=9 if row + 3 < end => {
                let count = numbers[row + 2].clamp(1, MOST_WAITS) as usize;
                numbers[row + 2] = count as u64;
                let place = (row + 3 + random.below(count as u64) as usize).min(end - 1);
                numbers[place] = match random.below(5) {
                    0 => own as u64,
                    1 => own as u64 + 1,
                    2 => (own as u64).wrapping_sub(1),
                    3 => own as u64 + random.below(64),
                    _ => random.any(),
                };
            }
            10 => {
                numbers.remove(at);
            }
            11 => numbers.insert(at, odd(random)),
            12 => numbers.truncate(at),
            // an entry left out, or doubled: at its place, or at the front
            13 => {
                numbers.drain(row..end);
            }
            14 => {
                let copy: Vec<u64> = numbers[row..end].to_vec();
                let to = if random.once_in(2) { row } else { 0 };
                numbers.splice(to..to, copy);
            }
            // entries without end
            _ => {
                let more: Vec<u64> = numbers[row..end].to_vec();
                let wanted = random.from(MOST_TASKS as u64 - 1, MOST_TASKS as u64 + 8) as usize * NUMBERS;
                while numbers.len() < wanted {
                    numbers.extend(&more);
                }
            }
        }
    }
    numbers.truncate(MOST_NUMBERS);
}

/// All tables: those written by hand, so many random and damaged ones, and those of the graphs.
pub fn all(seed: u64, wanted: usize, graphs: &[Graph]) -> Vec<Case> {
    let mut random = Random::new(seed);
    let mut tables = Tables::default();
    task_cases::worked(&mut tables);
    task_cases::sizes(&mut tables);
    task_cases::limits(&mut tables);
    task_cases::ignored(&mut tables);
    task_cases::order(&mut tables);

    let wanted = tables.list.len() + wanted;
    while tables.list.len() < wanted {
        let mut numbers = random_table(&mut random);
        let damaged = random.below(20) >= 9;
        if damaged {
            damage(&mut random, &mut numbers);
        }
        if tables.places.contains_key(&numbers) {
            continue;
        }
        let then = if judge(&numbers).is_ok() { Then::Shorter } else { Then::Nothing };
        tables.add_then(if damaged { "damaged tables" } else { "random tables" }, numbers, Expected::Open, then);
    }
    for (number, graph) in graphs.iter().enumerate() {
        for (category, listed) in [("graphs, every start", Listed::Every), ("graphs, one start", Listed::One)] {
            tables.add_then(category, graph.table(listed), Expected::Open, Then::Run(number, listed));
        }
    }
    tables.list
}
