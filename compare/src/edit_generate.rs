//! Makes edits: those written by hand, and random ones of all the images that `figure` is compared with, each once. Everything follows
//! from the seed.

use crate::edit_cases;
use crate::editing::{edited, in_range, is_plain, Edit};
use crate::generate::{self, longest_duration, valid_task, work, Random, MIDDLE, MOST_WORK, SMALL};
use crate::image::{judge, Node, Task, MOST_BYTES};
use std::collections::HashSet;

/// What is known of an edit's line before the second reading gives its own.
pub enum Expected {
    Open,
    Begins(String),
    Line(String),
}

pub struct Case {
    pub category: &'static str,
    pub edit: Edit,
    pub expected: Expected,
}

/// The edits, each once.
#[derive(Default)]
pub struct Edits {
    pub list: Vec<Case>,
    seen: HashSet<Edit>,
}

impl Edits {
    pub fn add(&mut self, category: &'static str, edit: Edit, expected: Expected) {
        if self.seen.insert(edit.clone()) {
            self.list.push(Case { category, edit, expected });
        }
    }

    /// Leaves out edits of an accepted image whose preview takes long to calculate.
    fn add_quick(&mut self, category: &'static str, task: &Task, edit: Edit) {
        let done = is_plain(task, edit.node) && in_range(edit.lowest, edit.highest);
        let worked_out = if done && edit.places >= task.bus.period() { edited(&edit).1 } else { None };
        if worked_out.map_or(0, |image| work(&image)) <= MOST_WORK {
            self.add(category, edit, Expected::Open);
        }
    }
}

/// Mostly a plain block, often one that is a test, else one with tag 10, any node, one behind the last, or one that a narrower number would
/// make of it.
fn random_node(random: &mut Random, task: &Task) -> u64 {
    let count = task.nodes.len() as u64;
    let plain: Vec<u64> = (0..count).filter(|&node| matches!(task.nodes[node as usize], Node::Plain { .. })).collect();
    let fetch: Vec<u64> = (0..count).filter(|&node| matches!(task.nodes[node as usize], Node::Fetch { .. })).collect();
    let test = |&node: &u64| task.nodes.iter().any(|other| matches!(other, Node::Loop { test, .. } if *test as u64 == node));
    let tests: Vec<u64> = plain.iter().copied().filter(test).collect();
    match random.below(12) {
        0 if !fetch.is_empty() => *random.one_of(&fetch),
        1..=2 if !tests.is_empty() => *random.one_of(&tests),
        0..=7 if !plain.is_empty() => *random.one_of(&plain),
        8 => count + random.below(3),
        9 => random.below(count) + *random.one_of(&[1 << 8, 1 << 16, 1 << 32, 1 << 63]),
        10 if random.once_in(4) => random.any(),
        _ => random.below(count),
    }
}

/// Mostly durations in range, of few cycles and near to each other as often as not; else some that are not, or just are.
fn random_durations(random: &mut Random, task: &Task, node: u64) -> (u64, u64) {
    let lowest = match random.below(8) {
        0 => 0,
        1..=4 => random.below(2 * longest_duration(&task.bus) + 2),
        5 => random.below(3 * task.bus.period()),
        6 => random.below(65_536),
        _ => *random.one_of(&[1, 255, 256, 65_472, 65_535]),
    };
    match random.below(16) {
        0..=5 => (lowest, lowest),
        6..=8 => (lowest, lowest + random.below(4)),
        9..=10 => (lowest, lowest + random.below(64)),
        11 => (lowest, lowest + random.from(62, 65)),
        12 => (lowest + random.from(1, 70), lowest),
        13 => (lowest + *random.one_of(&[0, 1 << 16, 1 << 32]), lowest + *random.one_of(&[0, 1 << 16, 1 << 32, 1 << 63])),
        14 => (random.any(), random.any()),
        // the same as before, or one of both
        _ => match task.nodes.get(node as usize) {
            Some(Node::Plain { lowest: before, highest }) => {
                *random.one_of(&[(*before, *highest), (*before, lowest), (lowest, *highest), (*highest, *before)])
            }
            _ => (lowest, lowest),
        },
    }
}

fn random_places(random: &mut Random, task: &Task) -> u64 {
    let period = task.bus.period();
    match random.below(12) {
        0..=4 => period,
        5 => period - 1,
        6 => period + 1,
        7..=8 => 256,
        9 => 300,
        10 => 0,
        _ => random.from(0, 300),
    }
}

fn random_edit(random: &mut Random, image: &[u8], task: &Task) -> Edit {
    let node = random_node(random, task);
    let (lowest, highest) = random_durations(random, task, node);
    Edit { image: image.to_vec(), node, lowest, highest, places: random_places(random, task) }
}

/// Every node of random tasks, in range and at random.
fn every_node(edits: &mut Edits, random: &mut Random, images: usize) {
    for _ in 0..images {
        let shape = if random.once_in(3) { &MIDDLE } else { &SMALL };
        let (image, task) = valid_task(random, shape);
        for node in 0..=task.nodes.len() as u64 {
            let lowest = random.below(2 * task.bus.period() + 1);
            let highest = lowest + if random.once_in(3) { random.below(3) } else { 0 };
            edits.add_quick("every node", &task, Edit { image: image.clone(), node, lowest, highest, places: task.bus.period() });
            if is_plain(&task, node) {
                let (lowest, highest) = random_durations(random, &task, node);
                let places = random_places(random, &task);
                edits.add_quick("every node", &task, Edit { image: image.clone(), node, lowest, highest, places });
            }
        }
    }
}

/// Of an image that is refused: any block, durations and table.
fn edit_of_refused(random: &mut Random, image: &[u8]) -> Edit {
    let node = if random.once_in(2) { random.below(3) } else { *random.one_of(&[3, 9, 255, 256, 1 << 16, u64::MAX]) };
    let (lowest, highest) = *random.one_of(&[(1, 1), (1, 3), (0, 63), (0, 64), (2, 1), (5, 65_536), (0, u64::MAX)]);
    let places = *random.one_of(&[0, 1, 9, 10, 256, 300]);
    Edit { image: image.to_vec(), node, lowest, highest, places }
}

/// All edits: those written by hand, and those of so many images.
pub fn all(seed: u64, images: usize) -> Vec<Case> {
    let mut random = Random::new(seed ^ 0x65_6469_7473);
    let mut edits = Edits::default();
    edit_cases::worked(&mut edits);
    edit_cases::order(&mut edits);
    edit_cases::grid(&mut edits);
    edit_cases::largest(&mut edits, &mut random);
    every_node(&mut edits, &mut random, images / 20);
    for case in generate::all(seed, images) {
        let image = &case.image[..case.image.len().min(MOST_BYTES)];
        match judge(image) {
            Ok(task) => {
                // where no block is plain, every edit gives 19
                let plain = (0..task.nodes.len() as u64).any(|node| is_plain(&task, node));
                for _ in 0..if plain { 3 } else { 1 } {
                    let edit = random_edit(&mut random, image, &task);
                    edits.add_quick(case.category, &task, edit);
                }
            }
            Err(_) => {
                let expected = match &case.expected {
                    generate::Expected::Refused(number) => Expected::Begins(format!("edit 1 {number} ")),
                    generate::Expected::Text(text) => Expected::Begins(text.trim_end().replace("refused", "edit 1") + " "),
                    _ => Expected::Open,
                };
                edits.add(case.category, edit_of_refused(&mut random, image), expected);
            }
        }
    }
    edits.list
}
