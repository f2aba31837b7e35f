//! Both figures offset by offset: document 01, "Both figures", and change requests W3, W5 and W9.

use crate::image::{Bus, Node, Task, MOST_LINES};
use std::collections::BTreeMap;

/// For each offset below P its longest time, or none.
pub type Times = Vec<Option<u64>>;
/// For each line number whether the line is fetched.
type Lines = [bool; MOST_LINES];
/// The times of the runs with the same lines fetched, for each such combination that some run has.
type Combinations = BTreeMap<Lines, Times>;
/// For each offset below P whether it is in the set.
pub type Set = Vec<bool>;

/// Equation 7 in its three cases, for 1 ≤ e ≤ slot; "Both figures of tag 9 images use this wait for Equation 7's".
pub fn wait(bus: &Bus, offset: u64, e: u64) -> u64 {
    let Some(slot) = bus.equal else { return least_wait(bus, offset, e) };
    let first = bus.core * slot;
    if offset < first {
        first - offset
    } else if offset <= first + slot - e {
        0
    } else {
        first + bus.period() - offset
    }
}

/// "the least number of cycles after which that core owns e consecutive cycles, counted round the period": of the stretches that are long
/// enough, each by the cycles that have passed since it began last.
fn least_wait(bus: &Bus, offset: u64, e: u64) -> u64 {
    let waits = bus.stretches.iter().filter(|stretch| e <= stretch.length).map(|stretch| {
        let since = (offset + bus.period() - stretch.first) % bus.period();
        // a stretch of the whole period has no end
        if since + e <= stretch.length || stretch.length == bus.period() {
            0
        } else {
            bus.period() - since
        }
    });
    waits.min().expect("a stretch that is long enough")
}

/// The cycles of each execution of a block from this offset. For a block with tag 10 that is the first execution or a later one, as the
/// lines fetched say, and both where nothing is known of lines.
fn executions(bus: &Bus, block: &Node, offset: u64, fetched: Option<&Lines>) -> Vec<u64> {
    let accesses = |lowest: u64, highest: u64| (lowest..=highest).map(|e| wait(bus, offset, e) + e);
    match block {
        Node::Plain { lowest, highest } => (*lowest..=*highest).collect(),
        Node::Access { may: true, lowest, highest } => accesses(*lowest, *highest).chain(*lowest..=*highest).collect(),
        Node::Access { may: false, lowest, highest } => accesses(*lowest, *highest).collect(),
        Node::Fetch { line, lowest, highest, hit } => match fetched.map(|lines| lines[*line]) {
            Some(false) => accesses(*lowest, *highest).collect(),
            Some(true) => vec![*hit],
            None => accesses(*lowest, *highest).chain([*hit]).collect(),
        },
        _ => unreachable!("no block"),
    }
}

/// "Tight: the longest time of any run from any listed start. Each of the ... offsets carries its longest time or none, from
/// node to node." With lines, "each combination of them with an offset carries its longest time". The table after the entry: for each
/// offset the longest time over all combinations.
pub fn tight(task: &Task) -> Times {
    let mut all = vec![None; task.bus.period() as usize];
    for times in combinations(task).values() {
        join(&mut all, times);
    }
    all
}

/// "the lines fetched, at first none"
fn combinations(task: &Task) -> Combinations {
    let mut times = vec![None; task.bus.period() as usize];
    for &start in &task.starts {
        times[start as usize] = Some(0);
    }
    longest(task, task.entry(), &BTreeMap::from([([false; MOST_LINES], times)]))
}

fn longest(task: &Task, node: usize, entry: &Combinations) -> Combinations {
    let mut exits = Combinations::new();
    match &task.nodes[node] {
        block @ (Node::Plain { .. } | Node::Access { .. } | Node::Fetch { .. }) => {
            for (lines, times) in entry {
                let mut after = vec![None; times.len()];
                for (offset, time) in times.iter().enumerate() {
                    if let Some(time) = time {
                        for cycles in executions(&task.bus, block, offset as u64, Some(lines)) {
                            let end = (offset as u64 + cycles) % task.bus.period();
                            keep_longer(&mut after[end as usize], Some(time + cycles));
                        }
                    }
                }
                join_one(&mut exits, with_line(lines, block), &after);
            }
            exits
        }
        Node::Sequence { children } => {
            let mut times = entry.clone();
            for &child in children {
                times = longest(task, child, &times);
            }
            times
        }
        Node::Branch { arms } => {
            for &arm in arms {
                join_all(&mut exits, &longest(task, arm, entry));
            }
            exits
        }
        // the times after k iterations and the test that follows them
        Node::Loop { least, greatest, body, test } => {
            let mut times = longest(task, *test, entry);
            for k in 0..=*greatest {
                if k > 0 {
                    times = longest(task, *test, &longest(task, *body, &times));
                }
                if k >= *least {
                    join_all(&mut exits, &times);
                }
            }
            exits
        }
    }
}

/// The lines fetched after an execution of this block.
fn with_line(lines: &Lines, block: &Node) -> Lines {
    let mut after = *lines;
    if let Node::Fetch { line, .. } = block {
        after[*line] = true;
    }
    after
}

fn join_all(into: &mut Combinations, from: &Combinations) {
    for (lines, times) in from {
        join_one(into, *lines, times);
    }
}

fn join_one(into: &mut Combinations, lines: Lines, times: &Times) {
    join(into.entry(lines).or_insert_with(|| vec![None; times.len()]), times);
}

fn join(into: &mut Times, from: &Times) {
    for (place, &time) in into.iter_mut().zip(from) {
        keep_longer(place, time);
    }
}

/// None is less than any time.
fn keep_longer(place: &mut Option<u64>, time: Option<u64>) {
    *place = (*place).max(time);
}

/// "Published: Algorithms 1 to 3 of 000, entered with all listed starts together". The cost and the exit set.
pub fn published(task: &Task) -> (u64, Set) {
    let mut set = vec![false; task.bus.period() as usize];
    for &start in &task.starts {
        set[start as usize] = true;
    }
    cost(task, task.entry(), &set)
}

fn cost(task: &Task, node: usize, entry: &Set) -> (u64, Set) {
    let nothing: Set = vec![false; entry.len()];
    match &task.nodes[node] {
        // "A plain block costs its highest duration. A bus block costs the largest wait + e over its entry offsets and
        // durations. The exits of a block are ... the offsets at which its executions from all its entry offsets end."
        // "The published method joins the exits of both each time and costs the larger."
        block @ (Node::Plain { .. } | Node::Access { .. } | Node::Fetch { .. }) => {
            let mut largest = 0;
            let mut exits = nothing;
            for offset in members(entry) {
                for cycles in executions(&task.bus, block, offset, None) {
                    largest = cycles.max(largest);
                    exits[((offset + cycles) % task.bus.period()) as usize] = true;
                }
            }
            (largest, exits)
        }
        // "A sequence adds"
        Node::Sequence { children } => {
            let mut sum = 0;
            let mut set = entry.clone();
            for &child in children {
                let (one, exits) = cost(task, child, &set);
                sum += one;
                set = exits;
            }
            (sum, set)
        }
        // "a branch takes the largest arm and joins the exit sets"
        Node::Branch { arms } => {
            let mut largest = 0;
            let mut joined = nothing;
            for &arm in arms {
                let (one, exits) = cost(task, arm, entry);
                largest = one.max(largest);
                join_sets(&mut joined, &exits);
            }
            (largest, joined)
        }
        // "the cost is that of the greatest count with all its tests, and the exits after k iterations are those of the test that follows
        // them, for k = 0 too"; each body and each test starts from the whole exit set of what stands before it
        Node::Loop { least, greatest, body, test } => {
            let (mut sum, mut set) = cost(task, *test, entry);
            let mut joined = nothing;
            for k in 0..=*greatest {
                if k > 0 {
                    let (of_body, between) = cost(task, *body, &set);
                    let (of_test, exits) = cost(task, *test, &between);
                    sum += of_body + of_test;
                    set = exits;
                }
                if k >= *least {
                    join_sets(&mut joined, &set);
                }
            }
            (sum, joined)
        }
    }
}

fn join_sets(into: &mut Set, from: &Set) {
    for (place, &there) in into.iter_mut().zip(from) {
        *place |= there;
    }
}

/// The offsets of a set, ascending.
pub fn members(set: &Set) -> impl Iterator<Item = u64> + '_ {
    set.iter().enumerate().filter(|(_, &there)| there).map(|(offset, _)| offset as u64)
}
