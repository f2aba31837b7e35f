//! Compares a program that works out the finishes of task tables with the second reading of change request W12 in tasks.rs.
//!
//! tables [--seed N] [--tables N] [--stop-after N] [PROGRAM [WORDS...]]
//!
//! The program reads a table from each line and writes a line for each, as tests/linked/tables.c does. --tables is the number of
//! random and damaged tables; --stop-after ends the comparison after so many failures. The last line is 'N passed, M failed'; the
//! exit status is 0 only if nothing failed and at least 30,000 passed. A test that was not performed failed.

mod batch;
// of what has to do with images, the other comparison uses more
#[allow(dead_code)]
mod cases;
#[allow(dead_code)]
mod generate;
mod graphs;
mod image;
#[allow(dead_code)]
mod offsets;
mod report;
mod runs;
mod task_cases;
mod task_generate;
mod tasks;

use generate::Random;
use graphs::{Graph, Listed};
use report::{Failure, Options, Tests};
use std::collections::BTreeMap;
use std::time::{Duration, Instant};
use task_generate::{Case, Expected, Then};
use tasks::{Task, MOST_TASKS};

const LEAST_PASSED: usize = 30_000;
/// Tables that the program reads in one run, and the time after which no run begins.
const BATCH: usize = 4_000;
const LAST_RUN: Duration = Duration::from_secs(60);
const GRAPHS: usize = 400;

/// What was met, over all tests.
#[derive(Default)]
struct Summary {
    tests: Tests,
    accepted: usize,
    /// of these, those that were walked cycle by cycle too
    by_cycles: usize,
    /// refused tables by place
    refused: BTreeMap<usize, usize>,
    /// random and damaged tables, and those of them that are accepted by size
    random: usize,
    sizes: BTreeMap<usize, usize>,
    /// runs of images, those of them that were the longest from their offset, and by listed starts: graphs with a late task, of all
    runs: u64,
    longest: u64,
    every: (usize, usize),
    one: (usize, usize),
}

fn joined(numbers: &[u64]) -> String {
    numbers.iter().map(u64::to_string).collect::<Vec<_>>().join(" ")
}

/// The finishes of a line that answers with them.
fn answered(line: &str) -> Option<Vec<u64>> {
    let numbers: Vec<u64> = line.split(' ').map(|number| number.parse().ok()).collect::<Option<_>>()?;
    match &numbers[..] {
        [0, 0, 0, finishes @ ..] if finishes.len() == MOST_TASKS => Some(finishes.to_vec()),
        _ => None,
    }
}

/// Compares the program's line for a table, and tries what is to be tried with its finishes.
fn perform(number: usize, case: &Case, graphs: &[Graph], line: &str, seed: u64, summary: &mut Summary) {
    let answer = tasks::answer(&case.numbers);
    let by_hand = match &case.expected {
        Expected::Open => answer.line.clone(),
        Expected::Refused(place) => tasks::line(1, [21, *place as u64], &[]),
        Expected::Finishes(finishes) => tasks::line(0, [0, 0], finishes),
    };
    let input = || ("table", joined(&case.numbers));
    let failed = batch::compared(input(), &answer.doubt, &by_hand, &answer.line, line);
    summary.tests.tell(number, case.category, failed);
    summary.accepted += usize::from(answer.judged.is_ok());
    summary.by_cycles += usize::from(answer.by_cycles);
    let random = ["random tables", "damaged tables"].contains(&case.category);
    summary.random += usize::from(random);
    match &answer.judged {
        Ok(tasks) if random => *summary.sizes.entry(tasks.len()).or_default() += 1,
        Ok(_) => {}
        Err(place) => *summary.refused.entry(*place).or_default() += 1,
    }

    // without finishes, what is to be tried with them is not performed
    let (Ok(tasks), Some(finishes)) = (&answer.judged, answered(line)) else { return };
    let late_task = |late: Option<String>| {
        let why = "a task ends after its finish";
        late.map(|got| Failure { by_program: true, why, input: input(), expected: String::new(), got })
    };
    for (which, then) in case.then.iter().enumerate() {
        let mut random = Random::new(seed ^ ((number * 8 + which) as u64) << 20);
        match then {
            Then::Nothing => {}
            Then::Shorter => {
                let late = shorter(tasks, &finishes, &mut random);
                summary.tests.tell(number, "shorter times", late_task(late));
            }
            Then::Run(graph, listed) => {
                let seen = graphs::run(&graphs[*graph], *listed, &finishes, &mut random);
                summary.runs += seen.runs;
                summary.longest += seen.longest;
                let late = if *listed == Listed::Every { &mut summary.every } else { &mut summary.one };
                late.0 += usize::from(seen.late.is_some());
                late.1 += 1;
                // where one start is listed, a late task is what the control looks for
                if *listed == Listed::Every {
                    summary.tests.tell(number, "images on one clock", late_task(seen.late));
                }
            }
        }
    }
}

/// "takes no longer than its time, none ends after its finish": a task that is late, with random durations up to the times.
fn shorter(tasks: &[Task], finishes: &[u64], random: &mut Random) -> Option<String> {
    let spans = tasks::by_events(tasks, &mut |own, _| match random.below(4) {
        0 => tasks[own].time,
        1 => tasks[own].time.saturating_sub(1),
        2 => 0,
        _ => random.from(0, tasks[own].time),
    });
    tasks::late(tasks, &spans, finishes)
}

/// Tests that follow from a table's finishes.
fn follow(case: &Case) -> usize {
    case.then.iter().filter(|then| !matches!(then, Then::Nothing | Then::Run(_, Listed::One))).count()
}

fn main() {
    let numbers = [("--seed", 1), ("--tables", 24_000), ("--stop-after", u64::MAX)];
    let options = Options::new(&numbers, "target/compare/tables-linked");
    let (seed, stop_after) = (options.number("--seed"), options.size("--stop-after"));
    let begun = Instant::now();
    let graphs = graphs::all(seed, GRAPHS);
    let all = task_generate::all(seed, options.size("--tables"), &graphs);
    let mut summary = Summary::default();
    let mut planned = 0;
    for (number, batch) in all.chunks(BATCH).enumerate() {
        planned += batch.len() + batch.iter().map(follow).sum::<usize>() + 1;
        if summary.tests.failed() >= stop_after || begun.elapsed() >= LAST_RUN {
            continue;
        }
        let first = number * BATCH;
        let inputs: Vec<String> = batch.iter().map(|case| joined(&case.numbers)).collect();
        let ended = batch::run(&options.program, ("table", &inputs), &mut |place, line| {
            perform(first + place, &batch[place], &graphs, line, seed, &mut summary);
            summary.tests.failed() < stop_after
        });
        if let Some(failed) = ended {
            summary.tests.tell(first + batch.len(), "runs of the program", failed);
        }
    }

    summary.tests.show(&format!("seed {seed}, {:.1} s", begun.elapsed().as_secs_f64()));
    let refused: usize = summary.refused.values().sum();
    println!("tables: {} accepted, {} of them cycle by cycle too; {refused} refused", summary.accepted, summary.by_cycles);
    let of_size = |first: usize, last: usize| summary.sizes.range(first..=last).map(|(_, tables)| tables).sum::<usize>();
    let accepted = of_size(1, MOST_TASKS);
    let ranges =
        [(1, 6), (7, 16), (17, 63), (64, 64)].map(|(first, last)| format!("{first} to {last}: {}", of_size(first, last)));
    println!("random and damaged tables: {accepted} accepted of {}, by size {}", summary.random, ranges.join(", "));
    println!("runs of images: {}, of them the longest from their offset: {}", summary.runs, summary.longest);
    let with_lines: usize = graphs.iter().map(Graph::with_lines).sum();
    let with_pairs: usize = graphs.iter().map(Graph::with_pairs).sum();
    let with_entry: usize = graphs.iter().map(Graph::with_entry).sum();
    let with_tests: usize = graphs.iter().map(Graph::with_tests).sum();
    let shared = graphs.iter().filter(|graph| graph.shared()).count();
    println!("images of graphs with lines: {with_lines}; with tag 8: {with_entry}; with tag 9: {with_pairs}");
    println!("images of graphs with a test that is not plain 0: {with_tests}");
    println!("graphs with tag 9 for several cores: {shared}");
    println!(
        "graphs with a task that ended late: {} of {}; with one start listed: {} of {}",
        summary.every.0, summary.every.1, summary.one.0, summary.one.1
    );
    // random tables of every size, about half of them accepted, every place of a refusal, and enough for both clocks
    let half = accepted * 10 >= summary.random * 4 && accepted * 10 <= summary.random * 7;
    let every_place = summary.refused.len() == MOST_TASKS;
    let clocks = summary.by_cycles >= 1_000 && summary.longest >= 1_000;
    let images = [with_lines, with_entry, with_pairs, with_tests].into_iter().all(|images| images >= 300) && shared >= 50;
    let met = half && images && summary.sizes.len() == MOST_TASKS && every_place && clocks;
    // the control that a late task is seen
    let seen = summary.one.0 > 0;
    let late = "no graph was found in which a task with one listed start ends after its finish";
    summary.tests.close(planned, &[(met, "too few tables of some kind"), (seen, late)], LEAST_PASSED);
}
