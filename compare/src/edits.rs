//! Compares a program that edits task images and previews the edits with the second reading of change request W10 in editing.rs.
//!
//! edits [--seed N] [--images N] [--threads N] [--stop-after N] [PROGRAM [WORDS...]]
//!
//! The program reads an edit from each line and writes a line for each, as tests/linked/edits.c does. --images is the number of images
//! besides those written by hand for edits; --stop-after ends the comparison after so many failures. The last line is 'N passed, M
//! failed'; the exit status is 0 only if nothing failed and at least 30,000 passed. A test that was not performed failed.

mod batch;
// of what has to do with images, the comparison of images uses more
#[allow(dead_code)]
mod cases;
mod edit_cases;
mod edit_generate;
mod editing;
mod generate;
mod image;
mod offsets;
#[allow(dead_code)]
mod reference;
mod report;
#[allow(dead_code)]
mod runs;

use edit_generate::{Case, Expected};
use editing::Found;
use reference::{executed, executed_loops, Lines, Named, Tested, Unequal};
use report::{Options, Tests};
use std::collections::BTreeMap;
use std::sync::Mutex;
use std::time::{Duration, Instant};

/// Steps lent to the enumeration of one image's runs.
const STEPS: u64 = 400_000;
const LEAST_PASSED: usize = 30_000;
/// Edits that the program reads in one run, and the time after which no run begins.
const BATCH: usize = 250;
const LAST_RUN: Duration = Duration::from_secs(100);

/// What was met, over all tests.
#[derive(Default)]
struct Summary {
    tests: Tests,
    /// images refused by their own number
    own: BTreeMap<u64, usize>,
    /// edits refused with 19, those of them of a block with tag 10, edits refused with 5, and previews with 10
    block: usize,
    fetched: usize,
    durations: usize,
    table: usize,
    enumerated: usize,
    runs: u64,
    calculated: usize,
    /// figures of images with lines, and those of them whose published exit set has offsets at which no run ends
    with_lines: usize,
    wider: usize,
    /// edits of images with tag 9, and figures of such
    with_pairs: usize,
    unequal: Unequal,
    /// edits of images with tag 8, figures of such, and those of them after an edit of a block above the entry
    with_entry: usize,
    named: Named,
    above: usize,
    /// figures of images that execute a loop, and those of them after an edit of a block that is a test, and of one that a test executes
    tested: Tested,
    of_test: usize,
    in_test: usize,
}

/// Compares the program's line for an edit.
fn perform(number: usize, case: &Case, line: &str, summary: &Mutex<Summary>) {
    let answer = editing::answer(&case.edit, STEPS);
    let by_hand = match &case.expected {
        Expected::Begins(begin) if !answer.line.starts_with(begin) => begin,
        Expected::Line(by_hand) => by_hand,
        _ => &answer.line,
    };
    let failed = batch::compared(("edit", case.edit.line()), &answer.doubt, by_hand, &answer.line, line);

    let mut summary = summary.lock().unwrap();
    summary.tests.tell(number, case.category, failed);
    summary.with_lines += usize::from(answer.lines != Lines::None);
    summary.wider += usize::from(answer.lines == Lines::Wider);
    summary.with_pairs += usize::from(case.edit.image.first() == Some(&9));
    summary.with_entry += usize::from(generate::has_entry(&case.edit.image));
    if let Some(task) = &answer.task {
        summary.unequal.count(task);
        summary.named.count(task);
        summary.above += usize::from(case.edit.node > task.entry() as u64);
        summary.tested.count(task);
        let (block, loops) = (case.edit.node as usize, executed_loops(task));
        let of_test = loops.iter().any(|&(_, _, test)| test == block);
        let in_test = loops.iter().any(|&(_, _, test)| executed(task, test).contains(&block));
        summary.of_test += usize::from(of_test);
        summary.in_test += usize::from(in_test && !of_test);
    }
    match answer.found {
        Found::Own(number) => *summary.own.entry(number).or_default() += 1,
        Found::Block { fetched } => {
            summary.block += 1;
            summary.fetched += usize::from(fetched);
        }
        Found::Durations => summary.durations += 1,
        Found::Table => summary.table += 1,
        Found::Enumerated(runs) => {
            summary.enumerated += 1;
            summary.runs += runs;
        }
        Found::Calculated => summary.calculated += 1,
    }
}

fn main() {
    let threads = std::thread::available_parallelism().map_or(2, |number| number.get()).min(8) as u64;
    let numbers = [("--seed", 1), ("--images", 25_000), ("--threads", threads), ("--stop-after", u64::MAX)];
    let options = Options::new(&numbers, "target/compare/edits-linked");
    let (seed, threads) = (options.number("--seed"), options.size("--threads").max(1));
    let begun = Instant::now();
    let all = edit_generate::all(seed, options.size("--images"));
    let batches: Vec<&[Case]> = all.chunks(BATCH).collect();
    let summary = Mutex::new(Summary::default());
    let stopped = || summary.lock().map_or(true, |summary| summary.tests.failed() >= options.size("--stop-after"));
    batch::on_threads(threads, batches.len(), &|| begun.elapsed() >= LAST_RUN || stopped(), &|which| {
        let (first, batch) = (which * BATCH, batches[which]);
        let inputs: Vec<String> = batch.iter().map(|case| case.edit.line()).collect();
        let ended = batch::run(&options.program, ("edit", &inputs), &mut |place, line| {
            perform(first + place, &batch[place], line, &summary);
            !stopped()
        });
        if let Some(failed) = ended {
            summary.lock().unwrap().tests.tell(first + batch.len(), "runs of the program", failed);
        }
    });

    let mut summary = summary.into_inner().unwrap_or_else(|broken| broken.into_inner());
    summary.tests.show(&format!("seed {seed}, {threads} threads, {:.1} s", begun.elapsed().as_secs_f64()));
    let own: Vec<String> = summary.own.iter().map(|(number, all)| format!("{number}: {all}")).collect();
    println!("images refused by number: {}", own.join(", "));
    println!(
        "edits refused with 19: {}, of a block with tag 10: {}; with 5: {}",
        summary.block, summary.fetched, summary.durations
    );
    println!(
        "edits done: {} with 10 in the preview, {} with figures enumerated in {} runs, {} by calculation",
        summary.table, summary.enumerated, summary.runs, summary.calculated
    );
    println!("figures with lines: {}, of them with published exits at which no run ends: {}", summary.with_lines, summary.wider);
    println!("edits of images with tag 9: {}; figures with tag 9: {}", summary.with_pairs, summary.unequal);
    println!("edits of images with tag 8: {}; figures with tag 8: {}", summary.with_entry, summary.named);
    println!("figures after an edit above the entry: {}", summary.above);
    println!("figures with loops: {}", summary.tested);
    println!("figures after an edit of a test: {}, of a block in a test: {}", summary.of_test, summary.in_test);
    // every answer of the papers was met, and runs were enumerated
    let each_refusal = (1..=9).chain([11, 18]).all(|number| summary.own.get(&number).copied().unwrap_or(0) >= 10);
    let edits = summary.block.min(summary.durations).min(summary.table) >= 500;
    let lines = summary.fetched.min(summary.with_lines).min(summary.wider) >= 200;
    let schedules = summary.with_pairs >= 5_000 && summary.unequal.all >= 1_000 && summary.unequal.met(50);
    let entries = summary.with_entry >= 5_000 && summary.named.not_last >= 1_000 && summary.named.met(50) && summary.above >= 200;
    let tested = summary.tested.busy >= 1_000 && summary.tested.met(100) && summary.of_test >= 500 && summary.in_test >= 100;
    let ways = summary.enumerated >= 2_000 && summary.calculated >= 100;
    let met = each_refusal && edits && lines && schedules && entries && tested && ways;
    summary.tests.close(all.len() + batches.len(), &[(met, "too few edits of some kind")], LEAST_PASSED);
}
