//! Compares a program that makes calls on an arbiter with the second reading of change requests W7 and W8 in device.rs.
//!
//! arbiter [--seed N] [--sequences N] [--threads N] [--stop-after N] [PROGRAM [WORDS...]]
//!
//! The program reads a state and a sequence of calls from each line and writes a line for each, as tests/linked/arbiter.c does.
//! --sequences is the number of random sequences; --stop-after ends the comparison after so many failures. Each call is a test. The last
//! line is 'N passed, M failed'; the exit status is 0 only if nothing failed and at least 30,000 passed. A test that was not performed
//! failed.

mod arbiter_cases;
mod arbiter_generate;
mod arbiter_laws;
mod batch;
// of what has to do with images, only the random numbers and buses are used
#[allow(dead_code)]
mod cases;
mod device;
#[allow(dead_code)]
mod generate;
#[allow(dead_code)]
mod image;
mod report;

use arbiter_generate::{Case, Law};
use arbiter_laws::Both;
use device::{Found, Refusal, Sequence};
use report::{Failure, Options, Tests};
use std::collections::BTreeMap;
use std::sync::Mutex;
use std::time::{Duration, Instant};

const LEAST_PASSED: usize = 30_000;
/// Sequences that the program reads in one run, an even number, and the time after which no run begins.
const BATCH: usize = 100;
const LAST_RUN: Duration = Duration::from_secs(60);

/// What was met, over all tests.
#[derive(Default)]
struct Summary {
    tests: Tests,
    sequences: usize,
    /// calls that are done, and accesses that came to done with them
    done: usize,
    accesses: usize,
    refused: BTreeMap<Refusal, usize>,
    /// calls with status 2
    length: usize,
}

/// Compares the program's line for a sequence call by call.
fn perform(number: usize, case: &Case, line: &str, summary: &Mutex<Summary>) {
    let calls = case.sequence.calls.len();
    // what is too much goes with the last call
    let items: Vec<&str> = line.splitn(calls, ' ').collect();
    let by_hand: Vec<&str> = case.by_hand.iter().flat_map(|line| line.split(' ')).collect();
    let answers = device::answers(&case.sequence);
    let mut summary = summary.lock().unwrap();
    summary.sequences += 1;
    for (place, answer) in answers.into_iter().enumerate() {
        let by_hand = by_hand.get(place).copied().unwrap_or(&answer.item);
        let item = if line.starts_with("wrong") { line } else { items.get(place).copied().unwrap_or_default() };
        let failed = (answer.doubt.is_some() || by_hand != answer.item || item != answer.item).then(|| {
            let upto = Sequence { calls: case.sequence.calls[..=place].to_vec(), ..case.sequence.clone() };
            batch::compared(("sequence", upto.line()), &answer.doubt, by_hand, &answer.item, item)
        });
        summary.tests.tell(number, case.category, failed.flatten());
        match answer.found {
            Found::Done(accesses) => {
                summary.done += 1;
                summary.accesses += accesses;
            }
            Found::Refused(refusal) => *summary.refused.entry(refusal).or_default() += 1,
            Found::Length => summary.length += 1,
        }
    }
}

/// Tries what is to be tried with the program's own answers; `before` is the sequence before with its line.
fn try_law(number: usize, before: Option<(&Case, &str)>, (case, line): (&Case, &str), summary: &Mutex<Summary>) {
    let steps = |case: &Case, line: &str| arbiter_laws::steps(&case.sequence, line);
    let unread = || Some("the line cannot be read".to_string());
    let of_pair = |otherwise: &dyn Fn(Both) -> Option<String>| {
        let both = before.and_then(|(other, line)| Some((other, steps(other, line)?))).zip(steps(case, line));
        both.map_or_else(unread, |((other, first), second)| otherwise([(&other.sequence, &first), (&case.sequence, &second)]))
    };
    let (category, otherwise) = match case.law {
        Law::Nothing => return,
        Law::Reached => {
            let otherwise =
                |steps: Vec<_>| arbiter_laws::untimely(&case.sequence, &steps).or_else(|| arbiter_laws::crowded(&steps));
            ("reached states", steps(case, line).map_or_else(unread, otherwise))
        }
        Law::Undisturbed(core) => ("other cores' writes", of_pair(&|both| arbiter_laws::disturbed(core, both))),
        Law::Equal(core) => ("answers to a core", of_pair(&|both| arbiter_laws::unequal(core, both))),
        Law::Led => ("forbidden calls", of_pair(&arbiter_laws::led_elsewhere)),
    };
    let failed = otherwise.map(|got| Failure {
        by_program: true,
        why: "a sentence does not hold",
        input: ("sequence", case.sequence.line()),
        expected: category.to_string(),
        got,
    });
    summary.lock().unwrap().tests.tell(number, category, failed);
}

fn main() {
    let threads = std::thread::available_parallelism().map_or(2, |number| number.get()).min(8) as u64;
    let numbers = [("--seed", 1), ("--sequences", 6_000), ("--threads", threads), ("--stop-after", u64::MAX)];
    let options = Options::new(&numbers, "target/compare/arbiter-linked");
    let (seed, threads) = (options.number("--seed"), options.size("--threads").max(1));
    let begun = Instant::now();
    let all = arbiter_generate::all(seed, options.size("--sequences"));
    let batches: Vec<&[Case]> = all.chunks(BATCH).collect();
    let summary = Mutex::new(Summary::default());
    let stopped = || summary.lock().map_or(true, |summary| summary.tests.failed() >= options.size("--stop-after"));
    batch::on_threads(threads, batches.len(), &|| begun.elapsed() >= LAST_RUN || stopped(), &|which| {
        let (first, batch) = (which * BATCH, batches[which]);
        let inputs: Vec<String> = batch.iter().map(|case| case.sequence.line()).collect();
        let mut line_before = None;
        let ended = batch::run(&options.program, ("sequence", &inputs), &mut |place, line| {
            perform(first + place, &batch[place], line, &summary);
            let before = line_before.as_deref().map(|line: &str| (&batch[place - 1], line));
            try_law(first + place, before, (&batch[place], line), &summary);
            line_before = Some(line.to_string());
            !stopped()
        });
        if let Some(failed) = ended {
            summary.lock().unwrap().tests.tell(first + batch.len(), "runs of the program", failed);
        }
    });

    let mut summary = summary.into_inner().unwrap_or_else(|broken| broken.into_inner());
    summary.tests.show(&format!("seed {seed}, {threads} threads, {:.1} s", begun.elapsed().as_secs_f64()));
    let with = |number| summary.refused.iter().filter(move |(kind, _)| kind.number() == number);
    let [register, busy, forbidden] = [15, 16, 17].map(|number| with(number).map(|(_, all)| all).sum::<usize>());
    let calls = summary.done + register + busy + forbidden + summary.length;
    println!("sequences: {}, calls: {calls}", summary.sequences);
    println!("calls done: {}, accesses that came to done: {}", summary.done, summary.accesses);
    let kinds: Vec<String> = with(15).map(|(kind, all)| format!("{kind:?} {all}").to_lowercase()).collect();
    let kinds = kinds.join(", ");
    println!("calls refused with 15: {register} ({kinds}), with 16: {busy}, with 17: {forbidden}; status 2: {}", summary.length);
    // every answer and every kind of refusal was met, and accesses came to done
    let each_kind = summary.refused.len() == 8 && summary.refused.values().all(|&all| all >= 500);
    let met = each_kind && summary.length >= 500 && summary.accesses >= 5_000;
    let planned = all.iter().map(|case| case.sequence.calls.len() + usize::from(case.law != Law::Nothing)).sum::<usize>();
    summary.tests.close(planned + batches.len(), &[(met, "too few calls of some kind")], LEAST_PASSED);
}
