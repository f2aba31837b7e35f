//! Compares the program `figure` with the reference, byte for byte, on many images and in several ways of giving an input.
//!
//! compare [--seed N] [--images N] [--threads N] [--limit SECONDS] [--seconds N] [--stop-after N] [PROGRAM [WORDS...]]
//!
//! --limit is the time that one run of the program may take, --seconds the time for all; --stop-after ends the comparison
//! after so many failures. The last line is 'N passed, M failed'; the exit status is 0 only if nothing failed and at least
//! 20,000 passed. A test that was not performed failed.

mod cases;
mod child;
mod generate;
mod image;
mod offsets;
mod reference;
mod report;
// single runs are for the task tables
#[allow(dead_code)]
mod runs;

use child::{Feed, Watched};
use generate::{has_entry, hexadecimal, moved, Case, Expected, NAMED, WRITTEN_OUT};
use image::MOST_BYTES;
use reference::{Lines, Named, Tested, Unequal, Way};
use report::{Failure, Options, Tests};
use std::collections::BTreeMap;
use std::sync::atomic::{AtomicBool, AtomicUsize, Ordering};
use std::sync::Mutex;
use std::time::{Duration, Instant};

/// Steps lent to the enumeration of one image's runs.
const STEPS: u64 = 400_000;
const LEAST_PASSED: usize = 20_000;

/// One test: an image, or a special way of giving an input.
struct Test {
    case: Case,
    feed: Feed,
}

/// What was met, over all tests.
#[derive(Default)]
struct Summary {
    tests: Tests,
    /// by refusal number
    refused: BTreeMap<u64, usize>,
    enumerated: usize,
    runs: u64,
    calculated: usize,
    unread: usize,
    /// accepted images with lines, and those of them whose published exit set has offsets at which no run ends
    with_lines: usize,
    wider: usize,
    /// accepted images with tag 9, those of them that have lines, and refused ones by number
    unequal: Unequal,
    unequal_with_lines: usize,
    unequal_refused: BTreeMap<u64, usize>,
    /// accepted images with tag 8, and refused ones by number
    named: Named,
    named_refused: BTreeMap<u64, usize>,
    /// accepted images that execute a loop
    tested: Tested,
    /// what the program wrote in each test, by its number
    written: BTreeMap<usize, String>,
    /// pairs of images that are one written either way, of those that are one without tag 8 and with it, and of those that are one with
    /// its loops and without: accepted and refused ones
    pairs: (usize, usize),
    named_pairs: (usize, usize),
    written_out: (usize, usize),
}

/// Ways of giving an input other than all at once through a pipe.
fn specials() -> Vec<Test> {
    let mut tests = Vec::new();
    let mut add = |category, image: &[u8], feed| {
        let case = Case { category, image: image.to_vec(), expected: Expected::Open, same_as: None };
        tests.push(Test { case, feed });
    };
    let pause = Duration::from_micros(400);
    let twice: Vec<u8> =
        [generate::bus(2, 5, 0), generate::starts(&[3, 5]), generate::bus_block(2, 2, 2), generate::sequence(&[0, 0])].concat();
    let refused = [twice.clone(), generate::plain(1, 0)].concat();
    let cut = twice[..twice.len() - 1].to_vec();
    let longest = cases::longest_image(cases::longest_schedule(), cases::longest_block(), 254);
    let closed = [longest.clone(), generate::entry(1)].concat();

    let named = [twice.clone(), generate::entry(0)].concat();
    for image in [&twice, &refused, &cut, &named] {
        for size in [1, 2, 3, 4, 5, 7, 11] {
            add("in pieces", image, Feed::Pieces { size, pause });
        }
        add("in pieces", image, Feed::Pieces { size: 10, pause: Duration::from_millis(40) });
    }
    for size in [97, 512, 1_000, 4_096, 8_192, 9_197, 9_259, 9_264] {
        add("in pieces", &longest, Feed::Pieces { size, pause });
        add("in pieces", &[&longest[..], &[3]].concat(), Feed::Pieces { size, pause });
        add("in pieces", &[&longest[..], &[3, 0, 4]].concat(), Feed::Pieces { size, pause });
        add("in pieces", &closed, Feed::Pieces { size, pause });
    }

    // an input without end: what is judged are its first 16,384 bytes
    add("endless", &[], Feed::Endless { again: vec![0; 4_096] });
    add("endless", &[], Feed::Endless { again: vec![1, 0, 3, 2, 5, 0] });
    add("endless", &twice, Feed::Endless { again: vec![255; 1_000] });
    add("endless", &twice, Feed::Endless { again: generate::plain(1, 2) });
    add("endless", &longest, Feed::Endless { again: generate::plain(1, 2) });
    add("endless", &longest, Feed::Endless { again: vec![9; 70_000] });
    add("endless", &closed, Feed::Endless { again: generate::entry(1) });
    // "reads at most 16,384 bytes": it does not wait for more
    add("left open", &vec![0; MOST_BYTES], Feed::LeftOpen);
    let mut full = longest.clone();
    full.resize(MOST_BYTES, 5);
    add("left open", &full, Feed::LeftOpen);

    for image in [&twice, &refused, &longest, &closed, &full] {
        add("from a file", image, Feed::FromFile { most: MOST_BYTES as u64 });
    }
    for size in [16_385, 20_000, 100_000] {
        full.resize(size, 6);
        add("from a file", &full, Feed::FromFile { most: MOST_BYTES as u64 });
    }

    // "`refused 7 0` for an empty input": no byte can be read in each of these
    add("no input", &[], Feed::Nothing);
    add("no input", &[], Feed::Pieces { size: 1, pause });
    add("no input", &[], Feed::FromFile { most: 0 });

    // a read that fails is not the end of the input; where 16,384 bytes are read before it, it does not come up
    add("a read fails", &[], Feed::Folder);
    for length in 0..=named.len() {
        add("a read fails", &named[..length], Feed::Stalled);
    }
    full.resize(MOST_BYTES, 6);
    for image in [&refused, &longest, &closed, &full[..MOST_BYTES - 1].to_vec(), &full] {
        add("a read fails", image, Feed::Stalled);
    }
    tests
}

/// The input that the program can read: for an endless one a beginning that is long enough.
fn readable(test: &Test) -> Vec<u8> {
    let mut input = test.case.image.clone();
    if let Feed::Endless { again } = &test.feed {
        while input.len() < MOST_BYTES {
            input.extend(again);
        }
    }
    input
}

/// Runs one test and enters it in the summary.
fn perform(number: usize, test: &Test, thread: usize, options: &Options, watched: &Watched, summary: &Mutex<Summary>) {
    let fails = test.feed.fails(&test.case.image, MOST_BYTES);
    let answer = if fails { reference::unread() } else { reference::answer(&readable(test), STEPS) };
    let by_hand = match (&test.case.expected, &answer.way) {
        (Expected::Open, _) => true,
        (Expected::Accepted, way) => !matches!(way, Way::Refused(_)),
        (Expected::Refused(expected), way) => matches!(way, Way::Refused(number) if number == expected),
        (Expected::Text(expected), _) => *expected == answer.text,
    };
    let got = child::run(&options.program, &test.case.image, &test.feed, thread, watched);

    let failure = |by_program, why, got: &str| {
        let input = ("image", hexadecimal(&test.case.image));
        Failure { by_program, why, input, expected: answer.text.clone(), got: got.to_string() }
    };
    let failed = if let Some(doubt) = &answer.doubt {
        Some(failure(false, "the reference contradicts itself", doubt))
    } else if !by_hand {
        Some(failure(false, "the reference differs from what was written by hand", ""))
    } else {
        match &got {
            Err(error) => Some(failure(true, "no answer", error)),
            Ok(output) if output.written != answer.text.as_bytes() => {
                Some(failure(true, "a difference", &String::from_utf8_lossy(&output.written)))
            }
            Ok(output) if fails && !output.said.ends_with(b"\n") => Some(failure(true, "no line says that a read failed", "")),
            Ok(output) if !fails && !output.said.is_empty() => {
                Some(failure(true, "something is said", &String::from_utf8_lossy(&output.said)))
            }
            Ok(_) => None,
        }
    };

    let mut summary = summary.lock().unwrap();
    summary.tests.tell(number, test.case.category, failed);
    summary.with_lines += usize::from(answer.lines != Lines::None);
    summary.wider += usize::from(answer.lines == Lines::Wider);
    let unequal = test.case.image.first() == Some(&9);
    if let Some(task) = &answer.task {
        summary.unequal.count(task);
        summary.unequal_with_lines += usize::from(unequal && answer.lines != Lines::None);
        summary.named.count(task);
        summary.tested.count(task);
    }
    if let Ok(output) = got {
        summary.written.insert(number, String::from_utf8_lossy(&output.written).into_owned());
    }
    match answer.way {
        Way::Refused(number) => {
            *summary.refused.entry(number).or_default() += 1;
            *summary.unequal_refused.entry(number).or_default() += usize::from(unequal);
            *summary.named_refused.entry(number).or_default() += usize::from(has_entry(&test.case.image));
        }
        Way::Enumerated { runs } => {
            summary.enumerated += 1;
            summary.runs += runs;
        }
        Way::Calculated => summary.calculated += 1,
        Way::Unread => summary.unread += 1,
    }
}

/// "An accepted image whose equal schedule is written either way gives equal answers", and so does one whose entry is named behind nodes
/// that it does not reach, and one whose loops are written out: what the program itself wrote for both; of refused ones the place moves. The
/// tests with images begin with this number.
fn compare_pairs(tests: &[Test], first: usize, summary: &mut Summary) {
    for (number, test) in tests.iter().enumerate() {
        let Some(other) = test.case.same_as.map(|other| first + other) else { continue };
        let (Some(one), Some(longer)) = (summary.written.get(&other), summary.written.get(&number)) else { continue };
        let expected = moved(one, tests[other].case.image.len(), test.case.image.len());
        let refused = expected.starts_with("refused");
        let (category, why, pairs) = match test.case.category {
            NAMED => ("pairs with tag 8", "another answer than to the image without tag 8", &mut summary.named_pairs),
            WRITTEN_OUT => ("pairs written out", "another answer than to the image with loops", &mut summary.written_out),
            _ => ("pairs either way", "another answer than to the image with tag 1", &mut summary.pairs),
        };
        pairs.0 += usize::from(!refused);
        pairs.1 += usize::from(refused);
        let failed = (expected != *longer).then(|| Failure {
            by_program: true,
            why,
            input: ("image", hexadecimal(&test.case.image)),
            expected,
            got: longer.clone(),
        });
        summary.tests.tell(number, category, failed);
    }
}

fn main() {
    let threads = std::thread::available_parallelism().map_or(2, |number| number.get()).min(8) as u64;
    let numbers = [
        ("--seed", 1),
        ("--images", 35_000),
        ("--threads", threads),
        ("--limit", 30),
        ("--seconds", 140),
        ("--stop-after", u64::MAX),
    ];
    let options = Options::new(&numbers, "crates/figure/out/figure");
    let (seed, threads) = (options.number("--seed"), options.size("--threads").max(1));
    let begun = Instant::now();
    let mut tests = specials();
    let first = tests.len();
    tests.extend(generate::all(seed, options.size("--images")).into_iter().map(|case| Test { case, feed: Feed::Whole }));

    let summary = Mutex::new(Summary::default());
    let watched = Watched::new(threads, Duration::from_secs(options.number("--limit")));
    let next = AtomicUsize::new(0);
    let finished = AtomicBool::new(false);
    std::thread::scope(|scope| {
        let workers: Vec<_> = (0..threads)
            .map(|thread| {
                let (tests, next, options, watched, summary) = (&tests, &next, &options, &watched, &summary);
                scope.spawn(move || loop {
                    let number = next.fetch_add(1, Ordering::Relaxed);
                    let out_of_time = begun.elapsed().as_secs() >= options.number("--seconds");
                    let failures = summary.lock().map_or(0, |summary| summary.tests.failed());
                    if number >= tests.len() || out_of_time || failures >= options.size("--stop-after") {
                        break;
                    }
                    perform(number, &tests[number], thread, options, watched, summary);
                })
            })
            .collect();
        scope.spawn(|| {
            while !finished.load(Ordering::Relaxed) {
                watched.watch();
                std::thread::sleep(Duration::from_millis(50));
            }
        });
        let ends: Vec<_> = workers.into_iter().map(|worker| worker.join()).collect();
        finished.store(true, Ordering::Relaxed);
        if ends.iter().any(|end| end.is_err()) {
            println!("a thread of the comparison broke off");
        }
    });

    let mut summary = summary.into_inner().unwrap_or_else(|broken| broken.into_inner());
    compare_pairs(&tests, first, &mut summary);
    summary.tests.show(&format!("seed {seed}, {threads} threads, {:.1} s", begun.elapsed().as_secs_f64()));
    println!("accepted: {} enumerated in {} runs, {} by calculation", summary.enumerated, summary.runs, summary.calculated);
    println!("accepted with lines: {}, of them with published exits at which no run ends: {}", summary.with_lines, summary.wider);
    let by_number = |refused: &BTreeMap<u64, usize>| {
        let all: Vec<String> = refused.iter().map(|(number, all)| format!("{number}: {all}")).collect();
        all.join(", ")
    };
    println!("refused by number: {}", by_number(&summary.refused));
    println!("accepted with tag 9: {}; with lines: {}", summary.unequal, summary.unequal_with_lines);
    println!("refused with tag 9 by number: {}", by_number(&summary.unequal_refused));
    println!("accepted with tag 8: {}", summary.named);
    println!("refused with tag 8 by number: {}", by_number(&summary.named_refused));
    println!("accepted with loops: {}", summary.tested);
    println!("pairs written either way: {} accepted, {} refused", summary.pairs.0, summary.pairs.1);
    println!("pairs without and with tag 8: {} accepted, {} refused", summary.named_pairs.0, summary.named_pairs.1);
    println!("pairs with loops and written out: {}", summary.written_out.0);
    println!("not read whole: {}", summary.unread);
    // every answer of the papers that `figure` can give was met, and runs were enumerated; many images have lines, and many of these show
    // whose exits are counted, and still more have none; many have slots of unequal length, of every kind, and as many have not; many have
    // their entry named, of every kind, and still more have not; many have loops with tests of every kind. Where a field with tag 8
    // stands, 7 cannot hold.
    let each = |refused: &BTreeMap<u64, usize>, but: u64| {
        let mut numbers = (1..=9).chain([11, 18]).filter(|&number| number != but);
        numbers.all(|number| refused.get(&number).copied().unwrap_or(0) >= 10)
    };
    let each_refusal = each(&summary.refused, 0) && each(&summary.unequal_refused, 0) && each(&summary.named_refused, 7);
    let accepted = summary.enumerated + summary.calculated;
    let lines = summary.with_lines >= 1_000 && summary.wider >= 500 && summary.with_lines * 2 <= accepted;
    let unequal = summary.unequal.met(50) && summary.unequal.all >= 2_000 && summary.unequal.all * 3 <= accepted * 2;
    let schedules = unequal && summary.unequal_with_lines >= 500 && summary.pairs.0 >= 300 && summary.pairs.1 >= 300;
    let named = summary.named.met(50) && summary.named.not_last >= 1_000 && summary.named.all * 2 <= accepted;
    let entries = named && summary.named_pairs.0 >= 300 && summary.named_pairs.1 >= 30;
    let tested = summary.tested.busy >= 1_000 && summary.tested.met(200) && summary.written_out.0 >= 200;
    let ways = summary.enumerated >= 500 && summary.calculated >= 100 && summary.unread >= 20;
    let met = each_refusal && lines && schedules && entries && tested && ways;
    let pairs = tests.iter().filter(|test| test.case.same_as.is_some()).count();
    summary.tests.close(tests.len() + pairs, &[(met, "too few images of some kind")], LEAST_PASSED);
}
