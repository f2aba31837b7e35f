//! Runs the program under test on a batch of lines and hands on what it writes, line by line.

use crate::report::{Failure, Program};
use std::io::{BufRead, BufReader, Read, Write};
use std::process::{Command, Stdio};
use std::sync::atomic::{AtomicBool, AtomicUsize, Ordering};
use std::sync::Mutex;
use std::thread::sleep;
use std::time::{Duration, Instant};

/// Bytes of an output that are read, and the time that a run may take.
const MOST_BYTES: u64 = 1 << 24;
const LIMIT: Duration = Duration::from_secs(30);

/// Gives `each` the number of every batch, on so many threads, until it is stopped; for edits and sequences of calls.
#[allow(dead_code)]
pub fn on_threads(threads: usize, batches: usize, stopped: &(dyn Fn() -> bool + Sync), each: &(dyn Fn(usize) + Sync)) {
    let next = AtomicUsize::new(0);
    std::thread::scope(|scope| {
        for _ in 0..threads {
            scope.spawn(|| loop {
                let which = next.fetch_add(1, Ordering::Relaxed);
                if which >= batches || stopped() {
                    break;
                }
                each(which);
            });
        }
    });
}

/// Gives the program these lines and `each` what it answers, with the number of the line; false from it ends the program, and there is
/// no answer then. The answer is what failed in the run itself: it has a line for each line and no more, and a good end.
pub fn run(
    program: &Program,
    (name, inputs): (&'static str, &[String]),
    each: &mut dyn FnMut(usize, &str) -> bool,
) -> Option<Option<Failure>> {
    let (mut lines, mut ended_by_us) = (0, false);
    let ended = lines_of(program, &(inputs.join("\n") + "\n"), &mut |line| {
        ended_by_us = lines < inputs.len() && !each(lines, &String::from_utf8_lossy(line));
        lines += 1;
        lines <= inputs.len() && !ended_by_us
    });
    if ended_by_us {
        return None;
    }
    Some((lines != inputs.len() || ended.is_err()).then(|| Failure {
        by_program: true,
        why: "another number of lines, or a bad end",
        input: (name, inputs.get(lines).cloned().unwrap_or_default()),
        expected: format!("{} lines", inputs.len()),
        got: format!("{lines} lines; {}", ended.err().unwrap_or_default()),
    }))
}

/// What failed where the second reading expects this line: it contradicts itself, it differs from what was written by hand, or the
/// program's line is another.
pub fn compared(
    input: (&'static str, String),
    doubt: &Option<String>,
    by_hand: &str,
    expected: &str,
    line: &str,
) -> Option<Failure> {
    let (by_program, why, expected, got) = if let Some(doubt) = doubt {
        (false, "the second reading contradicts itself", expected, doubt.as_str())
    } else if expected != by_hand {
        (false, "the second reading differs from what was written by hand", by_hand, expected)
    } else if line != expected {
        (true, "a difference", expected, line)
    } else {
        return None;
    };
    Some(Failure { by_program, why, input, expected: expected.to_string(), got: got.to_string() })
}

/// Gives `each` every line that the program writes for this input, without its line feed; false from it ends the program. The
/// answer is what went wrong with the program itself, which ends within the limit and by itself, with status 0.
fn lines_of(program: &Program, input: &str, each: &mut dyn FnMut(&[u8]) -> bool) -> Result<(), String> {
    let mut command = Command::new(&program.path);
    command.args(&program.words).stdin(Stdio::piped()).stdout(Stdio::piped());
    let mut child = command.spawn().map_err(|error| format!("{}: {error}", program.path))?;
    let (pipe, output) = (child.stdin.take(), child.stdout.take());
    let child = Mutex::new(child);
    let ended_by_us = AtomicBool::new(false);
    let finished = AtomicBool::new(false);
    let end = || {
        ended_by_us.store(true, Ordering::Relaxed);
        let _ = child.lock().unwrap().kill();
    };
    let begun = Instant::now();
    let status = std::thread::scope(|scope| {
        // the input is written beside, or both sides could wait for each other; a broken pipe shows in the lines that are missing
        scope.spawn(move || pipe.map(|mut pipe| pipe.write_all(input.as_bytes())));
        scope.spawn(|| {
            while !finished.load(Ordering::Relaxed) {
                if begun.elapsed() > LIMIT {
                    end();
                    break;
                }
                sleep(Duration::from_millis(10));
            }
        });
        if let Some(output) = output {
            let mut output = BufReader::new(output.take(MOST_BYTES));
            let mut line = Vec::new();
            while matches!(output.read_until(b'\n', &mut line), Ok(read) if read > 0) {
                // what has no line feed is no line
                let Some(whole) = line.strip_suffix(b"\n") else { break };
                if !each(whole) {
                    end();
                    break;
                }
                line.clear();
            }
        }
        let status = loop {
            match child.lock().unwrap().try_wait() {
                Ok(Some(status)) => break Ok(status),
                Ok(None) => {}
                Err(error) => break Err(error.to_string()),
            }
            sleep(Duration::from_micros(200));
        };
        finished.store(true, Ordering::Relaxed);
        status
    })?;
    if begun.elapsed() > LIMIT {
        return Err(format!("did not end within {} s", LIMIT.as_secs()));
    }
    if !ended_by_us.load(Ordering::Relaxed) && !status.success() {
        return Err(format!("ended badly: {status}"));
    }
    Ok(())
}
