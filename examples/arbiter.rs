// How long accesses wait for their core's slot, by the arbiter as a device: arbiter [CORES SLOT CORE LENGTH]
// Writes a line for an access of LENGTH cycles of core CORE from each offset of a bus of CORES cores with slots of SLOT cycles; without words,
// for each access of document 01's starred tasks. The length is written at the offset, and ticks pass until done; the wait is what they are
// more than the length.
// (Rust's library takes a standard output that is closed, or open for reading only, for one that takes everything, and lets no closed pipe end
// the program by a signal.)
use slotfigures::{Arbiter, Core, Refusal, Workshop};
use std::ffi::OsString;
use std::io::Write;
use std::process::ExitCode;

// Accesses of document 01's starred tasks, on a bus of two cores with slots of 5 cycles: the core, the length and the offsets.
const STARRED: [(u64, u64, &[u64]); 3] = [
    (0, 2, &[0, 1, 2, 3, 4, 5, 6, 7, 8, 9]),
    (1, 2, &[4, 5, 8, 9]),
    (0, 5, &[0, 1]),
];

// A word that is a decimal number of 64 bits, without a sign.
fn number(word: OsString) -> Option<u64> {
    let word = word.to_str()?;
    word.parse().ok().filter(|_| !word.starts_with('+'))
}

// An arbiter at an offset of a bus.
fn at(cores: u64, slot: u64, offset: u64) -> Result<Arbiter, Refusal> {
    let arbiter = Arbiter::new(cores, slot)?;
    for _ in 0..offset {
        arbiter.workshop().tick()?;
    }
    Ok(arbiter)
}

// The ticks from the write of a length until it is done: the core calls for itself, and the workshop passes the cycles.
fn taken(core: Core, workshop: Workshop, length: u64) -> Result<u64, Refusal> {
    let mut ticks = 0;
    core.write(Arbiter::LENGTH, length)?;
    while core.read(Arbiter::FLAGS)? != Arbiter::DONE {
        workshop.tick()?;
        ticks += 1;
    }
    Ok(ticks)
}

// The line of an access.
fn line(cores: u64, slot: u64, core: u64, length: u64, offset: u64) -> Result<String, Refusal> {
    let arbiter = at(cores, slot, offset)?;
    let ticks = taken(arbiter.core(core)?, arbiter.workshop(), length)?;
    let wait = ticks - length;
    Ok(format!("core {core}, length {length}, from offset {offset}: waits {wait}, done after {ticks} ticks"))
}

fn starred() -> Result<Vec<String>, Refusal> {
    let all = STARRED.iter().flat_map(|(core, length, offsets)| {
        offsets.iter().map(move |o| line(2, 5, *core, *length, *o))
    });
    all.collect()
}

fn every_offset(cores: u64, slot: u64, core: u64, length: u64) -> Result<Vec<String>, Refusal> {
    Arbiter::new(cores, slot)?; // so the period is at most 256
    (0..cores * slot)
        .map(|offset| line(cores, slot, core, length, offset))
        .collect()
}

// The exit status, after a line on standard error; where that fails too, nothing more can be said.
fn told(status: u8, line: &str) -> ExitCode {
    let _ = writeln!(std::io::stderr(), "{line}");
    status.into()
}

fn main() -> ExitCode {
    let words: Option<Vec<u64>> = std::env::args_os().skip(1).map(number).collect();
    let lines = match words.as_deref() {
        Some([]) => starred(),
        Some([cores, slot, core, length]) => every_offset(*cores, *slot, *core, *length),
        _ => return told(2, "usage: arbiter [CORES SLOT CORE LENGTH]"),
    };
    let text = match lines {
        Ok(lines) => lines.join("\n"),
        Err(r) => format!("refused {} {}", r.number, r.place),
    };
    let mut out = std::io::stdout().lock();
    match writeln!(out, "{text}").and_then(|()| out.flush()) {
        Ok(()) => ExitCode::SUCCESS,
        Err(_) => told(1, "standard output: it cannot be written"),
    }
}
