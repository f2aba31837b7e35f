// What both figures would be if a plain block had other durations: previews IMAGE NODE LOWEST HIGHEST [LOWEST HIGHEST ..]
// IMAGE is the file of a task image (bytes), which stays as it is, and NODE the block's number, counted from 0. Writes a line for the image as
// it is, and one for each pair of durations; a pair that is refused does not keep the next from being tried.
// (Rust's library takes a standard output that is closed, or open for reading only, for one that takes everything, and lets no closed pipe end
// the program by a signal.)
use slotfigures::{figures, preview, Figures, Refusal, MOST_PLACES};
use std::ffi::{OsStr, OsString};
use std::fs::File;
use std::io::{Read, Write};
use std::os::unix::ffi::OsStrExt;
use std::process::ExitCode;

// A word that is a decimal number of 64 bits, without a sign.
fn number(word: &OsString) -> Option<u64> {
    let word = word.to_str()?;
    word.parse().ok().filter(|_| !word.starts_with('+'))
}

// The image in a file; or what is wrong with the file.
fn read_image(file: &OsStr) -> Result<Vec<u8>, &'static str> {
    let mut image = Vec::new();
    File::open(file)
        .and_then(|f| f.take(16384 + 1).read_to_end(&mut image))
        .map_err(|_| "it cannot be read")?;
    match image.len() {
        0..=16384 => Ok(image),
        _ => Err("longer than 16384 bytes"),
    }
}

// The rest of a line: both figures, or the refusal.
fn listed(given: Result<Figures, Refusal>) -> String {
    match given {
        Ok(f) => format!("tight {}, published {}", f.tight, f.published),
        Err(r) => format!("refused {} {}", r.number, r.place),
    }
}

// A line for the image as it is and one for each pair of durations, on standard output.
fn list(image: &[u8], node: u64, durations: &[u64]) -> std::io::Result<()> {
    let mut out = std::io::stdout().lock();
    let mut table = [0; MOST_PLACES];
    writeln!(out, "as it is: {}", listed(figures(image, &mut table)))?;
    for pair in durations.chunks(2) {
        let (lowest, highest) = (pair[0], pair[1]);
        let given = listed(preview(image, node, lowest, highest, &mut table));
        writeln!(out, "{lowest} to {highest}: {given}")?;
    }
    out.flush()
}

// The exit status, after a line on standard error; where that fails too, nothing more can be said.
fn told(status: u8, whose: &OsStr, what: &str) -> ExitCode {
    let line = [whose.as_bytes(), b": ", what.as_bytes(), b"\n"].concat();
    let _ = std::io::stderr().write_all(&line);
    status.into()
}

fn main() -> ExitCode {
    let words: Vec<OsString> = std::env::args_os().skip(1).collect();
    let numbers: Option<Vec<u64>> = words.iter().skip(1).map(number).collect();
    let (node, durations) = match numbers.as_deref() {
        Some([node, rest @ ..]) if !rest.is_empty() && rest.len() % 2 == 0 => (*node, rest),
        _ => {
            let usage = "previews IMAGE NODE LOWEST HIGHEST [LOWEST HIGHEST ..]";
            return told(2, "usage".as_ref(), usage);
        }
    };
    let image = match read_image(&words[0]) {
        Ok(image) => image,
        Err(what) => return told(1, &words[0], what),
    };
    match list(&image, node, durations) {
        Ok(()) => ExitCode::SUCCESS,
        Err(_) => told(1, "standard output".as_ref(), "it cannot be written"),
    }
}
