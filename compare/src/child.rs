//! Runs the program under test with an input and takes what it writes.

use crate::report::Program;
use std::fs::File;
use std::io::{Read, Seek, Write};
use std::os::fd::OwnedFd;
use std::os::unix::net::UnixStream;
use std::process::{Child, Command, Stdio};
use std::sync::Mutex;
use std::thread::sleep;
use std::time::{Duration, Instant};

/// How the input reaches the program.
pub enum Feed {
    /// through a pipe, at once
    Whole,
    /// through a pipe, so many bytes at a time with a pause between
    Pieces { size: usize, pause: Duration },
    /// through a pipe; then these bytes again and again until nobody reads them
    Endless { again: Vec<u8> },
    /// through a pipe that stays open after it
    LeftOpen,
    /// from a file, of which no more than so many bytes may be read
    FromFile { most: u64 },
    /// nothing: an end of file at once
    Nothing,
    /// through a socket on which a read does not wait: once these bytes are read, a read fails
    Stalled,
    /// a folder: a read fails at once
    Folder,
}

impl Feed {
    /// Whether a read fails before so many bytes of this input are read.
    pub fn fails(&self, input: &[u8], most: usize) -> bool {
        match self {
            Feed::Stalled => input.len() < most,
            Feed::Folder => true,
            _ => false,
        }
    }
}

/// What the program wrote: to standard output, and to standard error.
pub struct Output {
    pub written: Vec<u8>,
    pub said: Vec<u8>,
}

/// The programs under way, one place for each thread; `watch` ends those that take longer than the limit.
pub struct Watched {
    limit: Duration,
    places: Vec<Mutex<Option<Running>>>,
}

struct Running {
    child: Child,
    since: Instant,
    ended_by_us: bool,
}

impl Watched {
    pub fn new(threads: usize, limit: Duration) -> Watched {
        Watched { limit, places: (0..threads).map(|_| Mutex::new(None)).collect() }
    }

    pub fn watch(&self) {
        for place in &self.places {
            if let Some(running) = place.lock().unwrap().as_mut() {
                if running.since.elapsed() > self.limit && !running.ended_by_us {
                    running.ended_by_us = running.child.kill().is_ok();
                }
            }
        }
    }
}

/// What the program wrote, or what went wrong.
pub fn run(program: &Program, input: &[u8], feed: &Feed, thread: usize, watched: &Watched) -> Result<Output, String> {
    let mut command = Command::new(&program.path);
    command.args(&program.words).stdout(Stdio::piped()).stderr(Stdio::piped());
    let mut file = None;
    let mut socket = None;
    match feed {
        Feed::Nothing => command.stdin(Stdio::null()),
        Feed::Folder => command.stdin(File::open("/").map_err(|error| format!("a folder for the input: {error}"))?),
        Feed::Stalled => {
            let (ours, theirs) = stalled(input).map_err(|error| format!("a socket for the input: {error}"))?;
            socket = Some(ours);
            command.stdin(OwnedFd::from(theirs))
        }
        Feed::FromFile { .. } => {
            let opened = temporary_file(input, thread).map_err(|error| format!("a file for the input: {error}"))?;
            let lent = opened.try_clone().map_err(|error| format!("a file for the input: {error}"))?;
            file = Some(opened);
            command.stdin(lent)
        }
        _ => command.stdin(Stdio::piped()),
    };
    let mut child = command.spawn().map_err(|error| format!("{}: {error}", program.path))?;
    let pipe = child.stdin.take();
    let (output, errors) = (child.stdout.take(), child.stderr.take());
    *watched.places[thread].lock().unwrap() = Some(Running { child, since: Instant::now(), ended_by_us: false });

    // a program that has read enough may end before all is written: a broken pipe is no fault
    let still_open = pipe.and_then(|pipe| write_input(pipe, input, feed));
    let (mut written, mut said) = (Vec::new(), Vec::new());
    if let (Some(output), Some(errors)) = (output, errors) {
        let _ = output.take(1 << 20).read_to_end(&mut written);
        let _ = errors.take(1 << 16).read_to_end(&mut said);
    }
    let (status, ended_by_us) = loop {
        let mut place = watched.places[thread].lock().unwrap();
        let running = place.as_mut().expect("the program that this thread started");
        if let Some(status) = running.child.try_wait().map_err(|error| error.to_string())? {
            let ended_by_us = running.ended_by_us;
            *place = None;
            break (status, ended_by_us);
        }
        drop(place);
        sleep(Duration::from_micros(50));
    };
    drop((still_open, socket));

    if ended_by_us {
        return Err(format!("did not end within {} s", watched.limit.as_secs()));
    }
    if status.code().is_none() {
        return Err(format!("ended by a signal: {status}"));
    }
    if let (Some(mut file), Feed::FromFile { most }) = (file, feed) {
        let read = file.stream_position().map_err(|error| error.to_string())?;
        if read > *most {
            return Err(format!("read {read} bytes, more than {most}"));
        }
    }
    Ok(Output { written, said })
}

/// Writes the input; a pipe that is to stay open is given back.
fn write_input(mut pipe: std::process::ChildStdin, input: &[u8], feed: &Feed) -> Option<std::process::ChildStdin> {
    match feed {
        Feed::Pieces { size, pause } => {
            for piece in input.chunks(*size) {
                if pipe.write_all(piece).and_then(|_| pipe.flush()).is_err() {
                    break;
                }
                sleep(*pause);
            }
        }
        Feed::Endless { again } => {
            let _ = pipe.write_all(input);
            while pipe.write_all(again).is_ok() {}
        }
        _ => {
            let _ = pipe.write_all(input);
        }
    }
    match feed {
        Feed::LeftOpen => Some(pipe),
        _ => None,
    }
}

/// Both ends of a socket: the second has these bytes to read, and does not wait for more.
fn stalled(bytes: &[u8]) -> std::io::Result<(UnixStream, UnixStream)> {
    let (mut ours, theirs) = UnixStream::pair()?;
    theirs.set_nonblocking(true)?;
    ours.write_all(bytes)?;
    Ok((ours, theirs))
}

/// A file with these bytes, at its beginning, and without a name.
fn temporary_file(bytes: &[u8], thread: usize) -> std::io::Result<File> {
    let path = std::env::temp_dir().join(format!("compare-{}-{thread}", std::process::id()));
    std::fs::write(&path, bytes)?;
    let file = File::open(&path);
    std::fs::remove_file(&path)?;
    file
}
