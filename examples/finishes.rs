// By when tasks that wait for tasks start and end, the whole way from their images: finishes IMAGE WAITS [IMAGE WAITS ..]
// Two words to a task: the file of its task image (bytes), and the indices of the earlier tasks that it waits for, with commas, or - for none.
// Its core is that of its image, and its time the image's tight figure.
// (Rust's library takes a standard output that is closed, or open for reading only, for one that takes everything, and lets no closed pipe end
// the program by a signal.)
use slotfigures::{figures, finishes, period, Refusal, Task, MOST_PLACES};
use std::ffi::{OsStr, OsString};
use std::fs::File;
use std::io::{Read, Write};
use std::os::unix::ffi::OsStrExt;
use std::process::ExitCode;

// A decimal number of 64 bits, without a sign.
fn number(word: &str) -> Option<usize> {
    word.parse().ok().filter(|_| !word.starts_with('+'))
}

// The waits of a task.
fn read_waits(waits: &OsStr) -> Option<Vec<usize>> {
    match waits.to_str()? {
        "-" => Some(Vec::new()),
        waits => waits.split(',').map(number).collect(),
    }
}

// What a task's image says: its core, its bus, which is the core that owns each offset below the period, and its tight figure.
struct Image {
    core: u8,
    bus: Vec<u8>,
    tight: u64,
}

// The core and the bus of an accepted image. Field 1 has tag 1, with cores, slot and core in bytes 3 to 5, or tag 9, with the core in byte 3 and then
// pairs of core and slot length; its length is in byte 2.
fn read_bus(image: &[u8]) -> (u8, Vec<u8>) {
    let slot = |core: u8, length: u8| vec![core; length.into()];
    if image[0] == 9 {
        let pairs = image[4..3 + usize::from(image[2])].chunks(2);
        (image[3], pairs.flat_map(|p| slot(p[0], p[1])).collect())
    } else {
        let cores = 0..image[3];
        (image[5], cores.flat_map(|c| slot(c, image[4])).collect())
    }
}

// The image in a file; or what is wrong with it.
fn read_image(file: &OsStr) -> Result<Image, String> {
    let refused = |r: Refusal| format!("refused {} {}", r.number, r.place);
    let mut image = Vec::new();
    File::open(file)
        .and_then(|f| f.take(16384 + 1).read_to_end(&mut image))
        .map_err(|_| "it cannot be read")?;
    if image.len() > 16384 {
        return Err("longer than 16384 bytes".into());
    }
    let tight = figures(&image, &mut [0; MOST_PLACES])
        .map_err(refused)?
        .tight;
    // The tight figure holds only for the starts that the image lists, and a task may start at any offset. An accepted image lists each start
    // once and below the period, so it lists every offset if field 2's length, two bytes with the high byte first, is the period. Field 2 stands
    // behind field 1, wherever that ends.
    let field_2 = 3 + usize::from(image[2]);
    let starts = u16::from_be_bytes([image[field_2 + 1], image[field_2 + 2]]);
    if usize::from(starts) != period(&image).map_err(refused)? {
        return Err("it does not list every offset as a start: its tight figure is no time".into());
    }
    let (core, bus) = read_bus(&image);
    Ok(Image { core, bus, tight })
}

// A line for each task, or the refusal, on standard output.
fn list(tasks: &[Task]) -> std::io::Result<()> {
    let mut out = std::io::stdout().lock();
    match finishes(tasks) {
        Err(r) => writeln!(out, "refused {} {}", r.number, r.place)?,
        Ok(ends) => {
            for (i, (task, end)) in tasks.iter().zip(ends).enumerate() {
                let (core, start) = (task.core, end - task.time);
                writeln!(
                    out,
                    "task {i} on core {core}: starts by {start}, ends by {end}"
                )?;
            }
        }
    }
    out.flush()
}

// The exit status, after a line on standard error; where that fails too, nothing more can be said.
fn told(status: u8, whose: &OsStr, what: &str) -> ExitCode {
    let line = [whose.as_bytes(), b": ", what.as_bytes(), b"\n"].concat();
    let _ = std::io::stderr().write_all(&line);
    status.into()
}

fn main() -> ExitCode {
    let words: Vec<OsString> = std::env::args_os().skip(1).collect();
    let read = words.chunks(2).map(|words| match words {
        [_, waits] => read_waits(waits),
        _ => None,
    });
    let read: Vec<Vec<usize>> = match read.collect() {
        Some(read) if !words.is_empty() => read,
        _ => return told(2, "usage".as_ref(), "finishes IMAGE WAITS [IMAGE WAITS ..]"),
    };
    let mut tasks = Vec::new();
    let mut first_bus = None;
    for (words, waits) in words.chunks(2).zip(&read) {
        let image = match read_image(&words[0]) {
            // all tasks run on one bus: each offset has the owner that it has in the first image
            Ok(image) if *first_bus.get_or_insert_with(|| image.bus.clone()) != image.bus => {
                return told(1, &words[0], "its bus is not that of the first image")
            }
            Ok(image) => image,
            Err(what) => return told(1, &words[0], &what),
        };
        tasks.push(Task {
            core: image.core.into(),
            time: image.tight,
            waits,
        });
    }
    match list(&tasks) {
        Ok(()) => ExitCode::SUCCESS,
        Err(_) => told(1, "standard output".as_ref(), "it cannot be written"),
    }
}
