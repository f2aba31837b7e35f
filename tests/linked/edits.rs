// The safe wrapper's edit and preview on cases from standard input, as edits.c has them, a line each: HEX NODE LOWEST HIGHEST PLACES. Writes the
// same line for each, or 'wrong ..'. Answers of other lengths the wrapper cannot lend; the image and the table are slices of longer arrays, of
// which the rest, and every place that a call may not write, is filled before it and compared after it.
mod digits;

use digits::{read_bytes, write_bytes};
use slotfigures::{edit, figures, period, preview, Refusal, NO_TIME};
use std::io::Read;

// Bytes behind the image and places behind the table.
const GUARD: usize = 32;

struct Case {
    // with the bytes behind it
    image: Vec<u8>,
    length: usize,
    node: u64,
    lowest: u64,
    highest: u64,
    places: usize,
}

fn read_case(line: &str) -> Case {
    let items: Vec<&str> = line.split(' ').collect();
    let number = |i: usize| items[i].parse::<u64>().expect("a number");
    let mut image = read_bytes(items[0]);
    let length = image.len();
    image.extend((0..GUARD as u8).map(|i| 0xa5 + i));
    Case {
        image,
        length,
        node: number(1),
        lowest: number(2),
        highest: number(3),
        places: number(4) as usize,
    }
}

fn filled(places: usize) -> Vec<u64> {
    let all = places as u64 + GUARD as u64;
    (0..all).map(|i| 0xa5a5_0000_0000_0000 + i).collect()
}

// A refusal as it is written, with its word compared.
fn refused(r: Refusal) -> Result<String, String> {
    let word = match r.number {
        18 => "lines",
        19 => "block",
        n => {
            let words = "cut tag full length value forward unfinished deep long table entry";
            words.split(' ').nth(n as usize - 1).expect("a word")
        }
    };
    match r.to_string() == format!("refused {} {} ({word})", r.number, r.place) {
        true => Ok(format!("1 {} {}", r.number, r.place)),
        false => Err(format!("words: {r}")),
    }
}

// Where the body of the node's field stands: fields follow each other from byte 0, and node 0 is the third.
fn body(image: &[u8], node: u64) -> Option<usize> {
    let mut at = 0;
    for field in 0.. {
        let length = u16::from_be_bytes(image.get(at + 1..at + 3)?.try_into().ok()?);
        if field >= 2 && field - 2 == node {
            return Some(at + 3);
        }
        at += 3 + usize::from(length);
    }
    None
}

// The line of a case, or what is wrong.
fn line(case: &Case) -> Result<String, String> {
    let (length, node, before) = (case.length, case.node, &case.image);
    let fail = |what: &str| Err(what.to_string());

    let mut image = before.clone();
    let edited = edit(&mut image[..length], node, case.lowest, case.highest);
    if image[length..] != before[length..] {
        return fail("edit: bytes behind the image");
    }
    if edited.is_err() && image != *before {
        return fail("edit: refused, and a byte is changed");
    }

    let old = before.clone();
    let lent = &old[..length];
    let mut table = filled(case.places);
    let places = &mut table[..case.places];
    let previewed = preview(lent, node, case.lowest, case.highest, places);
    if old != *before {
        return fail("preview: a byte of the image is changed");
    }
    let written = match previewed {
        Ok(_) => period(lent).map_err(|r| r.to_string())?,
        Err(_) => 0,
    };
    if table[written..] != filled(case.places)[written..] {
        return fail("preview: places of the table");
    }

    if edited.is_ok() {
        if period(&image[..length]) != period(lent) {
            return fail("the edited image is not accepted");
        }
        let mut fresh = filled(case.places);
        if figures(&image[..length], &mut fresh[..case.places]) != previewed || fresh != table {
            return fail("preview: other than the figures of the edited image");
        }
        let Some(at) = body(lent, node) else {
            return fail("edit: done, and there is no such node");
        };
        let duration = |at: usize| u16::from_be_bytes([before[at], before[at + 1]]).into();
        let mut back = image.clone();
        let done = edit(&mut back[..length], node, duration(at), duration(at + 2));
        if done.is_err() || back != *before {
            return fail("the edit back does not restore the image");
        }
    }

    let edited = edited.map_or_else(refused, |()| Ok("0 0 0".to_string()))?;
    let bytes = write_bytes(&image[..length]);
    let previewed = previewed.map_or_else(refused, |f| {
        let head = format!("0 {} {} {}", f.tight, f.published, f.exits);
        let exits = table[..written].iter().enumerate();
        Ok(exits
            .filter(|(_, time)| **time != NO_TIME)
            .fold(head, |line, (o, time)| format!("{line} {o}:{time}")))
    })?;
    Ok(format!("edit {edited} {bytes}; preview {previewed}"))
}

fn main() {
    let mut text = String::new();
    std::io::stdin()
        .read_to_string(&mut text)
        .expect("standard input");
    for case in text.lines() {
        match line(&read_case(case)) {
            Ok(line) => println!("{line}"),
            Err(what) => println!("wrong {what}"),
        }
    }
}
