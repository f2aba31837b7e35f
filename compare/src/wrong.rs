//! Behaves like `figure`, or with `--tables` like tests/linked/tables.c, with `--edits` like tests/linked/edits.c and with `--arbiter`
//! like tests/linked/arbiter.c; with `--fault NAME` it has that one fault of wrong/faults.txt. It shares no code with the reference.
//!
//! wrong [--tables | --edits | --arbiter] [--fault NAME]

mod wrong_arbiter;
mod wrong_edits;
mod wrong_tables;

use std::collections::{BTreeMap, BTreeSet};
use std::io::{BufRead, BufWriter, Read, Write};
use std::process::{abort, exit};

const FAULTS: &str = include_str!("../wrong/faults.txt");

/// What a fault makes of a test alone: its accesses do not wait, its loops have no tests.
const NO_WAIT: &str = "waitless";
const NO_TESTS: &str = "testless";

/// Without a name it is none.
#[derive(Default)]
struct Fault(String);

impl Fault {
    fn is(&self, name: &str) -> bool {
        self.0 == name
    }
}

#[derive(Clone)]
struct Node {
    tag: u8,
    place: usize,
    /// kind of a bus block
    kind: u8,
    /// line and hit time of a block with tag 10
    line: u64,
    hit: u64,
    /// what a fault let through until the entry reaches it
    refusal: Option<Refusal>,
    /// durations, or counts of a loop
    low: u64,
    high: u64,
    /// of a loop its body and its test
    children: Vec<usize>,
}

impl Node {
    /// A loop's body and test.
    fn parts(&self) -> [Option<usize>; 2] {
        [0, 1].map(|part| self.children.get(part).copied())
    }
}

#[derive(Clone, Default)]
struct Image {
    period: u64,
    /// the longest access: the slot length of tag 1
    slot: u64,
    core: u64,
    /// with tag 9, for each cycle of the period the number of the core's stretch that it belongs to, or none
    stretches: Vec<Option<usize>>,
    starts: Vec<u64>,
    nodes: Vec<Node>,
    /// the number in tag 8, where there is one
    named: Option<u64>,
    entry: usize,
}

/// Of offsets, of lines, or of node numbers.
type Set = BTreeSet<u64>;
/// An offset and the lines fetched.
type State = (u64, Set);
type Times = BTreeMap<State, u64>;
/// Offsets with their times, as they are listed.
type Exits = BTreeMap<u64, u64>;
type Refusal = (u64, usize);

fn main() {
    let mut words: Vec<String> = std::env::args().skip(1).collect();
    // what is tried: task tables, edits, the arbiter, or images
    let kind = match words.first().map(String::as_str) {
        Some("--tables") => "tasks-",
        Some("--edits") => "edits-",
        Some("--arbiter") => "arbiter-",
        _ => "",
    };
    words.drain(..usize::from(!kind.is_empty()));
    // a name that the list has, of the kind that is asked for
    let known = |name: &str| {
        let listed = FAULTS.lines().any(|line| line.starts_with(&format!("{name}: ")));
        let of = ["tasks-", "edits-", "arbiter-"].into_iter().find(|kind| name.starts_with(kind));
        listed && of.unwrap_or("") == kind
    };
    let fault = match &words[..] {
        [] => Fault::default(),
        [option, name] if option == "--fault" && known(name) => Fault(name.clone()),
        _ => {
            eprintln!("wrong [--tables | --edits | --arbiter] [--fault NAME]");
            exit(2)
        }
    };
    match kind {
        "tasks-" => return wrong_tables::run(&fault),
        "edits-" => return wrong_edits::run(&fault),
        "arbiter-" => return wrong_arbiter::run(&fault),
        _ => {}
    }
    let input = read_input(&fault);
    let text = match judge(&fault, &input) {
        Ok(image) => figures(&fault, &image),
        Err((number, place)) => format!("refused {} {place}\n", if fault.is("cut-to-all") { 1 } else { number }),
    };
    let text = if fault.is("no-last-line-feed") { text.trim_end() } else { &text };
    let _ = std::io::stdout().write_all(text.as_bytes());
    let _ = std::io::stdout().flush();
    if fault.is("killed-after") {
        abort();
    }
}

/// What is said to a line: a line or nothing; the program is killed, or ends because it cannot read it.
enum Said {
    Line(String),
    Nothing,
    Killed,
    Wrong,
}

/// Answers each line of the input. At its end the last line feed is missing, there is a line too many, the status is bad.
fn answer_lines([no_last_line_feed, line_too_many, bad_status]: [bool; 3], answer: &dyn Fn(&str) -> Said) {
    let mut output = BufWriter::new(std::io::stdout().lock());
    let mut first = true;
    for line in std::io::stdin().lock().lines() {
        match line.map_or(Said::Wrong, |line| answer(&line)) {
            // a line feed goes before each line but the first, so that the last can be left out
            Said::Line(answer) => {
                if write!(output, "{}{answer}", if first { "" } else { "\n" }).is_err() {
                    break;
                }
                first = false;
            }
            Said::Nothing => {}
            Said::Killed => {
                let _ = output.flush();
                abort();
            }
            Said::Wrong => {
                let _ = writeln!(output, "wrong: not read");
                let _ = output.flush();
                exit(1)
            }
        }
    }
    if !first && !no_last_line_feed {
        let _ = writeln!(output);
    }
    if line_too_many {
        let _ = writeln!(output);
    }
    let _ = output.flush();
    if bad_status {
        exit(1);
    }
}

fn read_input(fault: &Fault) -> Vec<u8> {
    let most = match fault.0.as_str() {
        "stops-at-9198" => 9_198,
        "stops-at-9260" => 9_260,
        "stops-at-9265" => 9_265,
        _ => 16_384,
    };
    let mut buffer = vec![0; most];
    let mut filled = 0;
    // standard input is read directly, without a buffer that would read more
    let mut input = input_file();
    while filled < most {
        match input.read(&mut buffer[filled..]) {
            Ok(0) => break,
            Ok(read) => filled += read,
            Err(_) if fault.is("failed-read-ends") => break,
            Err(_) if fault.is("failed-read-unsaid") => exit(0),
            Err(_) if fault.is("failed-read-empty") => return Vec::new(),
            Err(error) => {
                eprintln!("standard input: {error}");
                exit(0)
            }
        }
        if fault.is("first-piece") {
            break;
        }
    }
    if fault.is("reads-on") {
        let mut rest = [0; 4_096];
        while matches!(input.read(&mut rest), Ok(read) if read > 0) {}
    }
    buffer.truncate(filled);
    buffer
}

fn input_file() -> std::fs::File {
    use std::os::unix::io::AsFd;
    let input = std::io::stdin().as_fd().try_clone_to_owned();
    std::fs::File::from(input.expect("standard input"))
}

fn two_bytes(fault: &Fault, bytes: &[u8]) -> u64 {
    if fault.is("low-byte-first") {
        bytes[1] as u64 * 256 + bytes[0] as u64
    } else {
        bytes[0] as u64 * 256 + bytes[1] as u64
    }
}

/// The refusals within a field, after its head is known to be whole.
#[derive(Clone, Copy)]
enum Check {
    Tag,
    Full,
    Length,
    Cut,
    Value,
    Forward,
    Entry,
}

/// Whether a field with this tag may be that of a node.
fn node_tag(fault: &Fault, tag: u8) -> bool {
    match tag {
        3..=7 => true,
        9 => fault.is("tags-to-10"),
        10 => !fault.is("tag-10-refused"),
        11 => fault.is("tag-11-accepted"),
        _ => false,
    }
}

/// Whether a field with this tag may stand behind the starts.
fn later_tag(fault: &Fault, image: &Image, tag: u8) -> bool {
    if image.named.is_some() {
        return match fault.0.as_str() {
            "entry-then-node" => node_tag(fault, tag),
            "entry-twice" | "entry-twice-first" => tag == 8,
            _ => false,
        };
    }
    match tag {
        8 if image.nodes.is_empty() => fault.is("entry-before-nodes") || fault.is("entry-before-nodes-is-11"),
        8 => !fault.is("tag-8-refused"),
        9 if fault.is("schedule-passed-over") => true,
        _ => node_tag(fault, tag),
    }
}

fn judge(fault: &Fault, bytes: &[u8]) -> Result<Image, Refusal> {
    use Check::*;
    let order = match fault.0.as_str() {
        "full-before-tag" => [Full, Tag, Length, Cut, Value, Forward, Entry],
        "length-before-full" => [Tag, Length, Full, Cut, Value, Forward, Entry],
        "cut-before-length" => [Tag, Full, Cut, Length, Value, Forward, Entry],
        "value-before-cut" => [Tag, Full, Length, Value, Cut, Forward, Entry],
        "forward-before-value" => [Tag, Full, Length, Cut, Forward, Value, Entry],
        "entry-before-cut" => [Tag, Full, Length, Entry, Cut, Value, Forward],
        "entry-before-length" => [Tag, Full, Entry, Length, Cut, Value, Forward],
        _ => [Tag, Full, Length, Cut, Value, Forward, Entry],
    };
    let mut image = Image::default();
    let mut place = 0;
    let mut number = 0;
    while place < bytes.len() {
        let rest = &bytes[place..];
        let shown = match fault.0.as_str() {
            "place-after-head" => place + 3,
            "place-behind-tag-1" if place > 0 && bytes[0] == 9 => place + 3 - bytes[2] as usize,
            _ => place,
        };
        let tag = rest[0];
        let tag_good = match number {
            0 => tag == 1 && !fault.is("tag-1-refused") || tag == 9 && !fault.is("tag-9-refused"),
            1 if tag == 1 || tag == 9 => fault.is("second-schedule"),
            1 => tag == 2 || fault.is("second-tag-free") && node_tag(fault, tag),
            _ => later_tag(fault, &image, tag),
        };
        let closed = image.named.is_some();
        if closed && fault.is("entry-behind-unjudged") {
            break;
        }
        if rest.len() < 3 {
            if fault.is("trailing-ignored") && !image.nodes.is_empty() || fault.is("entry-trailing-ignored") && closed {
                break;
            }
            if fault.is("entry-trailing-is-tag") && closed {
                return Err((2, shown));
            }
            if fault.is("trailing-unfinished") {
                return Err((7, bytes.len()));
            }
            return Err((if fault.is("tag-before-head-cut") && !tag_good { 2 } else { 1 }, shown));
        }
        let length = two_bytes(fault, &rest[1..]) as usize;
        // a cut body is filled up, so that it can be judged in another order
        let mut body: Vec<u8> = rest[3..].iter().copied().take(length).collect();
        let there = body.len();
        body.resize(length.max(8), 0);
        let nodes_most = match fault.0.as_str() {
            "node-256-refused" => 255,
            "node-257-accepted" => 257,
            _ => 256,
        };
        let mut put_off = None;
        if tag == 9 && number == 0 && there < length && fault.is("schedule-cut-unfinished") {
            return Err((7, bytes.len()));
        }
        if tag == 8 && tag_good && there < length && fault.is("entry-cut-passed-over") {
            break;
        }
        for check in order {
            let (refusal, holds) = match check {
                Tag if closed && node_tag(fault, tag) => match fault.0.as_str() {
                    "entry-then-full" if image.nodes.len() == 256 => (3, true),
                    "entry-then-length" if !length_good(fault, tag, length) => (4, true),
                    _ => (2, !tag_good),
                },
                Tag => (2, !tag_good),
                Full if tag == 10 && fault.is("fetch-257-accepted") => (3, false),
                Full if tag == 8 && !fault.is("entry-counts-as-node") => (3, false),
                Full => (3, number >= 2 && image.nodes.len() >= nodes_most),
                Length => (4, !length_good(fault, tag, length)),
                Cut => (1, there < length),
                Value if tag == 9 && fault.is("schedule-value-as-length") => (4, !schedule_good(fault, &body, length)),
                Value if tag == 7 && early_child_bad(fault, &image, &body, length) => (6, true),
                Value => (5, !value_good(fault, &image, tag, &body[..length.max(8)], length)),
                Forward => (6, !children_good(fault, &image, tag, &body, length)),
                Entry => (11, tag == 8 && !fault.is("entry-judged-at-end") && !entry_good(fault, &image, &body, length)),
            };
            if holds && refusal == 11 {
                return Err(entry_refusal(fault, &image, shown, bytes.len()));
            }
            if holds && refusal >= 5 && number >= 2 && (fault.is("unreached-unjudged") || fault.is("above-entry-unjudged")) {
                put_off = put_off.or(Some((refusal, shown)));
            } else if holds && refusal == 5 && tag == 9 && fault.is("schedule-place-of-pair") {
                return Err((refusal, shown + 4 + 2 * bad_pair(&body, length)));
            } else if holds && refusal == 6 && tag == 7 && fault.is("test-as-value") && test_bad(&image, &body, length) {
                return Err((5, shown));
            } else if holds && refusal == 6 && tag == 7 && fault.is("test-place-of-number") && test_bad(&image, &body, length) {
                return Err((refusal, shown + 9));
            } else if holds {
                return Err((refusal, shown));
            }
        }
        let kind = body[0];
        match tag {
            1 => {
                image.slot = body[1].into();
                image.period = u64::from(body[0]) * image.slot;
                image.core = body[2].into();
                image.stretches.clear();
            }
            9 if number >= 2 => {}
            8 if image.nodes.is_empty() || closed && fault.is("entry-twice-first") => {}
            8 => image.named = Some(entry_number(fault, &body, length)),
            9 => own_stretches(fault, &mut image, &body, length),
            2 => image.starts = body[..length].iter().map(|&start| start.into()).collect(),
            _ => {
                let (low, high) = match tag {
                    4 | 10 => (body[1].into(), body[2].into()),
                    7 => counts(fault, &body),
                    _ => (two_bytes(fault, &body), two_bytes(fault, &body[2..])),
                };
                let own = image.nodes.len();
                let mut children: Vec<usize> = named(fault, tag, &body, length).iter().map(|&child| child as usize).collect();
                if put_off.is_some() {
                    children.retain(|&child| child < own);
                }
                let hit = match fault.0.as_str() {
                    "hit-low-byte-first" => body[4] as u64 * 256 + body[3] as u64,
                    "hit-in-a-byte" => body[4].into(),
                    _ => two_bytes(fault, &body[3..]),
                };
                image.nodes.push(Node { tag, place, kind, line: kind.into(), hit, refusal: put_off, low, high, children });
                if fault.is("lines-at-the-field") && wide(fault, &image, &Set::new()) {
                    return Err((18, place));
                }
            }
        }
        place += match tag {
            9 if fault.is("starts-at-6") => 6,
            7 if fault.is("loop-of-9-bytes") => 9,
            _ => 3 + length,
        };
        // a second field 1, which a fault let through, stands in place of the first
        number += usize::from(number != 1 || tag != 1 && tag != 9);
    }
    if image.nodes.is_empty() {
        return Err((7, if fault.is("place-of-unfinished") { 0 } else { bytes.len() }));
    }
    let absent = |node: &&Node| node.tag == 7 && node.parts()[1].is_some_and(|test| test >= image.nodes.len());
    if let (Some(node), true) = (image.nodes.iter().find(absent), fault.is("test-judged-at-end")) {
        return Err((6, node.place));
    }
    if image.starts.is_empty() {
        image.starts.push(0);
    }
    if image.named.is_some_and(|named| named >= image.nodes.len() as u64) && fault.is("entry-judged-at-end") {
        return Err((11, bytes.len() - 5));
    }
    image.entry = entry_of(fault, &image);
    let mut reached: Set = [image.entry as u64].into_iter().collect();
    for number in (0..image.nodes.len()).rev() {
        if reached.contains(&(number as u64)) {
            reached.extend(image.nodes[number].children.iter().map(|&child| child as u64));
        }
    }
    let put_off = image.nodes.iter().enumerate().filter(|(number, _)| match fault.0.as_str() {
        "above-entry-unjudged" => *number <= image.entry,
        _ => reached.contains(&(*number as u64)),
    });
    if let Some(refusal) = put_off.filter_map(|(_, node)| node.refusal).next() {
        return Err(refusal);
    }
    // the field with tag 8 left out
    let before = bytes.len() - if image.named.is_some() { 5 } else { 0 };
    let place = match fault.0.as_str() {
        "place-of-entry" => image.nodes[image.entry].place,
        "place-of-entry-field" => before,
        _ => bytes.len(),
    };
    let (deep, long, wide) = (deep(fault, &image), long(fault, &image), wide(fault, &image, &reached));
    let lines = (
        match fault.0.as_str() {
            "lines-as-value" => 5,
            "lines-as-table" => 10,
            _ => 18,
        },
        match fault.0.as_str() {
            "lines-place-0" => 0,
            "lines-place-entry" => image.nodes[image.entry].place,
            "lines-place-entry-field" => before,
            "lines-place-node" => {
                image.nodes.iter().filter(|node| node.tag == 10).max_by_key(|node| node.line).map_or(0, |node| node.place)
            }
            _ => bytes.len(),
        },
    );
    let order = match fault.0.as_str() {
        "long-before-deep" => [(long, (9, place)), (deep, (8, place)), (wide, lines)],
        "lines-before-long" => [(deep, (8, place)), (wide, lines), (long, (9, place))],
        "lines-before-deep" => [(wide, lines), (deep, (8, place)), (long, (9, place))],
        _ => [(deep, (8, place)), (long, (9, place)), (wide, lines)],
    };
    order.into_iter().find(|(holds, _)| *holds).map_or(Ok(image), |(_, refusal)| Err(refusal))
}

/// The number in tag 8.
fn entry_number(fault: &Fault, body: &[u8], length: usize) -> u64 {
    match fault.0.as_str() {
        "entry-in-a-byte" => body[1].into(),
        "entry-of-high-byte" => body[0].into(),
        "entry-low-byte-first" => body[1] as u64 * 256 + body[0] as u64,
        "entry-length-1" if length == 1 => body[0].into(),
        _ => two_bytes(fault, body),
    }
}

/// Whether the number in tag 8 counts as that of a node.
fn entry_good(fault: &Fault, image: &Image, body: &[u8], length: usize) -> bool {
    let (number, count) = (entry_number(fault, body, length), image.nodes.len() as u64);
    let node = image.nodes.get(number as usize);
    let named = |other: &Node| other.children.contains(&(number as usize));
    match fault.0.as_str() {
        "entry-before-nodes" if count == 0 => true,
        "entry-count-accepted" => number <= count,
        "entry-unjudged" => true,
        "entry-below-256" => number < 256,
        "entry-256-accepted" => number < count || number == 256,
        "entry-65535-accepted" => number < count || number == 65_535,
        "entry-0-refused" => number > 0 && number < count,
        "entry-last-refused" => number + 1 < count,
        "entry-255-refused" => number < count && number != 255,
        "entry-other-refused" => number + 1 == count,
        "entry-block-refused" => node.is_some_and(|node| !node.children.is_empty()),
        "entry-fetch-refused" => node.is_some_and(|node| node.tag != 10),
        "entry-child-refused" => number < count && !image.nodes.iter().any(named),
        "entry-from-1" => number >= 1 && number <= count,
        "entry-of-fields" => number >= 2 && number < count + 2,
        _ => number < count,
    }
}

/// What is answered where it does not: number and place.
fn entry_refusal(fault: &Fault, image: &Image, shown: usize, length: usize) -> Refusal {
    let number = match fault.0.as_str() {
        "entry-as-tag" => 2,
        "entry-as-value" => 5,
        "entry-as-forward" => 6,
        "entry-as-unfinished" => 7,
        "entry-number-10" => 10,
        _ => 11,
    };
    let place = match fault.0.as_str() {
        "entry-place-length" => length,
        "entry-place-body" => shown + 3,
        "entry-place-0" => 0,
        "entry-place-node" => image.nodes.last().map_or(0, |last| last.place),
        _ => shown,
    };
    (number, place)
}

/// The entry of an image whose fields are good. A node that is not there, which a fault let through, is the last.
fn entry_of(fault: &Fault, image: &Image) -> usize {
    let last = image.nodes.len() as u64 - 1;
    let Some(number) = image.named else { return if fault.is("entry-first-unnamed") { 0 } else { last as usize } };
    let entry = match fault.0.as_str() {
        "entry-last" => last,
        "entry-first" => 0,
        "entry-next" => number + 1,
        "entry-from-1" => number.saturating_sub(1),
        "entry-of-fields" => number.saturating_sub(2),
        "entry-from-the-end" => last.saturating_sub(number),
        "entry-in-7-bits" => number % 128,
        _ => number,
    };
    entry.min(last) as usize
}

/// Whether there are too many lines for the period.
fn wide(fault: &Fault, image: &Image, reached: &Set) -> bool {
    let all = image.nodes.iter().enumerate().filter(|(_, node)| node.tag == 10);
    let numbers: Vec<u64> = all
        .filter(|(number, _)| reached.contains(&(*number as u64)) || !fault.is("lines-reached-only"))
        .filter(|(number, _)| *number <= image.entry || !fault.is("lines-to-entry"))
        .map(|(_, node)| node.line)
        .collect();
    let lines = match fault.0.as_str() {
        "lines-distinct" => numbers.iter().collect::<BTreeSet<_>>().len() as u64,
        "lines-of-nodes" => numbers.len() as u64,
        "lines-highest" => numbers.iter().max().copied().unwrap_or(0),
        "lines-of-first" => numbers.first().map_or(0, |line| line + 1),
        "lines-of-last" => numbers.last().map_or(0, |line| line + 1),
        "lines-4-always" => numbers.first().map_or(0, |_| 4),
        _ => numbers.iter().max().map_or(0, |line| line + 1),
    };
    let product = match fault.0.as_str() {
        "lines-doubled" => image.period * 2 * lines.max(1),
        "lines-in-a-byte" => (image.period << lines) % 256,
        "lines-of-slot" => image.slot << lines,
        "schedule-lines-unjudged" if !image.stretches.is_empty() => 0,
        "schedule-lines-of-pairs" if !image.stretches.is_empty() => {
            (image.stretches.iter().flatten().collect::<BTreeSet<_>>().len() as u64) << lines
        }
        _ => image.period << lines.min(40),
    };
    match fault.0.as_str() {
        "lines-unjudged" => false,
        "lines-1024-refused" => product >= 1_024 && lines > 0,
        "lines-1032-accepted" => product > 1_032,
        "lines-1040-accepted" => product > 1_040,
        "lines-1020-refused" => product >= 1_020 && lines > 0,
        _ => product > 1_024,
    }
}

fn length_good(fault: &Fault, tag: u8, length: usize) -> bool {
    match tag {
        1 | 4 => length == 3,
        2 => length >= 1 && length <= if fault.is("starts-255") { 255 } else { 256 },
        3 => length == 4,
        5 if fault.is("odd-length") => length >= 2 && length <= 33,
        5 if fault.is("sequence-17") => length >= 2 && length <= 34 && length % 2 == 0,
        5 => length >= 2 && length <= 32 && length % 2 == 0,
        6 if fault.is("one-arm") => length >= 2 && length <= 16 && length % 2 == 0,
        6 => length >= 4 && length <= 16 && length % 2 == 0,
        7 => match fault.0.as_str() {
            "loop-length-6" => length == 6 || length == 8,
            "loop-length-6-only" => length == 6,
            "loop-length-7" => length == 7 || length == 8,
            "loop-length-9" => length == 8 || length == 9,
            "loop-length-10" => length == 8 || length == 10,
            "loop-length-in-a-byte" => length % 256 == 8,
            "loop-any-length" => length >= 8,
            _ => length == 8,
        },
        8 => match fault.0.as_str() {
            "entry-length-1" => length == 1 || length == 2,
            "entry-length-3" => length == 2 || length == 3,
            "entry-length-in-a-byte" => length % 256 == 2,
            "entry-any-length" => length >= 2,
            _ => length == 2,
        },
        9 => match fault.0.as_str() {
            "schedule-even-length" => length >= 3 && length <= 65,
            "schedule-length-66" => length >= 3 && length <= 66 && (length % 2 == 1 || length == 66),
            "schedule-length-1" => length >= 1 && length <= 65 && length % 2 == 1,
            "schedule-length-3-refused" => length >= 5 && length <= 65 && length % 2 == 1,
            "schedule-length-65-refused" => length >= 3 && length <= 63 && length % 2 == 1,
            "schedule-length-67" => length >= 3 && length <= 67 && length % 2 == 1,
            "schedule-length-in-a-byte" => length % 256 >= 3 && length % 256 <= 65 && length % 2 == 1,
            "schedule-any-length" => length >= 3 && length % 2 == 1,
            _ => length >= 3 && length <= 65 && length % 2 == 1,
        },
        10 if fault.is("fetch-length-4") => length == 4 || length == 5,
        10 if fault.is("fetch-length-6") => length == 5 || length == 6,
        10 if fault.is("fetch-length-3") => length == 3,
        10 => length == 5,
        _ => false,
    }
}

fn value_good(fault: &Fault, image: &Image, tag: u8, body: &[u8], length: usize) -> bool {
    let one = |place: usize| body[place] as u64;
    let two = |place: usize| two_bytes(fault, &body[place..]);
    match tag {
        1 => {
            let product = if fault.is("product-in-a-byte") { one(0) * one(1) % 256 } else { one(0) * one(1) };
            one(0) >= 2
                && one(0) <= if fault.is("cores-17") { 17 } else { 16 }
                && one(1) >= 1
                && one(1) <= if fault.is("slot-129") { 129 } else { 128 }
                && (one(2) < one(0) || fault.is("core-unchecked"))
                && (product <= 256 || fault.is("slot-129") && one(1) == 129)
        }
        2 => (0..length).all(|place| {
            let ascending = place == 0 || one(place - 1) < one(place) || fault.is("starts-equal") && one(place - 1) == one(place);
            ascending && (one(place) < image.period || fault.is("start-at-period") && one(place) == image.period)
        }),
        3 => {
            let most = if fault.is("difference-64") { 64 } else { 63 };
            let difference = two(2).wrapping_sub(two(0));
            let difference = if fault.is("difference-in-a-byte") { difference % 256 } else { difference };
            two(0) <= two(2) && difference <= most
        }
        4 => {
            let kind = one(0) == 1 || one(0) == 2 || one(0) == 3 && fault.is("kind-3") || one(0) == 0 && fault.is("kind-0");
            kind && (one(1) >= 1 || fault.is("duration-0"))
                && one(1) <= one(2)
                && one(2) <= longest(fault, image) + u64::from(fault.is("duration-above-slot"))
        }
        9 => schedule_good(fault, body, length),
        10 => {
            let line = match fault.0.as_str() {
                "line-4-accepted" => one(0) <= 4,
                "line-3-refused" => one(0) < 3,
                "line-0-refused" => one(0) >= 1 && one(0) <= 3,
                "line-in-two-bits" => true,
                _ => one(0) < 4,
            };
            let hit = match fault.0.as_str() {
                "hit-0-refused" => two(3) > 0,
                "hit-65535-refused" => two(3) < 65_535,
                "hit-above-slot-refused" => two(3) <= image.slot,
                "hit-10001-refused" => two(3) <= 10_000,
                "hit-above-lowest-refused" => two(3) <= one(1),
                _ => true,
            };
            let longest = match fault.0.as_str() {
                "fetch-above-stretch" if !image.stretches.is_empty() => 255,
                _ => longest(fault, image) + u64::from(fault.is("fetch-above-slot")),
            };
            let range = (one(1) >= 1 || fault.is("fetch-duration-0"))
                && (one(1) <= one(2) || fault.is("fetch-reversed"))
                && one(2) <= longest;
            line && hit && (range || fault.is("fetch-range-unjudged"))
        }
        7 => {
            let (least, greatest) = counts(fault, body);
            (least <= greatest || fault.is("least-above-greatest"))
                && greatest <= if fault.is("count-10001") { 10_001 } else { 10_000 }
        }
        _ => true,
    }
}

/// The pairs of a field with tag 9: core and slot length.
fn pairs(fault: &Fault, body: &[u8], length: usize) -> Vec<(u64, u64)> {
    let all = body.iter().take(length).skip(1).map(|&byte| byte as u64).collect::<Vec<_>>();
    let pair = |pair: &[u64]| match fault.0.as_str() {
        "schedule-pairs-swapped" => (pair[1], pair[0]),
        "schedule-core-in-4-bits" => (pair[0] % 16, pair[1]),
        "schedule-slot-in-7-bits" => (pair[0], pair[1] % 128),
        _ => (pair[0], pair[1]),
    };
    all.chunks_exact(2).map(pair).collect()
}

/// The number of the first pair that is out of range, or 0.
fn bad_pair(body: &[u8], length: usize) -> usize {
    let all = pairs(&Fault::default(), body, length);
    all.iter().position(|&(core, slot)| core > 15 || slot == 0 || slot > 128).unwrap_or(0)
}

fn schedule_good(fault: &Fault, body: &[u8], length: usize) -> bool {
    let analysed = body[0] as u64;
    let mut all = pairs(fault, body, length);
    let sum: u64 = all.iter().map(|&(_, slot)| slot).sum();
    let cores: Set = all.iter().map(|&(core, _)| core).collect();
    let has_pair = match fault.0.as_str() {
        "schedule-analysed-unjudged" => true,
        "schedule-analysed-below-16" => analysed <= 15,
        "schedule-analysed-below-cores" => analysed < cores.len() as u64,
        "schedule-analysed-below-pairs" => analysed < all.len() as u64,
        "schedule-analysed-first" => all.first().is_some_and(|pair| pair.0 == analysed),
        "schedule-analysed-0-refused" => analysed > 0 && cores.contains(&analysed),
        "schedule-analysed-in-4-bits" => cores.contains(&(analysed % 16)),
        _ => cores.contains(&analysed),
    };
    let sum_good = match fault.0.as_str() {
        "schedule-sum-257" => sum <= 257,
        "schedule-sum-256-refused" => sum <= 255,
        "schedule-sum-unjudged" => true,
        "schedule-period-1-refused" => sum >= 2 && sum <= 256,
        "schedule-of-own-slots" => all.iter().filter(|pair| pair.0 == analysed).map(|pair| pair.1).sum::<u64>() <= 256,
        _ => sum <= 256,
    };
    let number_good = match fault.0.as_str() {
        "schedule-one-core-refused" => cores.len() >= 2,
        "schedule-contiguous" => cores.iter().zip(0..).all(|(&core, own)| core == own),
        "schedule-core-twice-refused" => cores.len() == all.len(),
        "schedule-equal-refused" => {
            all.len() < 2 || !all.iter().zip(0..).all(|(&(core, slot), own)| core == own && slot == all[0].1)
        }
        "schedule-neighbours-refused" => !all.windows(2).any(|two| two[0].0 == two[1].0),
        _ => true,
    };
    match fault.0.as_str() {
        "schedule-first-pair-judged" => all.truncate(1),
        "schedule-last-pair-unjudged" => all.truncate(all.len().saturating_sub(1)),
        "schedule-own-pairs-judged" => all.retain(|pair| pair.0 == analysed),
        _ => {}
    }
    let each = all.iter().all(|&(core, slot)| {
        let core_good = match fault.0.as_str() {
            "schedule-core-16" => core <= 16,
            "schedule-core-15-refused" => core <= 14,
            "schedule-core-unjudged" => true,
            _ => core <= 15,
        };
        let slot_good = match fault.0.as_str() {
            "schedule-slot-0" => slot <= 128,
            "schedule-slot-1-refused" => slot >= 2 && slot <= 128,
            "schedule-slot-128-refused" => slot >= 1 && slot <= 127,
            "schedule-slot-129" => slot >= 1 && slot <= 129,
            "schedule-slot-unjudged" => true,
            _ => slot >= 1 && slot <= 128,
        };
        core_good && slot_good
    });
    each && has_pair && sum_good && number_good
}

/// What a field with tag 9 says: the period, the stretches of the analysed core and the longest access.
fn own_stretches(fault: &Fault, image: &mut Image, body: &[u8], length: usize) {
    let mut all = pairs(fault, body, length);
    image.core = match fault.0.as_str() {
        "slots-of-core-0" => 0,
        "slots-of-first-pair" => all.first().map_or(0, |pair| pair.0),
        "slots-of-next-core" => (body[0] as u64 + 1) % 16,
        "schedule-analysed-in-4-bits" => body[0] as u64 % 16,
        _ => body[0].into(),
    };
    let owned = |own: usize, core: u64| match fault.0.as_str() {
        "slots-by-number" => own as u64 == image.core,
        "slots-of-others" => core != image.core,
        _ => core == image.core,
    };
    // the core's slots behind each other
    if fault.is("slots-together") {
        all.sort_by_key(|pair| pair.0);
    }
    if fault.is("slots-reversed") {
        all.reverse();
    }
    let mut stretches: Vec<Option<usize>> = Vec::new();
    let (mut next, mut before) = (0, false);
    let last = all.len().saturating_sub(1);
    for (own, &(core, slot)) in all.iter().enumerate() {
        let owns = owned(own, core);
        let joins = match fault.0.as_str() {
            "slots-neighbours-apart" => false,
            "slots-apart-in-the-middle" => own == 1 || own == last,
            "slots-two-joined" => own % 2 == 1,
            _ => true,
        };
        next += usize::from(owns && !(joins && before));
        let cycles = match fault.0.as_str() {
            "slots-one-shorter" => slot.saturating_sub(1),
            _ => slot,
        };
        stretches.extend((0..slot).map(|cycle| (owns && cycle < cycles).then_some(next)));
        before = owns;
    }
    let ends = [stretches.first(), stretches.last()].map(|end| end.copied().flatten());
    let round = match fault.0.as_str() {
        "slots-not-round" => false,
        "slots-round-if-two" => next == 2,
        "slots-round-if-short" => all.len() < 4,
        _ => true,
    };
    if let ([Some(first), Some(last)], true) = (ends, round) {
        stretches.iter_mut().filter(|stretch| **stretch == Some(last)).for_each(|stretch| *stretch = Some(first));
    }
    let of = |stretch: usize| stretches.iter().filter(|cycle| **cycle == Some(stretch)).count() as u64;
    let lengths: Vec<u64> = (0..=next).map(of).filter(|&length| length > 0).collect();
    let longest = (0..=next).max_by_key(|&stretch| (of(stretch), next - stretch));
    let only = match fault.0.as_str() {
        "slots-first-only" => stretches.iter().flatten().next().copied(),
        "slots-last-only" => stretches.iter().flatten().last().copied(),
        "slots-longest-only" => longest,
        _ => None,
    };
    let own = || all.iter().filter(|pair| pair.0 == image.core).map(|pair| pair.1);
    image.slot = match fault.0.as_str() {
        "duration-of-pair" => own().max().unwrap_or(0),
        "duration-of-sum" => own().sum(),
        "duration-of-any-core" => all.iter().map(|pair| pair.1).max().unwrap_or(0),
        "duration-of-shortest" => lengths.iter().min().copied().unwrap_or(0),
        "duration-of-first" => lengths.first().copied().unwrap_or(0),
        "duration-of-last" => lengths.last().copied().unwrap_or(0),
        _ => lengths.iter().max().copied().unwrap_or(0),
    };
    if let Some(only) = only {
        stretches.iter_mut().filter(|stretch| **stretch != Some(only)).for_each(|stretch| *stretch = None);
    }
    image.period = match fault.0.as_str() {
        "schedule-period-of-pairs" => all.len() as u64,
        "schedule-period-of-first" => all.len() as u64 * all.first().map_or(0, |pair| pair.1),
        "schedule-period-of-own" => own().sum(),
        "schedule-period-without-last" if all.len() > 1 => all[..last].iter().map(|pair| pair.1).sum(),
        "schedule-period-255" => stretches.len().min(255) as u64,
        "schedule-period-256" => 256,
        _ => stretches.len() as u64,
    };
    stretches.resize(image.period as usize, None);
    image.stretches = stretches;
}

/// The longest duration of a bus block.
fn longest(fault: &Fault, image: &Image) -> u64 {
    if image.stretches.is_empty() {
        return image.slot;
    }
    match fault.0.as_str() {
        "duration-above-stretch" => image.slot + 1,
        "duration-below-stretch" if image.slot > 1 => image.slot - 1,
        "duration-to-128" => image.slot.min(128),
        "duration-to-127" => image.slot.min(127),
        "duration-255-refused" => image.slot.min(254),
        "duration-to-period" => image.period,
        "duration-free-if-all-owned" if image.slot == image.period => 255,
        "duration-below-period" if image.slot == image.period && image.period > 1 => image.period - 1,
        "duration-unjudged" => 255,
        _ => image.slot,
    }
}

fn named(fault: &Fault, tag: u8, body: &[u8], length: usize) -> Vec<u64> {
    let places: Vec<usize> = match tag {
        5 | 6 => (0..length / 2).map(|child| 2 * child).collect(),
        // a loop without a test
        7 if length == 6 => vec![4],
        7 => match fault.0.as_str() {
            "test-and-body-exchanged" => vec![6, 4],
            "loop-children-first" => vec![0, 2],
            "test-is-body" => vec![4, 4],
            "body-is-test" => vec![6, 6],
            _ => vec![4, 6],
        },
        _ => Vec::new(),
    };
    let whole = places.iter().map(|&place| two_bytes(fault, &body[place..]));
    let mut all: Vec<u64> = whole.map(|child| if fault.is("child-in-a-byte") { child % 256 } else { child }).collect();
    if let ([_, test], 7) = (&mut all[..], tag) {
        *test = match fault.0.as_str() {
            "test-in-a-byte" => *test % 256,
            "test-of-high-byte" => *test / 256,
            "test-low-byte-first" => *test % 256 * 256 + *test / 256,
            "test-from-1" => test.saturating_sub(1),
            "test-in-7-bits" => {
                if *test < 256 {
                    *test % 128
                } else {
                    *test
                }
            }
            _ => *test,
        };
    }
    all
}

/// Least and greatest count of a loop.
fn counts(fault: &Fault, body: &[u8]) -> (u64, u64) {
    let first = if fault.is("loop-children-first") { 4 } else { 0 };
    (two_bytes(fault, &body[first..]), two_bytes(fault, &body[first + 2..]))
}

/// Whether a loop's body is a node below it and its test is not.
fn test_bad(image: &Image, body: &[u8], length: usize) -> bool {
    let own = image.nodes.len() as u64;
    matches!(named(&Fault::default(), 7, body, length)[..], [body, test] if body < own && test >= own)
}

/// Whether a child number of a loop is at fault and comes before 5.
fn early_child_bad(fault: &Fault, image: &Image, body: &[u8], length: usize) -> bool {
    let own = image.nodes.len() as u64;
    let [body, test] = named(fault, 7, body, length)[..] else { return false };
    match fault.0.as_str() {
        "test-before-value" => test >= own,
        "body-before-value" => body >= own,
        _ => false,
    }
}

fn children_good(fault: &Fault, image: &Image, tag: u8, body: &[u8], length: usize) -> bool {
    let own = image.nodes.len() as u64;
    let mut children = named(fault, tag, body, length);
    if fault.is("last-child-unchecked") && tag == 5 {
        children.pop();
    }
    if let ([body_child, test], 7) = (&children[..], tag) {
        let (body_child, test, greatest) = (*body_child, *test, counts(fault, body).1);
        let kind = image.nodes.get(test as usize).map_or(0, |node| node.tag);
        let both = body_child < own && test < own;
        match fault.0.as_str() {
            "test-unjudged" | "test-judged-at-end" => return body_child < own,
            "test-judged-only" => return test < own,
            "test-or-body-judged" => return body_child < own || test < own,
            "test-equal" => return body_child < own && test <= own,
            "body-equal" => return body_child <= own && test < own,
            "test-below-256" => return body_child < own && test < 256,
            "test-below-body" => return both && test < body_child,
            "test-above-body" => return both && test > body_child,
            "test-same-refused" => return both && test != body_child,
            "test-last-refused" => return both && test + 1 < own,
            "test-0-refused" => return both && test > 0,
            "test-plain-only" => return both && kind == 3,
            "test-block-only" => return both && [3, 4, 10].contains(&kind),
            "test-bus-refused" => return both && kind != 4,
            "test-fetch-refused" => return both && kind != 10,
            "test-loop-refused" => return both && kind != 7,
            "test-idle-unjudged" => return body_child < own && (test < own || greatest == 0),
            "body-idle-unjudged" => return test < own && (body_child < own || greatest == 0),
            _ => {}
        }
    }
    children.iter().all(|&child| child < own || fault.is("child-equal") && child == own)
}

/// A child that a fault let through and that is not there to be executed counts nothing.
fn of_child<T: Copy + Default>(values: &[T], child: usize) -> T {
    values.get(child).copied().unwrap_or_default()
}

fn deep(fault: &Fault, image: &Image) -> bool {
    let most = match fault.0.as_str() {
        "depth-24-refused" => 23,
        "depth-25-accepted" => 25,
        _ => 24,
    };
    let mut depths: Vec<u64> = Vec::new();
    for node in &image.nodes {
        let below = node.children.iter().map(|&child| of_child(&depths, child)).max().unwrap_or(0);
        let [body, test] = node.parts().map(|part| part.map_or(0, |part| of_child(&depths, part)));
        let (looped, idle) = (node.tag == 7, node.tag == 7 && node.high == 0);
        let depth = match fault.0.as_str() {
            "fetch-depth-2" if node.tag == 10 => 2,
            "fetch-depth-0" if node.tag == 10 => 0,
            "depth-without-idle-body" if idle => 1 + test,
            "depth-without-idle-test" if idle => 1 + body,
            "depth-without-idle-loop" if idle => 1,
            "depth-without-test" if looped => 1 + body,
            "depth-of-test-only" if looped => 1 + test,
            "depth-of-test-beside" if looped => (1 + body).max(test),
            "depth-of-test-below-body" if looped => 1 + body + test,
            "depth-of-test-one-more" if looped => 1 + body.max(1 + test),
            _ => 1 + below,
        };
        depths.push(if fault.is("depth-in-a-byte") { depth % 256 } else { depth });
    }
    match fault.0.as_str() {
        "depth-of-all" => depths.iter().any(|&depth| depth > most),
        "depth-to-entry" => depths[..=image.entry].iter().any(|&depth| depth > most),
        "depth-of-last" => depths[depths.len() - 1] > most,
        _ => depths[image.entry] > most,
    }
}

fn long(fault: &Fault, image: &Image) -> bool {
    let most = match fault.0.as_str() {
        "visits-100000-refused" => 99_999,
        "visits-100001-accepted" => 100_001,
        _ => 100_000,
    };
    let mut visits: Vec<u128> = Vec::new();
    for node in &image.nodes {
        let mut children: Vec<usize> = node.children.clone();
        if fault.is("visits-of-node-once") {
            children.sort_unstable();
            children.dedup();
        }
        let each = children.iter().map(|&child| of_child(&visits, child));
        let below = match node.tag {
            7 => visits_of_loop(fault, node, &visits),
            6 if fault.is("visits-of-largest-arm") => each.max().unwrap_or(0),
            _ => each.sum(),
        };
        let all = match fault.0.as_str() {
            "fetch-visits-2" if node.tag == 10 => 2,
            "fetch-visits-0" if node.tag == 10 => 0,
            "visits-without-loop" if node.tag == 7 => below,
            _ => below + 1,
        };
        visits.push(match fault.0.as_str() {
            "visits-32-bit" => all % (1 << 32),
            "visits-64-bit" => all % (1 << 64),
            _ => all.min(1 << 100),
        });
    }
    match fault.0.as_str() {
        "visits-of-all" => visits.iter().any(|&visits| visits > most),
        "visits-to-entry" => visits[..=image.entry].iter().any(|&visits| visits > most),
        "visits-of-last" => visits[visits.len() - 1] > most,
        _ => visits[image.entry] > most,
    }
}

/// The visits below a loop.
fn visits_of_loop(fault: &Fault, node: &Node, visits: &[u128]) -> u128 {
    let times = u128::from(node.high);
    let [body, test] = node.parts().map(|part| part.map_or(0, |part| of_child(visits, part)));
    let same = node.parts()[0] == node.parts()[1];
    match fault.0.as_str() {
        "visits-of-idle-body" => times.max(1) * body + (times + 1) * test,
        "visits-of-node-once" if same => times * body + test,
        "visits-without-tests" => times * body,
        "visits-without-last-test" => times * (body + test),
        "visits-of-one-test" => times * body + test,
        "visits-without-idle-test" if times == 0 => 0,
        "visits-of-last-body" => (times + 1) * (body + test),
        "visits-of-last-body-only" => times * (body + test) + body,
        "visits-of-tests-one-more" => times * (body + test) + 2 * test,
        "visits-of-test-as-block" => times * (body + 1) + 1,
        "visits-of-larger-part" => times * body.max(test) + test,
        "visits-of-tests-only" => (times + 1) * test,
        "visits-of-sum-32-bit" => times * ((body + test) % (1 << 32)) + test,
        "visits-of-sum-64-bit" => times * ((body + test) % (1 << 64)) + test,
        "visits-of-product-64-bit" => times * (body + test) % (1 << 64) + test,
        "visits-of-last-test-64-bit" => times * (body + test) + test % (1 << 64),
        _ => times * (body + test) + test,
    }
}

/// Whether an access may start with tag 9: all its cycles belong to one stretch of the core.
fn fits(fault: &Fault, image: &Image, offset: u64, e: u64) -> bool {
    let period = image.period;
    let at = |cycle: u64| image.stretches[(cycle % period) as usize];
    let own = at(offset);
    let begins = own.is_some() && at(offset + period - 1) != own;
    match fault.0.as_str() {
        "slots-not-round" | "access-ends-with-period" if offset + e > period => return false,
        "access-round-never-at-end" if image.slot < period && offset + e > period => return false,
        "access-whole-not-round" if image.slot == period && offset + e > period => return false,
        "access-in-last-cycles" => return own.is_some(),
        "access-at-stretch-only" => return begins && (0..e).all(|later| at(offset + later) == own),
        "access-before-end" => return own.is_some() && (0..=e).all(|later| at(offset + later) == own),
        "access-first-and-last" => return own.is_some() && at(offset + e - 1).is_some(),
        "access-ends-owned" => return at(offset + e - 1).is_some(),
        "access-one-over" => return own.is_some() && (0..e - 1).all(|later| at(offset + later) == own),
        "access-at-once" => return true,
        _ => {}
    }
    own.is_some() && (0..e).all(|later| at(offset + later) == own)
}

/// The cycles that a wait takes with tag 9: cycle by cycle, through two periods at most.
fn wait_in_pairs(fault: &Fault, image: &Image, offset: u64, e: u64) -> u64 {
    let period = image.period;
    let at = |cycle: u64| image.stretches[(cycle % period) as usize];
    let begins = |cycle: u64| at(cycle).is_some() && at(cycle + period - 1) != at(cycle);
    let fitting = |from: u64| (from..from + 2 * period).find(|&cycle| fits(fault, image, cycle % period, e));
    let found = match fault.0.as_str() {
        "wait-to-next-stretch" if fitting(offset) != Some(offset) => (offset..offset + period).find(|&cycle| begins(cycle)),
        "wait-to-same-stretch" if fitting(offset) != Some(offset) && at(offset).is_some() => {
            (offset + 1..offset + 2 * period).find(|&cycle| begins(cycle) && at(cycle) == at(offset))
        }
        "wait-to-longest" if fitting(offset) != Some(offset) => {
            let of = |cycle: u64| image.stretches.iter().filter(|other| **other == at(cycle)).count() as u64;
            (offset..offset + period).find(|&cycle| begins(cycle) && of(cycle) == image.slot)
        }
        "wait-to-first-stretch" if fitting(offset) != Some(offset) => {
            fitting(0).map(|first| offset + (first + period - offset) % period)
        }
        "wait-in-this-period" => (offset..period).find(|&cycle| fits(fault, image, cycle, e)).or(Some(period)),
        "wait-to-next-period" if fitting(offset) != Some(offset) => fitting(period),
        "wait-skips-one" if fitting(offset) != Some(offset) => fitting(offset).and_then(|first| {
            (first + 1..first + 2 * period).find(|&cycle| begins(cycle) && fits(fault, image, cycle % period, e))
        }),
        _ => fitting(offset),
    };
    // where a fault leaves no start, there is no wait
    let wait = found.map_or(0, |start| start - offset);
    match fault.0.as_str() {
        "wait-in-pairs-one-long" if wait > 0 => wait + 1,
        "wait-in-pairs-one-short" => wait.saturating_sub(1),
        "wait-in-7-bits" => wait % 128,
        _ => wait,
    }
}

/// The cycles that a wait takes, with tag 1 by the remainder.
fn wait(fault: &Fault, image: &Image, offset: u64, e: u64) -> u64 {
    if fault.is("greatest-wait") {
        return image.period - image.slot + e - 1;
    }
    if fault.is(NO_WAIT) {
        return 0;
    }
    if !image.stretches.is_empty() {
        return wait_in_pairs(fault, image, offset % image.period, e);
    }
    let core = if fault.is("core-ignored") { 0 } else { image.core };
    let (slot, period) = (image.slot, image.period);
    let first = core * slot;
    // past the end of the slot's last possible start
    let end = match fault.0.as_str() {
        "last-cycles" => first + slot,
        "last-start-lost" => (first + slot).saturating_sub(e).max(first + 1),
        _ => (first + slot + 1).saturating_sub(e).max(first),
    };
    if first <= offset && offset < end {
        return 0;
    }
    let wait = (first + period - offset % period) % period;
    match fault.0.as_str() {
        "wait-one-short" => wait.saturating_sub(1),
        "wait-one-long" => wait + 1,
        _ => wait,
    }
}

/// The image with the first stretch of the core alone, as Equation 7 has one slot.
fn of_first_stretch(image: &Image) -> Image {
    let mut image = image.clone();
    let first = image.stretches.iter().flatten().next().copied();
    image.stretches.iter_mut().filter(|stretch| **stretch != first).for_each(|stretch| *stretch = None);
    image
}

/// The cycles that executions of a block take from an offset.
fn cycles(fault: &Fault, image: &Image, node: &Node, offset: u64) -> Vec<u64> {
    let low = match fault.0.as_str() {
        "highest-only" => node.high,
        "lowest-lost" => (node.low + 1).min(node.high),
        _ => node.low,
    };
    let mut all = Vec::new();
    for duration in low..=node.high {
        let may = node.tag == 4 && node.kind < 2;
        let accesses = node.tag == 4 && !(may && fault.is("never-accesses"));
        let passes = node.tag == 3 || may && !fault.is("always-accesses");
        if passes || !accesses {
            all.push(if fault.is("times-in-period") { duration % image.period } else { duration });
        }
        if accesses {
            all.push(wait(fault, image, offset, duration) + duration);
        }
    }
    all
}

/// The cycles that executions of a block with tag 10 take in a state, each with the lines that are fetched after it.
fn fetches(fault: &Fault, image: &Image, number: usize, (offset, lines): &State) -> Vec<(u64, Set)> {
    let node = &image.nodes[number];
    let line = match fault.0.as_str() {
        "line-per-node" => number as u64,
        "line-ignored" => 0,
        "line-in-one-bit" => node.line % 2,
        "line-in-two-bits" => node.line % 4,
        _ => node.line,
    };
    let mut of_line = image.nodes.iter().filter(|other| other.tag == 10 && other.line == node.line);
    let hit = match fault.0.as_str() {
        "hit-of-first-node" => of_line.next().map_or(0, |first| first.hit),
        "hit-of-last-node" => of_line.last().map_or(0, |last| last.hit),
        "hit-in-period" => node.hit % image.period,
        "hit-one-more" => node.hit + 1,
        _ => node.hit,
    };
    let (low, high) = match fault.0.as_str() {
        "miss-lowest-only" => (node.low, node.low),
        "miss-highest-only" => (node.high, node.high),
        _ => (node.low, node.high),
    };
    let waited = |e: u64| wait(fault, image, *offset, e);
    let known = lines.contains(&line) || fault.is("hit-always") || fault.is("line-0-known") && line == 0;
    if known {
        let all: Vec<u64> = match fault.0.as_str() {
            "hit-passes-duration" => (low..=high).collect(),
            "hit-accesses" => vec![waited(hit) + hit],
            "hit-and-access" => (low..=high).map(|e| waited(e) + e + hit).collect(),
            "hit-or-access" => (low..=high).map(|e| waited(e) + e).chain([hit]).collect(),
            "hit-waits" => vec![waited(low) + hit],
            _ => vec![hit],
        };
        let mut after = lines.clone();
        if fault.is("hit-drops-line") {
            after.remove(&line);
        }
        return all.into_iter().map(|cycles| (cycles, after.clone())).collect();
    }
    let mut all = Vec::new();
    for e in low..=high {
        let cycles = match fault.0.as_str() {
            "miss-without-wait" => vec![e],
            "miss-and-hit" => vec![waited(e) + e + hit],
            "miss-may-pass" => vec![e, waited(e) + e],
            "miss-may-hit" => vec![hit, waited(e) + e],
            "miss-waits-for-lowest" => vec![waited(low) + e],
            _ => vec![waited(e) + e],
        };
        let kept = match fault.0.as_str() {
            "miss-always" => false,
            "line-0-not-kept" => line != 0,
            "lines-2-kept" => line < 2,
            "line-3-not-kept" => line != 3,
            "fetched-after-wait" => waited(e) > 0,
            "fetched-without-wait" => waited(e) == 0,
            _ => true,
        };
        let mut after = lines.clone();
        if fault.is("one-line-kept") {
            after.clear();
        }
        if kept {
            after.insert(line);
        }
        all.extend(cycles.into_iter().map(|cycles| (cycles, after.clone())));
    }
    all
}

/// What a fault makes of the lines where runs meet at an offset.
fn meet(fault: &Fault, times: Times) -> Times {
    match fault.0.as_str() {
        "lines-of-longest" | "lines-united" | "lines-common" => {}
        _ => return times,
    }
    let mut met: BTreeMap<u64, (Set, u64)> = BTreeMap::new();
    for ((offset, lines), time) in times {
        let Some(kept) = met.get_mut(&offset) else {
            met.insert(offset, (lines, time));
            continue;
        };
        match fault.0.as_str() {
            "lines-united" => kept.0.extend(&lines),
            "lines-common" => kept.0.retain(|line| lines.contains(line)),
            _ if time > kept.1 => kept.0 = lines,
            _ => {}
        }
        kept.1 = time.max(kept.1);
    }
    met.into_iter().map(|(offset, (lines, time))| ((offset, lines), time)).collect()
}

/// The lines that some run has fetched.
fn some_fetched(times: &Times) -> Set {
    times.keys().flat_map(|(_, lines)| lines.iter().copied()).collect()
}

/// The times without the lines that nobody had fetched at the entry.
fn forget(fault: &Fault, times: Times, entry: &Times) -> Times {
    let before = some_fetched(entry);
    let mut after = Times::new();
    for ((offset, lines), time) in times {
        keep(fault, &mut after, (offset, lines.intersection(&before).copied().collect()), time);
    }
    after
}

fn keep(fault: &Fault, times: &mut Times, state: State, time: u64) {
    let kept = times.entry(state).or_insert(time);
    *kept = if fault.is("shorter-kept") { time.min(*kept) } else { time.max(*kept) };
}

fn keep_slowest(fault: &Fault, times: Times) -> Times {
    if !fault.is("slowest-at-join") {
        return times;
    }
    times.into_iter().max_by_key(|(_, time)| *time).into_iter().collect()
}

fn execute(fault: &Fault, image: &Image, number: usize, entry: &Times) -> Times {
    let times = meet(fault, execute_node(fault, image, number, entry));
    let forgets = match image.nodes[number].tag {
        5 => fault.is("sequence-forgets"),
        6 => fault.is("branch-forgets"),
        7 => fault.is("loop-forgets"),
        _ => false,
    };
    if forgets {
        forget(fault, times, entry)
    } else {
        times
    }
}

fn execute_node(fault: &Fault, image: &Image, number: usize, entry: &Times) -> Times {
    let node = &image.nodes[number];
    let mut exits = Times::new();
    match node.tag {
        3 | 4 => {
            let worst = match fault.0.as_str() {
                "block-worst-case" => entry.keys().flat_map(|(offset, _)| cycles(fault, image, node, *offset)).max(),
                _ => None,
            };
            for ((offset, lines), &time) in entry {
                let mut lines = lines.clone();
                if node.tag == 4 && fault.is("bus-block-fetches") {
                    lines.insert(0);
                }
                for cycles in cycles(fault, image, node, *offset) {
                    let state = ((offset + cycles) % image.period, lines.clone());
                    keep(fault, &mut exits, state, time + worst.unwrap_or(cycles));
                }
            }
            exits
        }
        10 => {
            for (state, &time) in entry {
                for (cycles, lines) in fetches(fault, image, number, state) {
                    keep(fault, &mut exits, ((state.0 + cycles) % image.period, lines), time + cycles);
                }
            }
            exits
        }
        5 => {
            let mut children = node.children.clone();
            if fault.is("last-first") {
                children.reverse();
            }
            if fault.is("children-once") {
                children.dedup();
            }
            // a child not below its own number, which a fault let through, is not executed
            children.retain(|&child| child < number);
            children.iter().fold(entry.clone(), |times, &child| execute(fault, image, child, &times))
        }
        6 => {
            let arms = if fault.is("first-arm-only") { &node.children[..1] } else { &node.children };
            for &arm in arms.iter().filter(|&&arm| arm < number) {
                let mut entry = entry.clone();
                if fault.is("arms-share-lines") {
                    let earlier = some_fetched(&exits);
                    entry = entry.into_iter().map(|((offset, lines), time)| ((offset, &lines | &earlier), time)).collect();
                }
                for (state, time) in execute(fault, image, arm, &entry) {
                    keep(fault, &mut exits, state, time);
                }
            }
            keep_slowest(fault, exits)
        }
        _ => {
            // a body or a test not below its own number, which a fault let through, is not executed
            let [body, test] = node.parts().map(|part| part.filter(|&part| part < number));
            let test = test.filter(|_| !fault.is("test-ignored"));
            let mut tested = |times: &Times| match test {
                Some(test) => execute_test(fault, image, (node, test), times, entry),
                None => times.clone(),
            };
            let Some(body) = body else { return iterate(fault, image, number, entry, &mut Times::clone, &mut tested) };
            let inner = &image.nodes[body];
            let mut kept: Vec<Box<Step>> = Vec::new();
            match inner.tag {
                6 if fault.is("choice-kept") => kept.extend(arms(fault, image, inner)),
                3 if fault.is("choice-kept") => kept.extend(durations(image, inner)),
                _ => {}
            }
            for step in &mut kept {
                for (state, time) in iterate(fault, image, number, entry, step, &mut tested) {
                    keep(fault, &mut exits, state, time);
                }
            }
            if !kept.is_empty() {
                return exits;
            }
            let mut step = |times: &Times| execute(fault, image, body, times);
            // the same for the test
            if let Some(inner) = test.map(|test| &image.nodes[test]) {
                match inner.tag {
                    6 if fault.is("test-choice-kept") => kept.extend(arms(fault, image, inner)),
                    3 if fault.is("test-choice-kept") => kept.extend(durations(image, inner)),
                    _ => {}
                }
            }
            for tested in &mut kept {
                for (state, time) in iterate(fault, image, number, entry, &mut step, tested) {
                    keep(fault, &mut exits, state, time);
                }
            }
            if !kept.is_empty() {
                return exits;
            }
            keep_slowest(fault, iterate(fault, image, number, entry, &mut step, &mut tested))
        }
    }
}

/// What an execution of a body or of a test does.
type Step<'a> = dyn FnMut(&Times) -> Times + 'a;

/// The arms of a branch, each alone.
fn arms<'a>(fault: &'a Fault, image: &'a Image, node: &'a Node) -> Vec<Box<Step<'a>>> {
    let step = |arm: usize| Box::new(move |times: &Times| execute(fault, image, arm, times)) as Box<Step<'a>>;
    node.children.iter().map(|&arm| step(arm)).collect()
}

/// The durations of a plain block, each alone.
fn durations<'a>(image: &'a Image, node: &Node) -> Vec<Box<Step<'a>>> {
    let step = |duration: u64| {
        Box::new(move |times: &Times| {
            let passed = |((o, lines), time): (&State, &u64)| (((o + duration) % image.period, lines.clone()), time + duration);
            times.iter().map(passed).collect()
        }) as Box<Step<'a>>
    };
    (node.low..=node.high).map(step).collect()
}

/// An execution of a loop's test, from these times; the loop had those at its entry.
fn execute_test(fault: &Fault, image: &Image, (node, test): (&Node, usize), times: &Times, entry: &Times) -> Times {
    let with = |name: &str| execute(&Fault(name.to_string()), image, test, times);
    let proper = |times: &Times| execute(fault, image, test, times);
    // each state by itself, with these lines fetched; its own are kept
    let with_lines = |lines: Set| {
        let mut after = Times::new();
        for ((offset, own), &time) in times {
            for ((end, _), time) in proper(&[((*offset, lines.clone()), time)].into_iter().collect()) {
                keep(fault, &mut after, (end, own.clone()), time);
            }
        }
        after
    };
    match fault.0.as_str() {
        "test-of-body-lost" if node.children[0] == test => times.clone(),
        "test-not-plain-lost" if image.nodes[test].tag != 3 => times.clone(),
        "test-not-block-lost" if !image.nodes[test].children.is_empty() => times.clone(),
        "test-twice" => proper(&proper(times)),
        "test-highest-only" => with("highest-only"),
        "test-first-arm-only" => with("first-arm-only"),
        "test-slowest-kept" => with("slowest-at-join"),
        "test-worst-case" => with("block-worst-case"),
        "test-greatest-only" => with("greatest-only"),
        "test-never-waits" => with(NO_WAIT),
        "test-without-tests" => with(NO_TESTS),
        "test-forgets" => forget(fault, proper(times), times),
        "test-lines-of-entry" => proper(&forget(fault, times.clone(), entry)),
        "test-hits-always" => with_lines((0..4).collect()),
        "test-misses-always" => with_lines(Set::new()),
        _ => proper(times),
    }
}

/// What goes on from k iterations to the next, and what ends with them, given what stands before the test that follows them.
fn tested(fault: &Fault, image: &Image, number: usize, k: u64, before: Times, test: &mut Step) -> (Times, Times) {
    let node = &image.nodes[number];
    let is_body = || image.nodes.iter().any(|outer| outer.tag == 7 && outer.parts()[0] == Some(number));
    let ends_before = match fault.0.as_str() {
        "test-last-lost" => true,
        "test-last-lost-but-0" => k > 0,
        "test-last-lost-below-greatest" => k < node.high,
        "test-last-lost-at-greatest" => k == node.high,
        "test-at-0-lost" => k == 0,
        "test-idle-lost" => node.high == 0,
        "test-of-inner-loop-lost" => is_body(),
        _ => false,
    };
    if ends_before {
        return (test(&before), before);
    }
    match fault.0.as_str() {
        // once before all iterations, or after all; not before the first
        "test-once-first" if k > 0 => (before.clone(), before),
        "test-lost-after-255" if k > 255 => (before.clone(), before),
        "test-once-last" => {
            let after = test(&before);
            (before, after)
        }
        "test-at-the-foot" if k == 0 => (before.clone(), before),
        "test-at-the-foot-but-0" if k == 0 => {
            let after = test(&before);
            (before, after)
        }
        "test-twice-at-last" => {
            let after = test(&before);
            let again = test(&after);
            (after, again)
        }
        "test-before-or-after" => {
            let after = test(&before);
            let mut both = before;
            after.iter().for_each(|(state, &time)| keep(fault, &mut both, state.clone(), time));
            (after, both)
        }
        NO_TESTS => (before.clone(), before),
        _ => {
            let after = test(&before);
            (after.clone(), after)
        }
    }
}

/// The exits of a loop, given what its body and its test do.
fn iterate(fault: &Fault, image: &Image, number: usize, entry: &Times, step: &mut Step, test: &mut Step) -> Times {
    let node = &image.nodes[number];
    let mut exits = Times::new();
    let mut times = entry.clone();
    if fault.is("first-iteration-times") && node.high > 0 {
        let longest = |times: &Times| times.values().copied().max().unwrap_or(0);
        let head = test(entry);
        let first = test(&step(&head));
        let one = longest(&first).saturating_sub(longest(&head));
        return first.into_iter().map(|(state, time)| (state, time + one * (node.high - 1))).collect();
    }
    // so many iterations with the same gain are taken for a loop that repeats
    let repeats = match fault.0.as_str() {
        "loop-gain-of-offsets" => 1,
        "loop-gain-of-10-iterations" => 10,
        "loop-gain-of-100-iterations" => 100,
        _ => u64::MAX,
    };
    let mut same = (0, None);
    let permitted = |k: u64| match fault.0.as_str() {
        "greatest-only" => k == node.high,
        "fewer-count-too" => true,
        "count-0-lost" => k >= node.low && (k > 0 || node.high == 0),
        // a count of tests: the body is executed once less; 0 counts as 1
        "count-of-tests" => k + 1 >= node.low && (k < node.high || node.high == 0),
        _ => k >= node.low || k == node.high,
    };
    for k in 0..=node.high {
        let before = (k > 0 && repeats < u64::MAX).then(|| listed(fault, &times));
        if k > 0 && fault.is("iteration-forgets") {
            times = forget(fault, times, entry);
        }
        if k > 0 {
            times = step(&times);
        }
        let (on, ended) = tested(fault, image, number, k, times, test);
        times = on;
        // what each of the iterations left adds, where a fault takes the last for one that repeats
        let gained = before.and_then(|before| gained(&before, &listed(fault, &times)));
        same = if gained.is_some() && gained == same.1 { (same.0 + 1, gained) } else { (1, gained) };
        let gain = gained.filter(|_| same.0 >= repeats);
        for j in k..=if gain.is_some() { node.high } else { k } {
            if permitted(j) {
                for (state, &time) in &ended {
                    keep(fault, &mut exits, state.clone(), time + gain.unwrap_or(0) * (j - k));
                }
            }
        }
        if gain.is_some() {
            break;
        }
    }
    exits
}

/// By how much every time grew, where that is the same for all and the offsets are the same.
fn gained(before: &Exits, after: &Exits) -> Option<u64> {
    let gains: Set = after.iter().filter_map(|(offset, time)| time.checked_sub(*before.get(offset)?)).collect();
    let same = before.keys().eq(after.keys()) && gains.len() == 1;
    gains.into_iter().next().filter(|_| same)
}

/// The offsets at which runs end, each with its time.
fn listed(fault: &Fault, times: &Times) -> Exits {
    let most = times.keys().map(|(_, lines)| lines.len()).max().unwrap_or(0);
    let mut exits = Exits::new();
    for ((offset, lines), &time) in times {
        if lines.len() < most && fault.is("listed-of-most-lines") || !lines.is_empty() && fault.is("listed-of-no-lines") {
            continue;
        }
        let kept = exits.entry(*offset).or_insert(time);
        *kept = match fault.0.as_str() {
            "listed-of-first" => *kept,
            "listed-of-last" => time,
            "listed-of-shortest" => time.min(*kept),
            _ => time.max(*kept),
        };
    }
    exits
}

/// The published figure knows no lines: states have none, but for a fault.
fn cost(fault: &Fault, image: &Image, number: usize, entry: &BTreeSet<State>) -> (u64, BTreeSet<State>) {
    let node = &image.nodes[number];
    match node.tag {
        3 | 4 => {
            let mut exits = BTreeSet::new();
            let mut largest = 0;
            for (offset, lines) in entry {
                let all = cycles(fault, image, node, *offset);
                exits.extend(all.iter().map(|cycles| ((offset + cycles) % image.period, lines.clone())));
                let longest = all.into_iter().max().unwrap_or(0);
                largest = match fault.0.as_str() {
                    "published-highest-offset" => longest,
                    "published-may-passes" if node.tag == 4 && node.kind < 2 => node.high,
                    _ => longest.max(largest),
                };
            }
            (largest, exits)
        }
        10 => {
            let mut exits = BTreeSet::new();
            // the largest of the accesses and of the hits
            let (mut of_access, mut of_hit) = (0, 0);
            for (offset, lines) in entry {
                let mut accesses: Vec<u64> = (node.low..=node.high).map(|e| wait(fault, image, *offset, e) + e).collect();
                let mut hits = vec![node.hit];
                let mut after = lines.clone();
                match fault.0.as_str() {
                    "published-access-only" => hits.clear(),
                    "published-hit-only" => accesses.clear(),
                    "published-knows-lines" if !after.insert(node.line) => accesses.clear(),
                    "published-knows-lines" => hits.clear(),
                    "published-first-accesses" if after.insert(node.line) => hits.clear(),
                    "published-later-hits" if !after.insert(node.line) => accesses.clear(),
                    _ => {}
                }
                of_access = accesses.iter().copied().fold(of_access, u64::max);
                of_hit = hits.iter().copied().fold(of_hit, u64::max);
                match fault.0.as_str() {
                    "published-exits-of-access" => hits.clear(),
                    "published-exits-of-hit" => accesses.clear(),
                    _ => {}
                }
                let ends = accesses.iter().chain(&hits).map(|cycles| (offset + cycles) % image.period);
                exits.extend(ends.map(|end| (end, after.clone())));
            }
            let all = match fault.0.as_str() {
                "published-cost-of-access" => of_access,
                "published-cost-of-hit" => of_hit,
                "published-cost-sum" => of_access + of_hit,
                "published-cost-smaller" => of_access.min(of_hit),
                _ => of_access.max(of_hit),
            };
            (all, exits)
        }
        5 => {
            let mut children = node.children.clone();
            if fault.is("last-first") {
                children.reverse();
            }
            if fault.is("children-once") {
                children.dedup();
            }
            children.retain(|&child| child < number);
            let mut sum = 0;
            let mut set = entry.clone();
            for child in children {
                let (one, exits) = cost(fault, image, child, &set);
                sum += one;
                set = exits;
            }
            (sum, set)
        }
        6 => {
            let arms = if fault.is("first-arm-only") { &node.children[..1] } else { &node.children };
            let each: Vec<(u64, BTreeSet<State>)> =
                arms.iter().filter(|&&arm| arm < number).map(|&arm| cost(fault, image, arm, entry)).collect();
            let costs = each.iter().map(|(one, _)| *one);
            let all = if fault.is("published-arms-added") { costs.sum() } else { costs.max().unwrap_or(0) };
            (all, each.into_iter().flat_map(|(_, exits)| exits).collect())
        }
        _ => {
            let [body, test] = node.parts().map(|part| part.filter(|&part| part < number));
            let test = test.filter(|_| !fault.is("test-ignored"));
            let of = |part: Option<usize>, set: &BTreeSet<State>| match part {
                Some(part) => cost(fault, image, part, set),
                None => (0, set.clone()),
            };
            let mut sum = 0;
            let mut set = entry.clone();
            let mut joined = BTreeSet::new();
            // the costs of the first test, and of the first iteration with the test behind it
            let (mut head, mut first) = (0, 0);
            for k in 0..=node.high {
                let before_body = set.clone();
                let mut of_body = 0;
                if k > 0 {
                    let (one, exits) = of(body, &set);
                    of_body = one;
                    if fault.is("published-joined-loop") {
                        set.extend(exits);
                    } else {
                        set = exits;
                    }
                }
                let (one, after) = of(test, &set);
                let of_test = match fault.0.as_str() {
                    "published-test-of-entry" => of(test, entry).0,
                    "published-test-before-body" => of(test, &before_body).0,
                    "published-test-of-joined" => of(test, &(&joined | &set)).0,
                    "published-without-tests" => 0,
                    "published-first-test-lost" if k == 0 => 0,
                    "published-last-test-lost" if k == node.high => 0,
                    "published-last-test-twice" if k == node.high => 2 * one,
                    "published-idle-test-lost" if node.high == 0 => 0,
                    "published-one-test" if k > 0 => 0,
                    "published-tests-to-255" if k > 255 => 0,
                    "published-tests-of-least" if k > node.low => 0,
                    "published-first-test-times" if k > 0 => head,
                    "published-largest-test" => one.max(head),
                    "published-test-or-body" => one.saturating_sub(of_body),
                    _ => one,
                };
                match k {
                    0 => head = of_test,
                    1 => first = of_body + of_test,
                    _ => {}
                }
                if !(fault.is("published-least-count") && k > node.low) {
                    sum += of_body + of_test;
                }
                if k >= node.low {
                    joined.extend(match fault.0.as_str() {
                        "published-exits-before-test" => set.clone(),
                        "published-0-is-entry" if k == 0 => set.clone(),
                        "published-exits-around-test" => &set | &after,
                        _ => after.clone(),
                    });
                }
                match fault.0.as_str() {
                    "published-body-before-test" => {}
                    "published-body-around-test" => set.extend(after),
                    _ => set = after,
                }
            }
            if fault.is("published-first-times") {
                sum = head + first * node.high;
            }
            (sum, joined)
        }
    }
}

/// The states after all runs, with no line fetched at first.
fn from_starts(fault: &Fault, image: &Image, starts: &[u64]) -> Times {
    let entry = if fault.is("tight-of-last") { image.nodes.len() - 1 } else { image.entry };
    execute(fault, image, entry, &starts.iter().map(|&start| ((start, Set::new()), 0)).collect())
}

/// The published figure, and its exit set.
fn published(fault: &Fault, image: &Image, starts: &[u64]) -> (u64, Set) {
    let node = if fault.is("published-of-last") { image.nodes.len() - 1 } else { image.entry };
    let (all, exits) = cost(fault, image, node, &starts.iter().map(|&start| (start, Set::new())).collect());
    (all, exits.into_iter().map(|(offset, _)| offset).collect())
}

fn figures(fault: &Fault, image: &Image) -> String {
    let starts: Vec<u64> = match fault.0.as_str() {
        "first-start-only" => image.starts[..1].to_vec(),
        _ => image.starts.clone(),
    };
    let first_alone = of_first_stretch(image);
    let of_tight = if fault.is("tight-of-first-stretch") { &first_alone } else { image };
    let of_published = if fault.is("published-of-first-stretch") { &first_alone } else { image };
    let mut after = from_starts(fault, of_tight, &starts);
    if fault.is("lines-over-starts") {
        after = Times::new();
        for &start in &starts {
            let known = some_fetched(&after);
            for (state, time) in execute(fault, image, image.entry, &[((start, known), 0)].into_iter().collect()) {
                keep(fault, &mut after, state, time);
            }
        }
    }
    let mut times = listed(fault, &after);
    let (mut published, set) = published(fault, of_published, &starts);
    if fault.is("published-per-start") {
        let each = starts.iter().map(|&start| self::published(fault, image, &[start]).0);
        published = each.max().unwrap_or(0);
    }
    match fault.0.as_str() {
        "zero-is-none" => times.retain(|_, &mut time| time > 0),
        "last-offset-lost" => times.retain(|&offset, _| offset + 1 != image.period),
        "times-32-bit" => times.values_mut().for_each(|time| *time %= 1 << 32),
        "greatest-wait" => {
            let longest = times.values().copied().max().unwrap_or(0);
            times = (0..image.period).map(|offset| (offset, longest)).collect();
        }
        _ => {}
    }
    let mut tight = times.values().copied().max().unwrap_or(0);
    match fault.0.as_str() {
        "tight-as-published" => published = tight,
        "published-as-tight" => tight = published,
        "tight-of-most-lines" => {
            let most = after.keys().map(|(_, lines)| lines.len()).max();
            let of_most = after.iter().filter(|((_, lines), _)| Some(lines.len()) == most);
            tight = of_most.map(|(_, &time)| time).max().unwrap_or(0);
        }
        _ => {}
    }
    let exits = match fault.0.as_str() {
        "exits-in-a-byte" => times.len() % 256,
        "exits-made-up" => image.period as usize,
        "exits-per-combination" => after.len(),
        "exits-of-published" => set.len(),
        _ => times.len(),
    };
    let mut lines: Vec<String> = times.iter().map(|(offset, time)| format!("{offset} {time}\n")).collect();
    match fault.0.as_str() {
        "exits-descending" => lines.reverse(),
        "zero-lines" => {
            lines = (0..image.period).map(|o| format!("{o} {}\n", times.get(&o).copied().unwrap_or(0))).collect();
        }
        _ => {}
    }
    format!("tight {tight}\npublished {published}\nexits {exits}\n{}", lines.concat())
}
