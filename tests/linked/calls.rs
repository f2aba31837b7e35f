// The safe wrapper on the cases of cases.txt, from standard input: for each, tables of 0 to period + 3 places (13 for a refused image), filled
// before the call and compared after it; and the stack that the header says is enough, 1 MiB for figures and preview and 32 KiB for each of the
// others.
// Writes 'ok NAME' or 'wrong NAME: ..' for each.
use slotfigures::{
    edit, figures, finishes, judge, period, preview, Arbiter, Figures, Refusal, Task, MOST_TASKS,
    MOST_WAITS, NO_TIME,
};
use std::io::Read;

// The table's words, by number; 18 has its own.
const WORDS: [&str; 12] = [
    "",
    "cut",
    "tag",
    "full",
    "length",
    "value",
    "forward",
    "unfinished",
    "deep",
    "long",
    "table",
    "entry",
];

enum Expected {
    Given {
        period: usize,
        figures: Figures,
        times: Vec<u64>,
    },
    Refused(Refusal),
}

fn refusal(number: u64, place: u64) -> Refusal {
    Refusal {
        number,
        word: match number {
            18 => "lines",
            _ => WORDS[number as usize],
        },
        place,
    }
}

fn read_image(text: &str) -> Vec<u8> {
    let digits: Vec<u32> = text
        .chars()
        .filter(|c| *c != ' ')
        .map(|c| c.to_digit(16).expect("a digit"))
        .collect();
    digits.chunks(2).map(|d| (d[0] * 16 + d[1]) as u8).collect()
}

fn read_expected(text: &str) -> Expected {
    let number = |s: &str| s.parse::<u64>().expect("a number");
    let items: Vec<&str> = text.split_whitespace().collect();
    match items[0] {
        "refused" => Expected::Refused(refusal(number(items[1]), number(items[2]))),
        "given" => {
            let period = number(items[1]) as usize;
            let mut times = vec![NO_TIME; period];
            for item in &items[5..] {
                let (offset, time) = item.split_once(':').expect("OFFSET:TIME");
                times[number(offset) as usize] = number(time);
            }
            let figures = Figures {
                tight: number(items[2]),
                published: number(items[3]),
                exits: number(items[4]),
            };
            Expected::Given {
                period,
                figures,
                times,
            }
        }
        other => panic!("neither given nor refused: {other}"),
    }
}

// What is wrong with a case, if anything.
fn wrong(image: &[u8], expected: &Expected) -> Option<String> {
    let (accepted, most) = match expected {
        Expected::Given { period, .. } => (Ok(*period), period + 3),
        Expected::Refused(r) => (Err(*r), 13),
    };
    if period(image) != accepted || judge(image) != accepted.map(|_| ()) {
        return Some("judge".to_string());
    }
    for places in 0..=most {
        let before: Vec<u64> = (0..places as u64)
            .map(|i| 0xa5a5_0000_0000_0000 + i)
            .collect();
        let mut after = before.clone();
        let answer = match expected {
            Expected::Refused(r) => Err(*r),
            Expected::Given { period, .. } if places < *period => {
                Err(refusal(10, image.len() as u64))
            }
            Expected::Given {
                period,
                figures,
                times,
            } => {
                after[..*period].copy_from_slice(times);
                Ok(*figures)
            }
        };
        let mut table = before;
        if figures(image, &mut table) != answer || table != after {
            return Some(format!("figures, table of {places}"));
        }
    }
    None
}

// Calls as deep as they come: depth 24, all loops over node 0, with the most halvings of counts that 100,000 visits permit; in the tight figure none
// is periodic before its last iteration. They are tested by a plain block of 0 cycles, behind the other blocks. From 4. One loop more stands above
// the entry, which is named.
fn deepest(bus: &str, blocks: &[&str]) -> Vec<u8> {
    let mut image = read_image(&format!("{bus} 02000104 {} {ZERO}", blocks.concat()));
    let test = blocks.len() as u8;
    let mut body = 0;
    for i in 0..24 {
        let count = match i {
            0 => 9,
            1..=5 => 5,
            _ => 1,
        };
        image.extend([7, 0, 8, 0, count, 0, count, 0, body, 0, test]);
        body = test + 1 + i;
    }
    image.extend([8, 0, 2, 0, body - 1]);
    image
}

// 2 cores, slot 16; 4 cores, slot 16, where 4 lines make 1,024 combinations of lines and offset; slots of unequal length, so that of 21 offsets 16 to
// 20 with 0 to 3, and 7 to 13, are stretches. Core 0 of each.
const EQUAL: &str = "010003021000";
const LINED: &str = "010003041000";
const UNEQUAL: &str = "09000b00 0004 0103 0007 0102 0005";

// Always accesses 1; plain, 1 cycle, and 0; fetched once in 1 cycle, line 3, with a hit of 65.
const A1: &str = "040003020101";
const PLAIN: &str = "03000400010001";
const ZERO: &str = "03000400000000";
const ONCE: &str = "0a00050301010041";

// Whether those are both figures, and the first of them the time of the one exit offset.
fn takes(given: Result<Figures, Refusal>, table: &[u64], both: [u64; 2], exit: usize) -> bool {
    let mut times = vec![NO_TIME; table.len()];
    times[exit] = both[0];
    let figures = Figures {
        tight: both[0],
        published: both[1],
        exits: 1,
    };
    given == Ok(figures) && table == times
}

// The block is executed 28,125 times. The core owns 16 cycles of each period, so 16 accesses take one: 1,757 periods, and 13 accesses more, of which
// the last starts at 0 and ends at 1.
const DEEPEST: [u64; 2] = [1_757 * 32 + 29; 2];
// On unequal slots likewise.
const DEEPEST_UNEQUAL: [u64; 2] = [1_757 * 21 + 18; 2];
// The first is fetched and ends at 5, and the others are hit, once round the period and 1 cycle more. Published: no wait is as long as a hit.
const DEEPEST_ONCE: [u64; 2] = [1 + 28_124 * 65, 28_125 * 65];

fn deepest_calls() -> bool {
    let (mut table, mut lined, mut unequal) = ([NO_TIME; 32], [NO_TIME; 64], [NO_TIME; 21]);
    let given = figures(&deepest(EQUAL, &[A1]), &mut table);
    let once = figures(&deepest(LINED, &[ONCE]), &mut lined);
    let pairs = figures(&deepest(UNEQUAL, &[A1]), &mut unequal);
    takes(given, &table, DEEPEST, 1)
        && takes(once, &lined, DEEPEST_ONCE, 33)
        && takes(pairs, &unequal, DEEPEST_UNEQUAL, 1)
}

// The same with a plain block beside it, which the entry does not reach; and over a plain block: 28,125 times 3 cycles from 4 end at 27.
fn deepest_previews() -> bool {
    let (mut table, mut lined, mut unequal) = ([NO_TIME; 32], [NO_TIME; 64], [NO_TIME; 21]);
    let mut other = [NO_TIME; 32];
    let beside = preview(&deepest(EQUAL, &[A1, PLAIN]), 1, 3, 3, &mut table);
    let once = preview(&deepest(LINED, &[ONCE, PLAIN]), 1, 3, 3, &mut lined);
    let pairs = preview(&deepest(UNEQUAL, &[A1, PLAIN]), 1, 3, 3, &mut unequal);
    let below = preview(&deepest(EQUAL, &[PLAIN]), 0, 3, 3, &mut other);
    takes(beside, &table, DEEPEST, 1)
        && takes(once, &lined, DEEPEST_ONCE, 33)
        && takes(pairs, &unequal, DEEPEST_UNEQUAL, 1)
        && takes(below, &other, [3 * 28_125; 2], 27)
}

// The longest image of a block: it, and 255 sequences of 16 children, of which the last is named, from all 256 starts, on a bus of 32 pairs.
fn longest(block: &str) -> Vec<u8> {
    let mut image = read_image(&format!("09004100 {} 020100", "00080108".repeat(16)));
    image.extend(0..=255);
    image.extend(read_image(block));
    image.extend([&[5, 0, 32][..], &[0; 32]].concat().repeat(255));
    image.extend([8, 0, 2, 0, 255]);
    image
}

// The longest image of all, with a line more, which no period of 256 permits, and with the number of no node.
fn most_bytes() -> bool {
    let (line_1, line_2) = ("0a00050101010000", "0a00050201010000");
    let good = period(&longest(line_1)) == Ok(256) && longest(line_1).len() == 9265;
    let mut none = longest(line_1);
    none[9263] = 1;
    good && period(&longest(line_2)) == Err(refusal(18, 9265))
        && period(&none) == Err(refusal(11, 9260))
}

// The last of the most nodes, all plain, and the first of the longest image with a plain block.
fn edited() -> bool {
    let mut nodes = read_image("010003020500 02000104");
    nodes.extend(read_image(PLAIN).repeat(256));
    let mut longest = longest(PLAIN);
    let good = edit(&mut nodes, 255, 3, 4).is_ok() && edit(&mut longest, 0, 3, 4).is_ok();
    let four = [0, 3, 0, 4];
    good && nodes[1798..] == four && longest.len() == 9264 && longest[330..334] == four
}

// The largest table: 64 tasks of the largest time on one core, each waiting for as many as it may of those before it.
fn largest_table() -> bool {
    let earlier: Vec<usize> = (0..MOST_TASKS).collect();
    let tasks: Vec<Task> = (0..MOST_TASKS)
        .map(|i| Task {
            core: 0,
            time: 6_553_500_000,
            waits: &earlier[i.saturating_sub(MOST_WAITS)..i],
        })
        .collect();
    finishes(&tasks).map(|ends| ends[MOST_TASKS - 1]) == Ok(419_424_000_000)
}

// Every call of an arbiter: the last core of sixteen is done at the end of the longest period.
fn last_core() -> Result<bool, Refusal> {
    let arbiter = Arbiter::new(16, 16)?;
    let (core, workshop) = (arbiter.core(15).expect("a core"), arbiter.workshop());
    core.write(Arbiter::MASK, 1)?;
    core.write(Arbiter::LENGTH, 16)?;
    for _ in 0..255 {
        workshop.tick()?;
    }
    let running = workshop.read(15, Arbiter::FLAGS)? == Arbiter::RUNNING && !workshop.line(15)?;
    workshop.tick()?;
    Ok(running && core.read(Arbiter::FLAGS)? == Arbiter::DONE && core.line()?)
}

// Whether a call gives what it should in a thread with so much stack; where it ends, the program does.
fn within_the_stack(kib: usize, call: fn() -> bool) -> Option<String> {
    let thread = std::thread::Builder::new()
        .stack_size(kib << 10)
        .spawn(call);
    let good = thread.expect("a thread").join().expect("no panic");
    (!good).then(|| "other numbers".to_string())
}

fn main() {
    let mut text = String::new();
    std::io::stdin()
        .read_to_string(&mut text)
        .expect("standard input");
    let mut failed = false;
    let mut tell = |name: &str, wrong: Option<String>| match wrong {
        None => println!("ok {name}"),
        Some(what) => {
            failed = true;
            println!("wrong {name}: {what}");
        }
    };
    for line in text
        .lines()
        .filter(|l| !l.is_empty() && !l.starts_with('#'))
    {
        let parts: Vec<&str> = line.split(';').collect();
        tell(
            parts[0],
            wrong(&read_image(parts[1]), &read_expected(parts[2])),
        );
    }
    let deepest = within_the_stack(1024, deepest_calls);
    tell("the deepest calls in 1 MiB of stack", deepest);
    let previews = within_the_stack(1024, deepest_previews);
    tell("the deepest previews in 1 MiB of stack", previews);
    tell("judge in 32 KiB of stack", within_the_stack(32, most_bytes));
    tell("edit in 32 KiB of stack", within_the_stack(32, edited));
    let largest = within_the_stack(32, largest_table);
    tell("finishes in 32 KiB of stack", largest);
    let last = within_the_stack(32, || last_core() == Ok(true));
    tell("the arbiter in 32 KiB of stack", last);
    std::process::exit(failed as i32);
}
