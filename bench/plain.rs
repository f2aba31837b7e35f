//! The job of `figure` done the plain way, for the comparison of speed (bench/README.md): a task image on standard input, its listing on
//! standard output, as document 01 and requests W1, W3, W5 and W9 of document 02 have them, refusals included. Standard library only.
//!
//! The plain way: each visit of a block takes every reached offset and every duration, and a loop is unrolled by a plain loop, its test before
//! the first iteration and after each; where an image has lines, there is one table of longest times for each set of lines fetched. With equal
//! slots a wait is worked out where it is asked for; with a schedule there is a table of them, made once. Nothing else is kept from one visit
//! to another and no iteration is skipped. What it does not do: it has no library entry that is lent a table, so that number 10 never comes up;
//! and nothing about it is proved.

use std::fmt::Write as _;
use std::io::{Read, Write};

/// For each offset below the period the longest time of the runs that are there, or `NONE`.
type Times = [u64; 256];
const NONE: u64 = u64::MAX;

/// For each offset below the period whether it is in the set.
type Set = [bool; 256];

/// The period, and the longest access of the core. With equal slots that is the core's slot, which begins at `first`; a schedule has a table
/// of waits instead, by duration and offset.
#[derive(Default)]
struct Bus {
    period: usize,
    longest: usize,
    first: usize,
    waits: Vec<[u8; 256]>,
}

/// Any duration from lowest to highest: passed, accessed for, or either.
#[derive(Clone, Copy)]
struct Block {
    passes: bool,
    accesses: bool,
    lowest: usize,
    highest: usize,
}

/// A block fetched once, as small as its field: a larger node would cost images without lines something too.
#[derive(Clone, Copy)]
struct Once {
    line: u8,
    lowest: u8,
    highest: u8,
    hit: u16,
}

impl Once {
    /// Its first execution, and every later one.
    fn blocks(&self) -> (Block, Block) {
        let hit = self.hit as usize;
        (
            Block { passes: false, accesses: true, lowest: self.lowest as usize, highest: self.highest as usize },
            Block { passes: true, accesses: false, lowest: hit, highest: hit },
        )
    }
}

/// A loop, as small as its field too.
#[derive(Clone, Copy)]
struct Loop {
    least: u16,
    greatest: u16,
    body: u16,
    test: u16,
}

/// The children of a sequence or branch stay in the image, two bytes each.
#[derive(Clone, Copy)]
enum Node<'a> {
    Plain(Block),
    Bus(Block),
    Once(Once),
    Sequence(&'a [u8]),
    Branch(&'a [u8]),
    Loop(Loop),
}

#[derive(Default)]
struct Task<'a> {
    bus: Bus,
    starts: &'a [u8],
    nodes: Vec<Node<'a>>,
    entry: usize,
    lines: usize, // one more than the highest line number of a node, reached or not, or 0
}

struct Refusal {
    number: u32,
    place: usize,
}

// ---- judging

/// Fields are judged from the front, each in the order head cut, 2, 3, 4, body cut, 5, 6, 11; then 7, 8, 9, 18.
fn judge(image: &[u8]) -> Result<Task<'_>, Refusal> {
    let mut task = Task::default();
    let mut sizes: Vec<(usize, usize)> = Vec::new(); // each node's depth and visits
    let mut named = None; // the entry, where a field with tag 8 has closed the image
    let mut place = 0;
    let mut field = 0;
    while place < image.len() {
        let refuse = |number| Err(Refusal { number, place });
        let [tag, high, low, rest @ ..] = &image[place..] else { return refuse(1) };
        let tag_fits = match field {
            0 => *tag == 1 || *tag == 9,
            1 => *tag == 2,
            2 => (3..=7).contains(tag) || *tag == 10,
            _ => named.is_none() && ((3..=8).contains(tag) || *tag == 10),
        };
        if !tag_fits {
            return refuse(2);
        }
        if task.nodes.len() == 256 && *tag != 8 {
            return refuse(3);
        }
        let length = word(&[*high, *low]);
        let length_fits = match tag {
            1 | 4 => length == 3,
            2 => (1..=256).contains(&length),
            3 => length == 4,
            5 => (2..=32).contains(&length) && length % 2 == 0,
            6 => (4..=16).contains(&length) && length % 2 == 0,
            7 => length == 8,
            8 => length == 2,
            9 => (3..=65).contains(&length) && length % 2 == 1,
            _ => length == 5,
        };
        if !length_fits {
            return refuse(4);
        }
        let Some(body) = rest.get(..length) else { return refuse(1) };
        match tag {
            1 => {
                let (cores, slot, core) = (body[0] as usize, body[1] as usize, body[2] as usize);
                if !(2..=16).contains(&cores) || !(1..=128).contains(&slot) || core >= cores || cores * slot > 256 {
                    return refuse(5);
                }
                task.bus = Bus { period: cores * slot, longest: slot, first: core * slot, waits: Vec::new() };
            }
            9 => {
                let Some(bus) = schedule(body) else { return refuse(5) };
                task.bus = bus;
            }
            2 => {
                let below_period = body.iter().all(|&o| (o as usize) < task.bus.period);
                if !below_period || !body.windows(2).all(|two| two[0] < two[1]) {
                    return refuse(5);
                }
                task.starts = body;
            }
            8 => {
                let number = word(body);
                if number >= task.nodes.len() {
                    return refuse(11);
                }
                named = Some(number);
            }
            _ => {
                let Some(node) = node(*tag, body, &task.bus) else { return refuse(5) };
                let Some(size) = size(&node, &sizes) else { return refuse(6) };
                if let Node::Once(once) = node {
                    task.lines = task.lines.max(once.line as usize + 1);
                }
                task.nodes.push(node);
                sizes.push(size);
            }
        }
        place += 3 + length;
        field += 1;
    }
    let refuse = |number| Err(Refusal { number, place });
    let Some(last) = sizes.len().checked_sub(1) else { return refuse(7) };
    task.entry = named.unwrap_or(last);
    match sizes[task.entry] {
        (depth, _) if depth > 24 => refuse(8),
        (_, visits) if visits > 100_000 => refuse(9),
        _ if task.bus.period << task.lines > 1024 => refuse(18),
        _ => Ok(task),
    }
}

/// A number of two bytes, the high byte first.
fn word(bytes: &[u8]) -> usize {
    bytes[0] as usize * 256 + bytes[1] as usize
}

/// The bus of a schedule, the analysed core and pairs of core and slot length, or none where a number breaks its row's rules.
fn schedule(body: &[u8]) -> Option<Bus> {
    let mut owned = Vec::new(); // for each offset whether the analysed core owns it
    for pair in body[1..].chunks_exact(2) {
        let (core, slot) = (pair[0], pair[1] as usize);
        if core > 15 || !(1..=128).contains(&slot) {
            return None;
        }
        owned.resize(owned.len() + slot, core == body[0]);
    }
    let period = owned.len();
    if period > 256 || !owned.contains(&true) {
        return None;
    }
    // the owned cycles from each offset on, at most the period: twice round, from the last offset back
    let (mut stretches, mut stretch) = ([0; 256], 0);
    for o in (0..period).rev().chain((0..period).rev()) {
        stretch = if owned[o] { period.min(stretch + 1) } else { 0 };
        stretches[o] = stretch;
    }
    let longest = stretches.into_iter().max()?;
    let mut waits = vec![[0; 256]; longest + 1];
    for (duration, waits) in waits.iter_mut().enumerate() {
        let mut wait = 0;
        for o in (0..period).rev().chain((0..period).rev()) {
            wait = if stretches[o] >= duration { 0 } else { wait + 1 };
            waits[o] = wait;
        }
    }
    Some(Bus { period, longest, first: 0, waits })
}

/// The node of a field, or none where a number breaks its row's rules.
fn node<'a>(tag: u8, body: &'a [u8], bus: &Bus) -> Option<Node<'a>> {
    let (node, good) = match tag {
        3 => {
            let (lowest, highest) = (word(body), word(&body[2..]));
            (Node::Plain(Block { passes: true, accesses: false, lowest, highest }), lowest <= highest && highest - lowest <= 63)
        }
        4 => {
            let (kind, lowest, highest) = (body[0], body[1] as usize, body[2] as usize);
            let good = (kind == 1 || kind == 2) && 1 <= lowest && lowest <= highest && highest <= bus.longest;
            (Node::Bus(Block { passes: kind == 1, accesses: true, lowest, highest }), good)
        }
        5 => (Node::Sequence(body), true),
        6 => (Node::Branch(body), true),
        7 => {
            let [least, greatest, body, test] = [0, 2, 4, 6].map(|at| word(&body[at..]) as u16);
            (Node::Loop(Loop { least, greatest, body, test }), least <= greatest && greatest <= 10_000)
        }
        _ => {
            let (line, lowest, highest, hit) = (body[0], body[1], body[2], word(&body[3..]) as u16);
            let good = line <= 3 && 1 <= lowest && lowest <= highest && highest as usize <= bus.longest;
            (Node::Once(Once { line, lowest, highest, hit }), good)
        }
    };
    good.then_some(node)
}

/// Depth and visits (kept at 100,001 where there are more) of a node after those of `sizes`, or none where a child is not one of them.
fn size(node: &Node, sizes: &[(usize, usize)]) -> Option<(usize, usize)> {
    let (depth, visits) = match node {
        Node::Plain(_) | Node::Bus(_) | Node::Once(_) => (0, 0),
        Node::Sequence(body) | Node::Branch(body) => {
            let (mut deepest, mut sum) = (0, 0);
            for child in children(body) {
                let (depth, visits) = sizes.get(child)?;
                deepest = deepest.max(*depth);
                sum += visits;
            }
            (deepest, sum)
        }
        Node::Loop(l) => {
            let (body, test) = (sizes.get(l.body as usize)?, sizes.get(l.test as usize)?);
            (body.0.max(test.0), l.greatest as usize * (body.1 + test.1) + test.1)
        }
    };
    Some((1 + depth, (1 + visits).min(100_001)))
}

fn children(body: &[u8]) -> impl Iterator<Item = usize> + '_ {
    body.chunks_exact(2).map(word)
}

// ---- figures

impl Task<'_> {
    /// Every execution of a block from an offset: the offset at which it ends, and its cycles.
    #[inline(always)]
    fn executions(&self, block: &Block, offset: usize, mut each: impl FnMut(usize, u64)) {
        let Bus { period, longest: slot, first, ref waits } = self.bus;
        if block.passes {
            let mut end = (offset + block.lowest) % period;
            for duration in block.lowest..block.highest + 1 {
                each(end, duration as u64);
                end = if end + 1 == period { 0 } else { end + 1 };
            }
        }
        if block.accesses && !waits.is_empty() {
            for duration in block.lowest..block.highest + 1 {
                let cycles = waits[duration][offset] as usize + duration;
                each((offset + cycles) % period, cycles as u64);
            }
        } else if block.accesses {
            for duration in block.lowest..block.highest + 1 {
                let wait = if offset < first {
                    first - offset
                } else if offset + duration <= first + slot {
                    0
                } else {
                    first + period - offset
                };
                // an access ends inside its slot, or with it
                let start = if wait == 0 { offset } else { first };
                let end = if start + duration == period { 0 } else { start + duration };
                each(end, (wait + duration) as u64);
            }
        }
    }

    /// Tight: the tables of longest times go through a node. Table number m is that of the lines whose bits are set in m.
    fn longest<const SETS: usize>(&self, node: usize, times: &mut [Times; SETS]) {
        match &self.nodes[node] {
            Node::Plain(block) | Node::Bus(block) => {
                for table in times {
                    let mut exits = [NONE; 256];
                    for (offset, &time) in table[..self.bus.period].iter().enumerate() {
                        if time != NONE {
                            self.executions(block, offset, |end, cycles| keep_longer(&mut exits[end], time + cycles));
                        }
                    }
                    *table = exits;
                }
            }
            Node::Once(once) => {
                let (fetch, hit) = once.blocks();
                let mut exits = [[NONE; 256]; SETS];
                for (set, table) in times.iter().enumerate() {
                    let after = set | 1 << once.line;
                    let block = if after == set { &hit } else { &fetch };
                    for (offset, &time) in table[..self.bus.period].iter().enumerate() {
                        if time != NONE {
                            self.executions(block, offset, |end, cycles| keep_longer(&mut exits[after][end], time + cycles));
                        }
                    }
                }
                *times = exits;
            }
            Node::Sequence(body) => {
                for child in children(body) {
                    self.longest(child, times);
                }
            }
            Node::Branch(body) => {
                let entry = *times;
                *times = [[NONE; 256]; SETS];
                for arm in children(body) {
                    let mut exits = entry;
                    self.longest(arm, &mut exits);
                    self.join_times(times, &exits);
                }
            }
            Node::Loop(Loop { least, greatest, body, test }) => {
                self.longest(*test as usize, times);
                let mut current = *times;
                if *least > 0 {
                    *times = [[NONE; 256]; SETS];
                }
                for done in 1..greatest + 1 {
                    self.longest(*body as usize, &mut current);
                    self.longest(*test as usize, &mut current);
                    if done >= *least {
                        self.join_times(times, &current);
                    }
                }
            }
        }
    }

    fn join_times<const SETS: usize>(&self, into: &mut [Times; SETS], from: &[Times; SETS]) {
        for (into, from) in into.iter_mut().zip(from) {
            self.join_table(into, from);
        }
    }

    fn join_table(&self, into: &mut Times, from: &Times) {
        for (place, &time) in into.iter_mut().zip(from).take(self.bus.period) {
            if time != NONE {
                keep_longer(place, time);
            }
        }
    }

    /// For each offset the longest time of the runs that end there, over all sets of lines; SETS is 2 to the number of lines.
    fn exit_times<const SETS: usize>(&self) -> Times {
        let mut times = [[NONE; 256]; SETS];
        for &start in self.starts {
            times[0][start as usize] = 0;
        }
        self.longest(self.entry, &mut times);
        for set in 1..SETS {
            let from = times[set];
            self.join_table(&mut times[0], &from);
        }
        times[0]
    }

    /// Published: the set of offsets goes through a node; the cost is given back. It knows no lines: a block fetched once is both blocks at each
    /// execution.
    fn cost(&self, node: usize, set: &mut Set) -> u64 {
        match &self.nodes[node] {
            Node::Plain(block) => {
                self.exits(block, set);
                block.highest as u64
            }
            Node::Bus(block) => self.exits(block, set),
            Node::Once(once) => {
                let (fetch, hit) = once.blocks();
                let mut later = *set;
                let cost = self.exits(&fetch, set).max(self.exits(&hit, &mut later));
                join_sets(set, &later);
                cost
            }
            Node::Sequence(body) => children(body).map(|child| self.cost(child, set)).sum(),
            Node::Branch(body) => {
                let entry = *set;
                *set = [false; 256];
                let mut largest = 0;
                for arm in children(body) {
                    let mut exits = entry;
                    largest = largest.max(self.cost(arm, &mut exits));
                    join_sets(set, &exits);
                }
                largest
            }
            Node::Loop(Loop { least, greatest, body, test }) => {
                let mut sum = self.cost(*test as usize, set);
                let mut current = *set;
                if *least > 0 {
                    *set = [false; 256];
                }
                for done in 1..greatest + 1 {
                    sum += self.cost(*body as usize, &mut current);
                    sum += self.cost(*test as usize, &mut current);
                    if done >= *least {
                        join_sets(set, &current);
                    }
                }
                sum
            }
        }
    }

    /// The exit set of a block; the most cycles of its executions are given back.
    fn exits(&self, block: &Block, set: &mut Set) -> u64 {
        let mut exits = [false; 256];
        let mut most = 0;
        for (offset, &there) in set[..self.bus.period].iter().enumerate() {
            if there {
                self.executions(block, offset, |end, cycles| {
                    exits[end] = true;
                    most = most.max(cycles);
                });
            }
        }
        *set = exits;
        most
    }
}

fn keep_longer(place: &mut u64, time: u64) {
    if *place == NONE || *place < time {
        *place = time;
    }
}

fn join_sets(into: &mut Set, from: &Set) {
    for (place, &there) in into.iter_mut().zip(from) {
        *place |= there;
    }
}

// ---- the program

fn listing(image: &[u8]) -> String {
    let mut text = String::with_capacity(8192);
    let task = match judge(image) {
        Ok(task) => task,
        Err(Refusal { number, place }) => return format!("refused {number} {place}\n"),
    };
    let times = match task.lines {
        0 => task.exit_times::<1>(),
        1 => task.exit_times::<2>(),
        2 => task.exit_times::<4>(),
        3 => task.exit_times::<8>(),
        _ => task.exit_times::<16>(),
    };
    let mut set = [false; 256];
    for &start in task.starts {
        set[start as usize] = true;
    }
    let published = task.cost(task.entry, &mut set);
    let exits = || times[..task.bus.period].iter().enumerate().filter(|(_, &time)| time != NONE);
    let tight = exits().map(|(_, &time)| time).max().unwrap_or(0);
    let _ = write!(text, "tight {tight}\npublished {published}\nexits {}\n", exits().count());
    for (offset, time) in exits() {
        let _ = writeln!(text, "{offset} {time}");
    }
    text
}

/// At most 16,384 bytes are read. Nothing is listed of an input that cannot be read whole.
fn main() -> std::io::Result<()> {
    let mut image = Vec::with_capacity(16_384);
    std::io::stdin().take(16_384).read_to_end(&mut image)?;
    std::io::stdout().write_all(listing(&image).as_bytes())
}
