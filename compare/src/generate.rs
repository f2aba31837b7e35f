//! Builds images: the fields, random tasks, and damage done to valid images. Everything follows from the seed.

use crate::cases;
use crate::image::{bus_of, judge, Bus, Node, Refusal, Task, MOST_BYTES};
use std::collections::HashSet;

/// What is known of an image's answer before the reference gives its own.
#[derive(Clone)]
pub enum Expected {
    Open,
    Accepted,
    Refused(u64),
    Text(String),
}

pub struct Case {
    pub category: &'static str,
    pub image: Vec<u8>,
    pub expected: Expected,
    /// the number of the image that says the same with tag 1, without tag 8, or with loops, where this one is made of it
    pub same_as: Option<usize>,
}

/// The categories of images made of others by naming their entry, and by writing their loops out.
pub const NAMED: &str = "entry named";
pub const WRITTEN_OUT: &str = "loops written out";

/// The images, each once.
#[derive(Default)]
pub struct Cases {
    pub list: Vec<Case>,
    seen: HashSet<Vec<u8>>,
}

impl Cases {
    pub fn add(&mut self, category: &'static str, image: Vec<u8>, expected: Expected) {
        if self.seen.insert(image.clone()) {
            self.list.push(Case { category, image, expected, same_as: None });
        }
    }

    /// Adds the image of this number with its equal schedule written the other way, where that can be done and both are read whole.
    fn add_other_way(&mut self, number: usize) {
        if let Some(image) = with_pairs(&self.list[number].image).filter(|image| image.len() <= MOST_BYTES) {
            self.add_same("written either way", image, number);
        }
    }

    /// Adds the image of this number with its entry named, where that can be done and it is calculated in time.
    fn add_named(&mut self, random: &mut Random, number: usize) {
        if let Some(image) = with_entry(random, &self.list[number].image).filter(|image| work(image) <= MOST_WORK) {
            self.add_same(NAMED, image, number);
        }
    }

    /// Adds the image of this number with its loops written out, where that can be done and it is calculated in time.
    fn add_written_out(&mut self, number: usize) {
        if let Some(image) = written_out(&self.list[number].image).filter(|image| work(image) <= MOST_WORK) {
            self.add_same(WRITTEN_OUT, image, number);
        }
    }

    /// Adds an image that says the same as the one of this number.
    fn add_same(&mut self, category: &'static str, image: Vec<u8>, number: usize) {
        let case = &self.list[number];
        let expected = match &case.expected {
            Expected::Text(text) => Expected::Text(moved(text, case.image.len(), image.len())),
            expected => expected.clone(),
        };
        let all = self.list.len();
        self.add(category, image, expected);
        self.list[all..].iter_mut().for_each(|added| added.same_as = Some(number));
    }

    /// Leaves out images that take long to calculate.
    fn add_quick(&mut self, category: &'static str, image: Vec<u8>) {
        if work(&image) <= MOST_WORK {
            self.add(category, image, Expected::Open);
        }
    }
}

/// Pseudo-random numbers: xorshift of 64 bits.
pub struct Random(u64);

impl Random {
    pub fn new(seed: u64) -> Random {
        Random(seed.wrapping_mul(0x9e37_79b9_7f4a_7c15) | 1)
    }

    fn next(&mut self) -> u64 {
        self.0 ^= self.0 << 13;
        self.0 ^= self.0 >> 7;
        self.0 ^= self.0 << 17;
        self.0.wrapping_mul(0x2545_f491_4f6c_dd1d) >> 16
    }

    /// any 64-bit number, for task tables and edits
    #[allow(dead_code)]
    pub fn any(&mut self) -> u64 {
        self.below(1 << 32) << 32 | self.below(1 << 32)
    }

    /// a number below `bound`
    pub fn below(&mut self, bound: u64) -> u64 {
        self.next() % bound
    }

    /// a number from `low` to `high`
    pub fn from(&mut self, low: u64, high: u64) -> u64 {
        low + self.below(high - low + 1)
    }

    /// true once in `times`
    pub fn once_in(&mut self, times: u64) -> bool {
        self.below(times) == 0
    }

    pub fn one_of<'a, T>(&mut self, list: &'a [T]) -> &'a T {
        &list[self.below(list.len() as u64) as usize]
    }
}

pub fn hexadecimal(image: &[u8]) -> String {
    let digits = image.iter().flat_map(|byte| [byte >> 4, byte & 15]);
    digits.map(|digit| char::from(b"0123456789abcdef"[usize::from(digit)])).collect()
}

// The fields. "Every field is a one-byte tag, a two-byte length of its body, and the body."

pub fn field(tag: u8, body: &[u8]) -> Vec<u8> {
    let mut bytes = vec![tag];
    bytes.extend((body.len() as u16).to_be_bytes());
    bytes.extend(body);
    bytes
}

fn numbers(list: &[u16]) -> Vec<u8> {
    list.iter().flat_map(|number| number.to_be_bytes()).collect()
}

pub fn bus(cores: u8, slot: u8, core: u8) -> Vec<u8> {
    field(1, &[cores, slot, core])
}

/// Slots of unequal length: the analysed core, then pairs of core and slot length.
pub fn schedule(core: u8, pairs: &[(u8, u8)]) -> Vec<u8> {
    let numbers = pairs.iter().flat_map(|&(core, length)| [core, length]);
    field(9, &[core].into_iter().chain(numbers).collect::<Vec<_>>())
}

/// The pairs of an equal schedule.
pub fn equal_pairs(cores: u8, slot: u8) -> Vec<(u8, u8)> {
    (0..cores).map(|core| (core, slot)).collect()
}

pub fn starts(offsets: &[u8]) -> Vec<u8> {
    field(2, offsets)
}

pub fn plain(lowest: u16, highest: u16) -> Vec<u8> {
    field(3, &numbers(&[lowest, highest]))
}

/// kind 1 may access, kind 2 always accesses
pub fn bus_block(kind: u8, lowest: u8, highest: u8) -> Vec<u8> {
    field(4, &[kind, lowest, highest])
}

/// Code fetched once: line, lowest and highest duration of its access, hit time.
pub fn fetch(line: u8, lowest: u8, highest: u8, hit: u16) -> Vec<u8> {
    field(10, &[vec![line, lowest, highest], numbers(&[hit])].concat())
}

pub fn sequence(children: &[u16]) -> Vec<u8> {
    field(5, &numbers(children))
}

pub fn branch(arms: &[u16]) -> Vec<u8> {
    field(6, &numbers(arms))
}

pub fn looped(least: u16, greatest: u16, body: u16, test: u16) -> Vec<u8> {
    field(7, &numbers(&[least, greatest, body, test]))
}

/// A plain block of duration 0, with which as test "The loop tasks of document 01 hold".
pub fn idle() -> Vec<u8> {
    plain(0, 0)
}

/// The field that closes an image: the entry's number.
pub fn entry(number: u16) -> Vec<u8> {
    field(8, &numbers(&[number]))
}

/// Plain blocks of 1 cycle.
pub fn blank_nodes(number: usize) -> Vec<u8> {
    plain(1, 1).repeat(number)
}

/// The image with its equal schedule written with tag 9, if it begins with a field of tag 1 that is good: alone it is only unfinished.
fn with_pairs(image: &[u8]) -> Option<Vec<u8>> {
    let [1, _, _, cores, slot, core, rest @ ..] = image else { return None };
    let good = judge(&image[..6]) == Err(Refusal { number: 7, place: 6 });
    good.then(|| [schedule(*core, &equal_pairs(*cores, *slot)), rest.to_vec()].concat())
}

/// The image with nodes more that use its entry, or do not, and with tag 8 that names the node that was its last; if it has no such field
/// and its fields are good, so that it is accepted or refused with 8, 9 or 18.
fn with_entry(random: &mut Random, image: &[u8]) -> Option<Vec<u8>> {
    let good = judge(image).map_or_else(|refusal| matches!(refusal.number, 8 | 9 | 18), |_| true);
    if !good || has_entry(image) {
        return None;
    }
    let last = field_places(image).len() as u16 - 4;
    let mut named = image.to_vec();
    for _ in 0..random.below(4).min(255 - u64::from(last)) {
        named.extend(match random.below(7) {
            0 => plain(random.from(250, 300) as u16, 300),
            1 => bus_block(2, 1, 1),
            2 => sequence(&[last, 0, last]),
            3 => branch(&[0, last]),
            4 => looped(0, 10_000, last, 0),
            5 => looped(0, 10_000, 0, last),
            _ => looped(0, 0, 0, last),
        });
    }
    Some([named, entry(last)].concat())
}

/// The image with its loops of at most 7 iterations written out: for each permitted count a sequence of the test and, as often as it says,
/// of the body and the test, below a branch where there are several; if it has such a loop and is accepted, written so too.
fn written_out(image: &[u8]) -> Option<Vec<u8>> {
    let task = judge(image).ok()?;
    let opening = &image[..field_places(image)[2]];
    let mut nodes: Vec<Vec<u8>> = Vec::new();
    // where each node stands now
    let mut now: Vec<u16> = Vec::new();
    let mut any = false;
    for node in &task.nodes {
        let all = |named: &[usize]| named.iter().map(|&child| now[child]).collect::<Vec<_>>();
        let written = match node {
            Node::Plain { lowest, highest } => plain(*lowest as u16, *highest as u16),
            Node::Access { may, lowest, highest } => bus_block(if *may { 1 } else { 2 }, *lowest as u8, *highest as u8),
            Node::Fetch { line, lowest, highest, hit } => fetch(*line as u8, *lowest as u8, *highest as u8, *hit as u16),
            Node::Sequence { children } => sequence(&all(children)),
            Node::Branch { arms } => branch(&all(arms)),
            Node::Loop { least, greatest, body, test } if *greatest <= 7 => {
                any = true;
                let (body, test) = (now[*body], now[*test]);
                let mut counts = (*least..=*greatest)
                    .map(|count| sequence(&[vec![test], [body, test].repeat(count as usize)].concat()))
                    .collect::<Vec<_>>();
                if counts.len() > 1 {
                    let first = nodes.len() as u16;
                    counts.push(branch(&(first..first + counts.len() as u16).collect::<Vec<_>>()));
                }
                let last = counts.pop()?;
                nodes.extend(counts);
                last
            }
            Node::Loop { least, greatest, body, test } => looped(*least as u16, *greatest as u16, now[*body], now[*test]),
        };
        nodes.push(written);
        now.push(nodes.len() as u16 - 1);
    }
    nodes.extend(task.named.map(|named| entry(now[named])));
    let written = [opening, &nodes.concat()].concat();
    (any && judge(&written).is_ok()).then_some(written)
}

/// What has to be written for an image of another length that says the same, where all that it is longer or shorter stands before the place
/// of a refusal: this moves, and nothing else.
pub fn moved(text: &str, from: usize, to: usize) -> String {
    let words: Vec<&str> = text.trim_end().split(' ').collect();
    match words[..] {
        ["refused", number, place] => {
            let place = place.parse::<usize>().map_or(place.to_string(), |place| (place + to).saturating_sub(from).to_string());
            format!("refused {number} {place}\n")
        }
        _ => text.to_string(),
    }
}

/// Steps of the calculation above which a random image is left out.
pub const MOST_WORK: u64 = 3_000_000;

/// The steps that a calculation offset by offset takes for an image, about; 0 for one that is refused.
pub fn work(image: &[u8]) -> u64 {
    let task = match judge(image) {
        Ok(task) => task,
        Err(_) => return 0,
    };
    let mut works: Vec<u64> = Vec::new();
    let combinations = task.bus.period() << task.lines();
    for node in &task.nodes {
        let work = match node {
            Node::Plain { lowest, highest } => 256 + combinations * (highest - lowest + 1),
            Node::Access { lowest, highest, .. } => 256 + 2 * combinations * (highest - lowest + 1),
            Node::Fetch { lowest, highest, .. } => 256 + 2 * combinations * (highest - lowest + 2),
            Node::Sequence { children: named } | Node::Branch { arms: named } => {
                named.iter().fold(256, |sum, &child| (sum + works[child]).min(1 << 40))
            }
            Node::Loop { greatest, body, test, .. } => 256 + works[*test] + greatest * (256 + works[*body] + works[*test]),
        };
        works.push(work.min(1 << 40));
    }
    works[task.entry()]
}

/// The categories of tasks that are worked out by hand.
const WORKED: [&str; 5] = ["worked", "worked lines", "worked schedules", "worked entries", "worked tests"];

/// How large random tasks may become.
pub struct Shape {
    nodes: u64,
    starts: u64,
    children: u64,
    arms: u64,
    count: u64,
    /// durations with a range once in so many blocks, and how wide
    range_once_in: u64,
    range: u64,
}

/// Few enough choices that most such tasks can be enumerated.
pub const SMALL: Shape = Shape { nodes: 9, starts: 4, children: 4, arms: 3, count: 3, range_once_in: 3, range: 3 };
pub const MIDDLE: Shape = Shape { nodes: 16, starts: 12, children: 6, arms: 4, count: 6, range_once_in: 2, range: 12 };
const LARGE: Shape = Shape { nodes: 40, starts: 256, children: 16, arms: 8, count: 60, range_once_in: 2, range: 63 };

/// The slots of a bus: pairs of core and slot length, and where they are equal cores and slot of tag 1.
pub struct Schedule {
    pairs: Vec<(u8, u8)>,
    equal: Option<(u8, u8)>,
}

impl Schedule {
    fn equal(cores: u64, slot: u64) -> Schedule {
        let (cores, slot) = (cores as u8, slot as u8);
        Schedule { pairs: equal_pairs(cores, slot), equal: Some((cores, slot)) }
    }

    /// So many slots of so many cores at most, and so many cycles together. Where there are several cores, a slot seldom has the core of
    /// the one before, or as often as not.
    fn unequal(random: &mut Random, slots: u64, cores: u64, period: u64) -> Schedule {
        let (first, apart) = (random.below(16), *random.one_of(&[1, 3, 5, 7]));
        let same_once_in = *random.one_of(&[2, 8]);
        let mut own = 0;
        let mut pairs: Vec<(u8, u8)> = Vec::new();
        for _ in 0..slots {
            if cores > 1 && !random.once_in(same_once_in) {
                own = (own + random.from(1, cores - 1)) % cores;
            }
            pairs.push((((first + own * apart) % 16) as u8, 1));
        }
        let at_once = *random.one_of(&[3, 20, 127]);
        let mut left = period - slots;
        while left > 0 {
            let length = &mut random_place(random, &mut pairs).1;
            let more = random.from(1, left.min(at_once)).min(128 - u64::from(*length));
            *length += more as u8;
            left -= more;
        }
        Schedule { pairs, equal: None }
    }

    /// Field 1 for this core: with tag 1 where that can be, but once in 6.
    fn field(&self, random: &mut Random, core: u8) -> Vec<u8> {
        match self.equal {
            Some((cores, slot)) if !random.once_in(6) => bus(cores, slot, core),
            _ => schedule(core, &self.pairs),
        }
    }

    /// For graphs of tasks on one bus.
    #[allow(dead_code)]
    pub fn period(&self) -> u64 {
        self.pairs.iter().map(|&(_, length)| u64::from(length)).sum()
    }

    /// The core of some slot: of the first, of the last or of any.
    fn core(&self, random: &mut Random) -> u8 {
        let last = self.pairs.len() - 1;
        let own = match random.below(4) {
            0 => 0,
            1 => last,
            _ => random.from(0, last as u64) as usize,
        };
        self.pairs[own].0
    }
}

fn random_place<'a, T>(random: &mut Random, list: &'a mut [T]) -> &'a mut T {
    let own = random.below(list.len() as u64) as usize;
    &mut list[own]
}

/// Cores and slot of tag 1.
pub fn random_cores(random: &mut Random) -> (u64, u64) {
    match random.below(10) {
        0..=4 => (random.from(2, 4), random.from(1, 6)),
        5..=6 => {
            let cores = random.from(2, 16);
            (cores, random.from(1, (256 / cores).min(128)))
        }
        7 => *random.one_of(&[(2, 1), (2, 2), (2, 128), (16, 16), (16, 1), (4, 64), (3, 85), (8, 32), (15, 17), (5, 51)]),
        _ => (random.from(2, 5), random.from(6, 20)),
    }
}

/// Three times in five equal slots.
pub fn random_schedule(random: &mut Random) -> Schedule {
    if random.below(5) < 3 {
        let (cores, slot) = random_cores(random);
        return Schedule::equal(cores, slot);
    }
    let (slots, cores, period) = match random.below(16) {
        // a lone core, which owns every cycle
        0..=1 => {
            let period: u64 = *random.one_of(&[1, 2, 3, 9, 30, 128, 255, 256]);
            (random.from(period.div_ceil(128), period.min(4)), 1, period)
        }
        // the shortest
        2 => {
            let period = random.from(1, 4);
            (random.from(1, period), 2, period)
        }
        3..=8 => (random.from(2, 6), random.from(2, 3), random.from(6, 24)),
        9..=11 => (random.from(4, 14), random.from(2, 4), random.from(14, 60)),
        // as many slots as there can be, or nearly
        12 => (random.from(20, 32), random.from(2, 16), random.from(32, 256)),
        13 => (32, random.from(2, 5), 256),
        // long ones, and periods with which the number of lines just fits or does not
        14 => (random.from(2, 5), 2, *random.one_of(&[200, 255, 256])),
        _ => (random.from(2, 10), random.from(2, 3), *random.one_of(&[63, 64, 65, 127, 128, 129])),
    };
    Schedule::unequal(random, slots, cores, period)
}

/// Field 1, and the bus that it says.
fn random_bus(random: &mut Random) -> (Vec<u8>, Bus) {
    let schedule = random_schedule(random);
    on_schedule(random, &schedule)
}

/// The same with this schedule, for the core of one of its slots.
pub fn on_schedule(random: &mut Random, schedule: &Schedule) -> (Vec<u8>, Bus) {
    let core = schedule.core(random);
    let field = schedule.field(random, core);
    let bus = bus_of(field[0], &field[3..]);
    (field, bus)
}

/// A valid image, but for its depth and visits.
fn random_task(random: &mut Random, shape: &Shape) -> Vec<u8> {
    let (field_1, bus) = random_bus(random);
    let period = bus.period();

    // starts at the ends of the core's stretches as often as anywhere else
    let mut from = vec![false; period as usize];
    let wanted = if random.once_in(8) { shape.starts } else { random.from(1, shape.starts) };
    for _ in 0..wanted {
        let stretch = random.one_of(&bus.stretches);
        let offset = match random.below(4) {
            0 => stretch.first + random.below(2),
            1 => stretch.first + stretch.length + 2 * period - random.from(0, 2),
            _ => random.below(period),
        };
        from[(offset % period) as usize] = true;
    }
    let from: Vec<u8> = (0..period).filter(|&offset| from[offset as usize]).map(|offset| offset as u8).collect();

    let nodes = random_nodes(random, shape, &bus);
    [field_1, starts(&from), nodes].concat()
}

/// How many lines the blocks of a task have: mostly none, else as many as the period permits or fewer, and seldom any.
fn random_lines(random: &mut Random, period: u64) -> u64 {
    let most = (0..=4).rev().find(|lines| period << lines <= 1_024).unwrap_or(0);
    match random.below(12) {
        0..=7 => 0,
        8 => random.from(1, most),
        9 if random.once_in(4) => random.from(1, 4),
        _ => most,
    }
}

/// The node fields of a task. Once in three there is a field with tag 8 behind them; every other time it names the node that would be the
/// last without those that stand above it.
pub fn random_nodes(random: &mut Random, shape: &Shape, bus: &Bus) -> Vec<u8> {
    let lines = random_lines(random, bus.period());
    let mut fields: Vec<Vec<u8>> = Vec::new();
    let nodes = random.from(1, shape.nodes);
    let named = random.once_in(3);
    let above = if named && random.once_in(2) { random.from(1, 4) } else { 0 };
    let mut last = 0;
    for own in 0..nodes + above {
        // the entry is seldom a block
        let kind = if own == 0 {
            random.from(0, 3)
        } else if own + 1 == nodes && !random.once_in(8) {
            random.from(4, 9)
        } else {
            random.from(0, 9)
        };
        add_node(random, &mut fields, shape, kind, (bus, lines));
        if own + 1 == nodes {
            last = fields.len() as u16 - 1;
        }
    }
    if above > 0 {
        fields.push(entry(last));
    } else if named {
        fields.push(random_entry(random, fields.len() as u64));
    }
    fields.concat()
}

/// The entry of so many nodes: any, the first, the last, and mostly one of the last few.
fn random_entry(random: &mut Random, nodes: u64) -> Vec<u8> {
    let number = match random.below(8) {
        0 => 0,
        1 => nodes - 1,
        2..=3 => random.below(nodes),
        _ => nodes - 1 - random.below(nodes.min(4)),
    };
    entry(number as u16)
}

/// Adds a node, and before a loop a plain block of duration 0 where that is its test and there is none. Where there are lines, most blocks
/// have one.
fn add_node(random: &mut Random, fields: &mut Vec<Vec<u8>>, shape: &Shape, kind: u64, (bus, lines): (&Bus, u64)) {
    let own = fields.len() as u64;
    let (period, most) = (bus.period(), longest_duration(bus));
    // mostly one of the last few nodes, so that most nodes are reached and some are shared
    let child = |random: &mut Random| {
        let back = if random.once_in(4) { own } else { own.min(3) };
        (own - 1 - random.below(back)) as u16
    };
    let range = if random.once_in(shape.range_once_in) { random.from(1, shape.range) } else { 0 };
    let passed = |random: &mut Random| match random.below(8) {
        0 => 0,
        1..=4 => random.below(2 * most + 2),
        5 => random.below(period),
        6 => random.below(3 * period),
        _ if shape.range > 3 => random.below(65_536),
        _ => random.below(300),
    };
    let accessed = |random: &mut Random| {
        let lowest = match random.below(4) {
            0 => most,
            1 => 1,
            _ => random.from(1, most),
        };
        (lowest as u8, (lowest + range).min(most) as u8)
    };
    let node = match kind {
        0..=3 if lines > 0 && !random.once_in(3) => {
            let (lowest, highest) = accessed(random);
            fetch(random.below(lines) as u8, lowest, highest, passed(random) as u16)
        }
        0 | 1 => {
            let lowest = passed(random);
            let highest = (lowest + range).min(65_535);
            plain(lowest as u16, highest as u16)
        }
        2 | 3 => {
            let (lowest, highest) = accessed(random);
            bus_block(random.from(1, 2) as u8, lowest, highest)
        }
        4 | 5 => {
            let number = random.from(1, shape.children);
            sequence(&(0..number).map(|_| child(random)).collect::<Vec<_>>())
        }
        6 | 7 => {
            let number = random.from(2, shape.arms);
            branch(&(0..number).map(|_| child(random)).collect::<Vec<_>>())
        }
        _ => {
            let greatest = match random.below(6) {
                0 => 0,
                1 => 1,
                _ => random.from(1, shape.count),
            };
            let least = match random.below(3) {
                0 => 0,
                1 => greatest,
                _ => random.from(0, greatest),
            };
            // the test is mostly a plain block of duration 0 or any node, sometimes the body itself
            let body = child(random);
            let test = match random.below(8) {
                0..=2 => {
                    let known = fields.iter().rposition(|node| *node == idle());
                    known.unwrap_or_else(|| {
                        fields.push(idle());
                        fields.len() - 1
                    }) as u16
                }
                3 => body,
                _ => child(random),
            };
            looped(least as u16, greatest as u16, body, test)
        }
    };
    fields.push(node);
}

/// The longest access of the bus that a byte can say.
pub fn longest_duration(bus: &Bus) -> u64 {
    bus.longest_access().min(255)
}

/// A task with as many lines as there can be, on a bus whose period permits them or just does not, or with any bus.
fn many_lines(random: &mut Random) -> Vec<u8> {
    let schedule = match random.below(4) {
        0 => Schedule::equal(5, 13),
        1 => Schedule::equal(4, 16),
        2 => {
            let (slots, period) = (random.from(2, 8), random.from(64, 65));
            Schedule::unequal(random, slots, 3, period)
        }
        _ => random_schedule(random),
    };
    let (field_1, bus) = on_schedule(random, &schedule);
    let mut nodes = Vec::new();
    for own in 0..random.from(2, 12) {
        let kind = if own < 2 { random.from(0, 3) } else { random.from(0, 9) };
        add_node(random, &mut nodes, &SMALL, kind, (&bus, 4));
    }
    if random.once_in(2) {
        nodes.push(random_entry(random, nodes.len() as u64));
    }
    [field_1, starts(&[random.below(bus.period()) as u8]), nodes.concat()].concat()
}

/// A long loop over a branch of blocks with nearly the same times, most of them fetched once: runs that were behind for many iterations,
/// since they accessed, may come to be the longest. Every other time all runs keep to one offset: accesses take the whole slot, and with
/// their wait a period, as a hit takes some.
fn overtaking(random: &mut Random) -> Vec<u8> {
    let (cores, slot) = *random.one_of(&[(2, 1), (2, 2), (3, 1), (2, 3), (3, 2), (4, 3)]);
    let (core, period) = (random.below(cores), cores * slot);
    let one_offset = random.once_in(2);
    let near = *random.one_of(&[0, 20, 150, 600]);
    let time = |random: &mut Random| ((near + random.below(4)) * if one_offset { period } else { 1 }) as u16;
    let lines = random.from(1, 3);
    let block = |random: &mut Random| {
        let lowest = if one_offset { slot } else { random.from(1, slot) };
        let highest = random.from(lowest, slot);
        fetch(random.below(lines) as u8, lowest as u8, highest as u8, time(random))
    };
    let passed = time(random);
    let count = random.from(20, 1_500) as u16;
    let least = if random.once_in(2) { count } else { random.below(count.into()) as u16 };
    // one of the blocks or the branch itself is the test, or none of them
    let test = *random.one_of(&[3, 3, 3, 0, 1, 2, 4]);
    let mut nodes = vec![
        block(random),
        block(random),
        plain(passed, passed),
        idle(),
        branch(if random.once_in(2) { &[0, 2] } else { &[0, 1, 2] }),
        sequence(if random.once_in(2) { &[4] } else { &[4, 1] }),
        looped(least, count, 5, test),
    ];
    if random.once_in(3) {
        nodes.extend([looped(10_000, 10_000, 6, 3), entry(6)]);
    }
    let start = if one_offset { (core + 1) * slot % period } else { random.below(period) };
    let field_1 = Schedule::equal(cores, slot).field(random, core as u8);
    [field_1, starts(&[start as u8]), nodes.concat()].concat()
}

/// A random task that is accepted and calculated in time.
pub fn valid_task(random: &mut Random, shape: &Shape) -> (Vec<u8>, Task) {
    loop {
        let image = random_task(random, shape);
        if let Ok(task) = judge(&image) {
            if work(&image) <= MOST_WORK {
                return (image, task);
            }
        }
    }
}

/// Where each field of an image begins, and where the last ends.
fn field_places(image: &[u8]) -> Vec<usize> {
    let mut places = vec![0];
    let mut place = 0;
    while place + 3 <= image.len() {
        place += 3 + usize::from(image[place + 1]) * 256 + usize::from(image[place + 2]);
        places.push(place.min(image.len()));
    }
    places
}

/// Whether a field behind the starts has tag 8.
pub fn has_entry(image: &[u8]) -> bool {
    field_places(image).iter().skip(2).any(|&place| image.get(place) == Some(&8))
}

/// One or more changes to a valid image.
fn damage(random: &mut Random, valid: &[u8]) -> Vec<u8> {
    let mut image = valid.to_vec();
    for _ in 0..random.from(1, 3) {
        if image.is_empty() {
            break;
        }
        let places = field_places(&image);
        let mut at = random.below(image.len() as u64) as usize;
        let mut start = *random.one_of(&places[..places.len().max(2) - 1]);
        // every third time in the field with tag 8, where it is the last
        let last = places[places.len().max(2) - 2];
        let closed = image[last] == 8;
        if closed && random.once_in(3) {
            start = last;
            at = random.from(last as u64, image.len() as u64 - 1) as usize;
        }
        let nodes = (places.len() as u64).saturating_sub(if closed { 4 } else { 3 });
        let end = *places.iter().find(|&&place| place > start).unwrap_or(&image.len());
        // the loops, by the number of their field
        let loops: Vec<usize> =
            (2..places.len() - 1).filter(|&own| image[places[own]] == 7 && places[own + 1] - places[own] == 11).collect();
        match random.below(16) {
            0 => image[at] = random.below(256) as u8,
            1 => image[at] ^= 1 << random.below(8),
            2 => image[at] = *random.one_of(&[0, 1, 2, 3, 4, 5, 6, 7, 8, 9, 10, 15, 16, 63, 64, 127, 128, 129, 255]),
            3 => {
                image.remove(at);
            }
            4 => image.insert(at, random.below(10) as u8),
            5 => image.truncate(at),
            // a field left out, doubled, moved to the end, its tag or length changed
            6 => {
                image.drain(start..end);
            }
            7 => {
                let copy = image[start..end].to_vec();
                image.splice(start..start, copy);
            }
            8 => {
                let copy: Vec<u8> = image.drain(start..end).collect();
                image.extend(copy);
            }
            9 => image[start] = random.below(12) as u8,
            10 if start + 2 < image.len() => image[start + 2] = image[start + 2].wrapping_add(random.from(254, 258) as u8),
            10 => image.push(0),
            // a number that is just that of a node or just not: in tag 8, or with tag 8 behind any field
            11..=12 => {
                let number = (nodes + random.below(3)).saturating_sub(1) + *random.one_of(&[0, 0, 0, 256, 65_000]);
                let from = if image[start] == 8 { start } else { end };
                image.splice(from..end, entry(number as u16));
            }
            // in a loop: the number of its body or its test is just below its own or just not; a length of 6 to 10, with as many bytes
            13 if !loops.is_empty() => {
                let own = *random.one_of(&loops);
                let number = (own as u64 + random.below(3)).saturating_sub(3) + *random.one_of(&[0, 0, 0, 256, 65_000]);
                let place = places[own] + *random.one_of(&[7, 9]);
                image[place..place + 2].copy_from_slice(&(number as u16).to_be_bytes());
            }
            14 if !loops.is_empty() => {
                let place = places[*random.one_of(&loops)];
                let mut body = image[place + 3..place + 11].to_vec();
                body.resize(random.from(6, 10) as usize, 0);
                image.splice(place..place + 11, field(7, &body));
            }
            _ => {
                for _ in 0..random.from(1, 8) {
                    image.push(random.below(12) as u8);
                }
            }
        }
    }
    image
}

/// Fields of any kind with numbers of any size.
fn loose_fields(random: &mut Random) -> Vec<u8> {
    let (field_1, bus) = random_bus(random);
    let start = random.below(bus.period()) as u8;
    let lines = random_lines(random, bus.period());
    let beyond = longest_duration(&bus) + 2;
    let mut nodes: Vec<Vec<u8>> = Vec::new();
    for _ in 0..random.from(1, 12) {
        let own = nodes.len() as u64;
        let loose = random.once_in(9);
        let kind = if own == 0 && !loose { random.from(0, 3) } else { random.from(0, 9) };
        if !loose {
            add_node(random, &mut nodes, &SMALL, kind, (&bus, lines));
            continue;
        }
        let near = |random: &mut Random| (own + random.below(3)).saturating_sub(1) as u16;
        nodes.push(match random.below(8) {
            0 => plain(random.below(200) as u16, random.below(200) as u16),
            1 => bus_block(random.below(4) as u8, random.below(beyond) as u8, random.below(beyond) as u8),
            2 => sequence(&[near(random), near(random)]),
            3 => branch(&[near(random), 0]),
            4 => looped(random.below(4) as u16, random.below(4) as u16, near(random), near(random)),
            5 => {
                let (lowest, highest) = (random.below(beyond) as u8, random.below(beyond) as u8);
                fetch(random.below(5) as u8, lowest, highest, random.below(200) as u16)
            }
            6 => entry(near(random)),
            _ => field(random.below(12) as u8, &vec![random.below(3) as u8; random.below(9) as usize]),
        });
    }
    // closed as it should be, or nearly
    let count = nodes.len() as u64;
    match random.below(6) {
        0..=1 => nodes.push(random_entry(random, count)),
        2 => nodes.push(entry((count - 1 + random.below(3)) as u16)),
        _ => {}
    }
    [field_1, starts(&[start]), nodes.concat()].concat()
}

/// A schedule with tag 9 that has a number just inside or outside of its range, a sum near 256, or another length, and a task that
/// accesses for the length of one of its stretches or a little more.
fn loose_schedule(random: &mut Random) -> Vec<u8> {
    let (slots, period) = *random.one_of(&[(1, 1), (2, 9), (3, 10), (4, 255), (8, 256), (31, 250), (32, 256), (32, 40)]);
    let Schedule { mut pairs, .. } = Schedule::unequal(random, slots, 3, period);
    let core = pairs[0].0;
    for _ in 0..random.below(3) {
        match random.below(6) {
            0 => random_place(random, &mut pairs).0 = random.from(14, 17) as u8,
            1 => random_place(random, &mut pairs).0 = core,
            2 => random_place(random, &mut pairs).1 = *random.one_of(&[0, 1, 2, 127, 128, 129, 255]),
            3 => {
                let length = &mut random_place(random, &mut pairs).1;
                *length = length.saturating_add(1);
            }
            4 => pairs.push((core, random.from(1, 3) as u8)),
            _ => pairs.rotate_left(1),
        }
    }
    let analysed = if random.once_in(8) { random.below(17) as u8 } else { core };
    let field_1 = schedule(analysed, &pairs);
    let stretches = bus_of(9, &field_1[3..]).stretches;
    let near = if stretches.is_empty() { 1 } else { random.one_of(&stretches).length };
    let duration = (near + random.below(3)).clamp(1, 255) as u8;
    let block = if random.once_in(2) { bus_block(2, 1, duration) } else { fetch(0, duration, duration, 1) };
    let mut image = [field_1, starts(&[random.below(period) as u8]), block, plain(1, 2), sequence(&[1, 0, 1, 0])].concat();
    if random.once_in(4) {
        image.extend(random_entry(random, 3));
    }
    if random.once_in(10) {
        image[2] = image[2].wrapping_add(random.from(254, 258) as u8);
    }
    image
}

/// A loop with a number just inside or outside of its range, or with another length, among nodes of any kind; above it a node that it is
/// the test of, its body or neither.
fn loose_loop(random: &mut Random) -> Vec<u8> {
    let (field_1, bus) = random_bus(random);
    let lines = random_lines(random, bus.period());
    let mut nodes = Vec::new();
    for own in 0..random.from(1, 5) {
        let kind = if own == 0 { random.from(0, 3) } else { random.from(0, 9) };
        add_node(random, &mut nodes, &SMALL, kind, (&bus, lines));
    }
    let own = nodes.len() as u64;
    let near = |random: &mut Random| match random.below(12) {
        0 => own as u16,
        1 => (own + random.from(1, 3)) as u16,
        2 => (random.below(own) + *random.one_of(&[256, 512, 65_280])) as u16,
        _ => random.below(own) as u16,
    };
    let greatest = *random.one_of(&[0, 0, 1, 1, 2, 2, 3, 3, 4, 60, 10_000, 10_001]);
    let least = if random.once_in(12) { greatest + 1 } else { random.from(0, greatest.into()) as u16 };
    let mut node = looped(least, greatest, near(random), near(random));
    if random.once_in(8) {
        node.resize(random.from(8, 14) as usize, 0);
        node = field(7, &node[3..]);
    }
    nodes.push(node);
    let (own, other) = (own as u16, random.below(own) as u16);
    match random.below(6) {
        0 => nodes.push(looped(0, 2, other, own)),
        1 => nodes.push(looped(0, 2, own, other)),
        2 => nodes.push(sequence(&[own, other])),
        3 => nodes.push(entry(own)),
        _ => {}
    }
    [field_1, starts(&[random.below(bus.period()) as u8]), nodes.concat()].concat()
}

/// All images: those written by hand, the damaged ones, and random ones until there are `wanted`.
pub fn all(seed: u64, wanted: usize) -> Vec<Case> {
    let mut random = Random::new(seed);
    let mut all = Cases::default();
    cases::worked(&mut all);
    cases::worked_lines(&mut all);
    cases::worked_schedules(&mut all);
    cases::worked_tests(&mut all);
    cases::limits_of_tests(&mut all);
    cases::visits_of_tests(&mut all);
    cases::small_schedules(&mut all);
    cases::limits(&mut all);
    cases::limits_of_lines(&mut all);
    cases::limits_of_schedules(&mut all);
    cases::number_of_lines(&mut all);
    cases::depth_and_visits(&mut all);
    cases::worked_entries(&mut all);
    cases::limits_of_entries(&mut all);
    cases::order(&mut all);
    cases::sizes(&mut all);
    // all worked tasks and every sixth other image are written with tag 9 too; every sixth image with its entry named; all worked tasks and
    // every third other image with the loops written out
    for number in 0..all.list.len() {
        let worked = WORKED.contains(&all.list[number].category);
        if worked || number % 6 == 0 {
            all.add_other_way(number);
        }
        if number % 6 == 3 {
            all.add_named(&mut random, number);
        }
        if worked || number % 3 == 1 {
            all.add_written_out(number);
        }
    }

    // the images that are damaged: the shorter worked ones and some random ones with many nodes
    let mut models: Vec<Vec<u8>> = all
        .list
        .iter()
        .filter(|case| WORKED.contains(&case.category) && case.image.len() < 60)
        .step_by(4)
        .map(|case| case.image.clone())
        .collect();
    models.retain(|image| judge(image).is_ok() && work(image) <= MOST_WORK);
    while models.len() < 120 {
        let (image, task) = valid_task(&mut random, &SMALL);
        if task.nodes.len() >= 4 {
            models.push(image);
        }
    }
    // every third of them has tag 8
    for model in models.iter_mut().step_by(3).filter(|model| !has_entry(model)) {
        let nodes = field_places(model).len() as u64 - 3;
        let closed = [&model[..], &random_entry(&mut random, nodes)].concat();
        if judge(&closed).is_ok() && work(&closed) <= MOST_WORK {
            *model = closed;
        }
    }
    let spread = models.len() / 16 + 1;
    for model in models.iter().step_by(spread) {
        for length in 0..model.len() {
            all.add_quick("truncated", model[..length].to_vec());
        }
    }
    for model in models.iter().skip(1).step_by(spread) {
        for at in 0..model.len() {
            let byte = model[at];
            for changed in [255, byte.wrapping_add(1), byte.wrapping_sub(1)] {
                let mut image = model.clone();
                image[at] = changed;
                all.add_quick("one byte changed", image);
            }
        }
    }
    for model in models.iter().step_by(4) {
        for junk in [1, 2, 3, 7, 50] {
            for byte in [0, 3, 255] {
                let mut image = model.clone();
                image.resize(model.len() + junk, byte);
                all.add_quick("followed by junk", image);
            }
        }
    }
    // long loops over short periods: many visits, times above 32 bits
    for _ in 0..5 {
        let (least, greatest) = (random.below(9_000) as u16, random.from(9_600, 9_900) as u16);
        let access = random.from(1, 3) as u8;
        let children: Vec<u16> = (0..random.from(6, 8)).map(|_| *random.one_of(&[0, 0, 0, 1, 2])).collect();
        let image = [
            bus(2, 3, random.below(2) as u8),
            starts(&[random.below(6) as u8]),
            plain(65_530, 65_535),
            if random.once_in(2) { fetch(3, 1, access, 65_534) } else { bus_block(random.from(1, 2) as u8, 1, access) },
            plain(random.from(65_500, 65_535) as u16, 65_535),
            idle(),
            sequence(&children),
            looped(least, greatest, 4, random.below(4) as u16),
        ];
        all.add("long loops", image.concat(), Expected::Open);
    }
    for _ in 0..150 {
        let image = overtaking(&mut random);
        all.add_quick("long loops", image);
    }

    while all.list.len() < wanted {
        match random.below(22) {
            0..=8 => {
                let (image, _) = valid_task(&mut random, &SMALL);
                all.add("small tasks", image, Expected::Accepted);
            }
            9..=11 => {
                let (image, _) = valid_task(&mut random, &MIDDLE);
                all.add("middle tasks", image, Expected::Accepted);
            }
            12 if random.once_in(3) => {
                let image = many_lines(&mut random);
                all.add_quick("many lines", image);
            }
            12 => {
                let (image, _) = valid_task(&mut random, &LARGE);
                all.add("large tasks", image, Expected::Accepted);
            }
            13 => {
                let image = random_task(&mut random, &LARGE);
                all.add_quick("any depth and visits", image);
            }
            14..=15 => {
                let shape = if random.once_in(2) { &SMALL } else { &MIDDLE };
                let (image, _) = valid_task(&mut random, shape);
                let image = damage(&mut random, &image);
                all.add_quick("damaged", image);
            }
            16 => {
                let image = loose_schedule(&mut random);
                all.add_quick("loose schedules", image);
            }
            17 if random.once_in(2) => {
                let number = random.below(all.list.len() as u64) as usize;
                all.add_named(&mut random, number);
            }
            17..=18 => {
                // three times in four one that is accepted
                let accepted = !random.once_in(4);
                let number = loop {
                    let number = random.below(all.list.len() as u64) as usize;
                    let image = &all.list[number].image;
                    if image.first() == Some(&1) && (!accepted || judge(image).is_ok()) {
                        break number;
                    }
                };
                all.add_other_way(number);
            }
            19 => {
                let image = loose_fields(&mut random);
                all.add_quick("loose fields", image);
            }
            20 => {
                let image = loose_loop(&mut random);
                all.add_quick("loose loops", image);
            }
            _ => {
                let number = random.below(all.list.len() as u64) as usize;
                all.add_written_out(number);
            }
        }
    }
    all.list
}
