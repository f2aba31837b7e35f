//! Makes sequences of calls: those written by hand, and random ones from resets, from states near good ones and from any bytes, each
//! once. Everything follows from the seed.

use crate::arbiter_cases::{self, line, read, reset, write, ABOVE, TICK};
use crate::arbiter_laws::is_alike;
use crate::device::{Call, Sequence, BYTES, CORES, WORKSHOP};
use crate::generate::{random_cores, Random};
use std::collections::HashSet;

/// What is tried with the program's own answers.
#[derive(Clone, Copy, PartialEq)]
pub enum Law {
    Nothing,
    /// every state is reached from a reset: accesses are done in time, and no two cores run
    Reached,
    /// this core has what it had in the sequence before
    Undisturbed(u64),
    /// this core is answered what it was answered in the sequence before
    Equal(u64),
    /// it leads where the sequence before led, which has forbidden calls in between
    Led,
}

pub struct Case {
    pub category: &'static str,
    pub sequence: Sequence,
    /// the line, where it was written by hand
    pub by_hand: Option<String>,
    pub law: Law,
}

/// The sequences, each once.
#[derive(Default)]
pub struct Sequences {
    pub list: Vec<Case>,
    seen: HashSet<Sequence>,
}

impl Sequences {
    pub fn add(&mut self, category: &'static str, sequence: Sequence, by_hand: Option<String>, law: Law) {
        if self.seen.insert(sequence.clone()) {
            self.list.push(Case { category, sequence, by_hand, law });
        }
    }

    pub fn by_hand(&mut self, category: &'static str, sequence: Sequence, line: String) {
        self.add(category, sequence, Some(line), Law::Nothing);
    }

    pub fn open(&mut self, category: &'static str, sequence: Sequence) {
        self.add(category, sequence, None, Law::Nothing);
    }
}

/// Calls of a random sequence.
const MOST_CALLS: u64 = 500;

/// A number that breaks a range somewhere, or just does not.
fn odd(random: &mut Random) -> u64 {
    let near = [0, 1, 2, 3, 4, 5, 15, 16, 17, 127, 128, 129, 255, 256, 257, 1 << 16, 1 << 32, 1 << 63, u64::MAX];
    match random.below(4) {
        0 => random.any(),
        1 => random.below(20) + *random.one_of(&ABOVE),
        _ => *random.one_of(&near),
    }
}

fn random_length(random: &mut Random, slot: u64) -> u64 {
    match random.below(8) {
        0 => 1,
        1..=2 => slot,
        3 => slot.div_ceil(2),
        _ => random.from(1, slot),
    }
}

/// A call that is refused with 15 as a rule: a number is out of its range, or just is not.
fn refused_call(random: &mut Random, cores: u64, slot: u64) -> Call {
    let core = random.below(cores);
    match random.below(10) {
        0 => read(odd(random), random.below(3)).by(WORKSHOP),
        1 => watched(read(core, odd(random)), random),
        2 => line(odd(random)).by(WORKSHOP),
        3 => write(random.below(CORES as u64), random.below(3), 1),
        4 => write(core, odd(random), 1),
        5 => write(core, 0, if random.once_in(2) { *random.one_of(&[0, slot + 1, 256 + slot]) } else { odd(random) }),
        6 => write(core, 1, random.below(6)),
        7 => write(core, 2, odd(random)),
        8 => reset(*random.one_of(&[0, 1, 17, 256 + cores]), slot),
        _ => reset(cores, *random.one_of(&[0, 256 / cores + 1, 129, 256 + slot])),
    }
}

/// The core's own read or line, or the same by the workshop.
fn watched(call: Call, random: &mut Random) -> Call {
    if random.once_in(2) {
        call.by(WORKSHOP)
    } else {
        call
    }
}

/// A call whose caller has no right to it: the workshop writes, or anyone does anything.
fn forbidden_call(random: &mut Random, cores: u64, slot: u64) -> Call {
    loop {
        let caller = match random.below(6) {
            0..=1 => WORKSHOP,
            2 => odd(random),
            _ => random.below(CORES as u64 + 2),
        };
        let core = match random.below(6) {
            0 => caller,
            1 => odd(random),
            _ => random.below(cores),
        };
        let call = match random.below(8) {
            0 => TICK,
            1 => reset(cores, slot),
            2 => refused_call(random, cores, slot),
            3 => read(core, random.below(4)),
            4 => line(core),
            _ => random_write(random, core, slot),
        };
        if !call.by(caller).is_permitted() {
            return call.by(caller);
        }
    }
}

/// A length or a mask that a core writes.
fn random_write(random: &mut Random, core: u64, slot: u64) -> Call {
    if random.once_in(4) {
        write(core, 2, random.below(2))
    } else {
        write(core, 0, random_length(random, slot))
    }
}

/// Up to as many ticks as an access may take, few as often as not.
fn random_ticks(random: &mut Random, period: u64) -> u64 {
    match random.below(6) {
        0..=2 => random.from(1, 3),
        3..=4 => random.from(1, period.div_ceil(2)),
        _ => random.from(period, period + period / 2),
    }
}

/// As many bytes as a state has.
fn any_bytes(random: &mut Random) -> Vec<u8> {
    (0..BYTES).map(|_| random.below(256) as u8).collect()
}

/// All cores write, and the workshop ticks, from a reset on; other resets, refused and forbidden calls come in between.
fn from_reset(random: &mut Random) -> Sequence {
    let state = any_bytes(random);
    let (mut cores, mut slot) = random_cores(random);
    let most = random.from(20, MOST_CALLS) as usize;
    // all cores write, or a few
    let (first, writers) = (random.below(cores), if random.once_in(2) { CORES as u64 } else { random.from(1, cores) });
    let mut calls = vec![reset(cores, slot)];
    while calls.len() < most {
        let core = (first + random.below(writers)) % cores;
        match random.below(43) {
            0..=14 => calls.push(random_write(random, core, slot)),
            15..=28 => (0..random_ticks(random, cores * slot)).for_each(|_| calls.push(TICK)),
            29..=32 => calls.push(watched(read(random.below(cores), random.below(3)), random)),
            33..=36 => calls.push(watched(line(core), random)),
            37..=38 => calls.push(refused_call(random, cores, slot)),
            39..=41 => calls.push(forbidden_call(random, cores, slot)),
            _ if random.once_in(3) => {
                (cores, slot) = random_cores(random);
                calls.push(reset(cores, slot));
            }
            _ => {}
        }
    }
    calls.truncate(most);
    Sequence { state, calls }
}

/// A good state, reached or not: cores may have what no calls lead to.
fn good_state(random: &mut Random) -> Vec<u8> {
    let (cores, slot) = random_cores(random);
    let offset = if random.once_in(3) { cores * slot - 1 } else { random.below(cores * slot) };
    let mut state = vec![cores as u8, slot as u8, offset as u8];
    for _ in 0..CORES {
        let flags = *random.one_of(&[0, 1, 1, 2, 4]);
        let length = match flags {
            1 | 2 => random_length(random, slot),
            _ => *random.one_of(&[0, 0, slot, 1]),
        };
        state.extend([length as u8, flags as u8, random.below(2) as u8]);
    }
    state
}

/// One byte is another: near, a bit more or less, or any.
fn damage(random: &mut Random, state: &mut [u8]) {
    let bytes = if random.once_in(4) { 3 } else { BYTES as u64 };
    let place = random.below(bytes) as usize;
    state[place] = match random.below(4) {
        0 => state[place].wrapping_add(1),
        1 => state[place].wrapping_sub(1),
        2 => state[place] ^ 1 << random.below(8),
        _ => *random.one_of(&[0, 1, 2, 3, 4, 5, 6, 8, 127, 128, 129, 255]),
    };
}

/// Calls of every kind on a state, with numbers that fit it.
fn calls_on(random: &mut Random, state: &[u8], most: u64) -> Vec<Call> {
    let number = |place: usize| u64::from(state.get(place).copied().unwrap_or(0)).max(1);
    let (cores, slot) = (number(0), number(1));
    let mut calls = Vec::new();
    for _ in 0..random.from(2, most) {
        let core = random.below(cores);
        calls.push(match random.below(22) {
            0..=8 => TICK,
            9..=12 => random_write(random, core, slot),
            13..=14 => watched(read(core, random.below(3)), random),
            15..=16 => watched(line(core), random),
            17..=18 => refused_call(random, cores, slot),
            19..=20 => forbidden_call(random, cores, slot),
            _ if random.once_in(4) => reset(random.from(2, 5), random.from(1, 9)),
            _ => TICK,
        });
    }
    calls
}

fn from_near(random: &mut Random) -> Sequence {
    let mut state = good_state(random);
    if random.once_in(2) {
        damage(random, &mut state);
    }
    let calls = calls_on(random, &state, 60);
    Sequence { state, calls }
}

fn from_any_bytes(random: &mut Random) -> Sequence {
    let length = if random.once_in(3) { random.below(65) } else { BYTES as u64 };
    let most = if random.once_in(2) { 256 } else { 6 };
    let state: Vec<u8> = (0..length).map(|_| random.below(most) as u8).collect();
    let calls = calls_on(random, &state, 8);
    Sequence { state, calls }
}

/// A call that is not alike in both of a pair: another core's, a read by the workshop, or a forbidden one.
fn other_call(random: &mut Random, core: u64, cores: u64, slot: u64) -> Call {
    loop {
        let other = random.below(cores);
        let call = match random.below(10) {
            0..=4 => random_write(random, other, slot),
            5 => write(other, 1, 0),
            6 => watched(line(other), random),
            7 => watched(read(other, random.below(3)), random),
            _ => forbidden_call(random, cores, slot),
        };
        if !is_alike(core, &call) {
            return call;
        }
    }
}

/// Two sequences with a core's own calls and the workshop's ticks and resets alike; all other calls are different ones, or none. They
/// begin with one state, or with different ones and one reset.
fn pair(random: &mut Random, from_one_state: bool) -> (Sequence, Sequence, Law) {
    let state = good_state(random);
    let (mut cores, mut slot) = (u64::from(state[0]), u64::from(state[1]));
    let core = if random.once_in(8) { random.below(CORES as u64) } else { random.below(cores) };
    let alone = random.once_in(4);
    let mut both = [Vec::new(), Vec::new()];
    for place in 0..random.from(20, 150) {
        for calls in both.iter_mut().skip(usize::from(alone)) {
            (0..random.below(3)).for_each(|_| calls.push(other_call(random, core, cores, slot)));
        }
        let own = match random.below(12) {
            _ if place == 0 && !from_one_state => vec![reset(cores, slot)],
            0..=1 => vec![random_write(random, core, slot)],
            2 if random.once_in(12) => {
                (cores, slot) = random_cores(random);
                vec![reset(cores, slot)]
            }
            3 => vec![read(core, random.below(3)), refused_call(random, cores, slot)],
            4 => vec![forbidden_call(random, cores, slot).by(core)],
            _ => vec![TICK, line(core)],
        };
        both.iter_mut().for_each(|calls| calls.extend(own.iter().filter(|call| is_alike(core, call))));
    }
    let (other, law) = match random.below(2) {
        _ if from_one_state => (state.clone(), Law::Undisturbed(core)),
        0 => (good_state(random), Law::Equal(core)),
        _ => (any_bytes(random), Law::Equal(core)),
    };
    let [first, second] = both;
    (Sequence { state, calls: first }, Sequence { state: other, calls: second }, law)
}

/// A sequence with forbidden calls, and the same without them.
fn with_and_without(random: &mut Random) -> (Sequence, Sequence, Law) {
    let with = if random.once_in(2) { from_reset(random) } else { from_near(random) };
    let permitted = with.calls.iter().copied().filter(Call::is_permitted).collect();
    let without = Sequence { state: with.state.clone(), calls: permitted };
    (with, without, Law::Led)
}

/// All sequences: so many random ones, and those written by hand. Pairs come first, so that none is parted between two runs.
pub fn all(seed: u64, wanted: usize) -> Vec<Case> {
    let mut random = Random::new(seed ^ 0x61_7262_6974);
    let mut sequences = Sequences::default();
    while sequences.list.len() < wanted / 10 * 4 {
        let (first, second, law) = match sequences.list.len() % 6 {
            0 => pair(&mut random, true),
            2 => pair(&mut random, false),
            _ => with_and_without(&mut random),
        };
        if first != second && !second.calls.is_empty() {
            sequences.add("pairs", first, None, Law::Nothing);
            sequences.add("pairs", second, None, law);
        }
    }
    while sequences.list.len() < wanted {
        match random.below(10) {
            0..=3 => sequences.add("from a reset", from_reset(&mut random), None, Law::Reached),
            4..=7 => sequences.open("near good states", from_near(&mut random)),
            _ => sequences.open("any bytes", from_any_bytes(&mut random)),
        }
    }
    arbiter_cases::worked(&mut sequences);
    arbiter_cases::every_wait(&mut sequences);
    arbiter_cases::values(&mut sequences);
    arbiter_cases::numbers(&mut sequences);
    arbiter_cases::callers(&mut sequences);
    arbiter_cases::resets(&mut sequences);
    arbiter_cases::malformed(&mut sequences);
    arbiter_cases::order(&mut sequences);
    arbiter_cases::lengths(&mut sequences);
    sequences.list
}
