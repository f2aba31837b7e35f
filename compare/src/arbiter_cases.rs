//! Sequences of calls written by hand, with what has to be answered: change requests W7 and W8, sentence by sentence.

use crate::arbiter_generate::{Law, Sequences};
use crate::device::{Asked, Bus, Call, Sequence, BYTES, CORES, WORKSHOP};
use crate::generate::hexadecimal;
use std::collections::BTreeSet;

const LARGEST: u64 = u64::MAX;
/// What more bits than a byte, two bytes .. hold of it adds to a number.
pub const ABOVE: [u64; 4] = [1 << 8, 1 << 16, 1 << 32, 1 << 63];

const REFUSED: &str = "1/15/0/=";
const BUSY: &str = "1/16/0/=";
const FORBIDDEN: &str = "1/17/0/=";
const SHORT: &str = "2/-/-/=";

// Calls by those whose they are: a core's registers and line by that core, the others by the workshop.

pub const TICK: Call = Call { caller: WORKSHOP, asked: Asked::Tick };

pub fn read(core: u64, register: u64) -> Call {
    Call { caller: core, asked: Asked::Read { core, register } }
}

pub fn line(core: u64) -> Call {
    Call { caller: core, asked: Asked::Line { core } }
}

pub fn write(core: u64, register: u64, value: u64) -> Call {
    Call { caller: core, asked: Asked::Write { core, register, value } }
}

pub fn reset(cores: u64, slot: u64) -> Call {
    Call { caller: WORKSHOP, asked: Asked::Reset { cores, slot } }
}

/// A state's bytes, with the registers of some cores; those of the others are 0.
fn state(opening: [u8; 3], cores: &[(usize, [u8; 3])]) -> Vec<u8> {
    let mut bytes = opening.to_vec();
    bytes.resize(BYTES, 0);
    for (core, registers) in cores {
        bytes[3 + 3 * core..6 + 3 * core].copy_from_slice(registers);
    }
    bytes
}

/// The answer of a call that is done and leaves this state.
fn left(state: &[u8]) -> String {
    format!("0/0/0/{}", hexadecimal(state))
}

/// The answer of a read and of a line.
fn value(value: u64) -> String {
    format!("0/0/{value}/=")
}

/// A sequence of calls, each with its answer.
#[derive(Clone, Default)]
struct Script {
    calls: Vec<Call>,
    items: Vec<String>,
}

impl Script {
    fn then(&mut self, call: Call, item: impl Into<String>) {
        self.calls.push(call);
        self.items.push(item.into());
    }

    fn add(self, sequences: &mut Sequences, category: &'static str, state: &[u8]) {
        sequences.by_hand(category, Sequence { state: state.to_vec(), calls: self.calls }, self.items.join(" "));
    }
}

/// One call on a state.
fn single(sequences: &mut Sequences, category: &'static str, state: &[u8], call: Call, item: impl Into<String>) {
    let mut script = Script::default();
    script.then(call, item);
    script.add(sequences, category, state);
}

/// Lengths that one core writes one after the other, each as soon as the last is done, from an offset that ticks lead to after a
/// reset to two cores and a slot of 5; with the wait of each.
fn accesses(sequences: &mut Sequences, core: u8, offset: u8, lengths: &[(u8, u8)]) {
    let mut script = Script::default();
    let number = u64::from(core);
    let with = |offset: u8, length: u8, flags: u8| state([2, 5, offset % 10], &[(core.into(), [length, flags, 1])]);
    script.then(reset(2, 5), left(&state([2, 5, 0], &[])));
    script.then(write(number, 2, 1), left(&with(0, 0, 0)));
    // by the core and by the workshop
    let both = |script: &mut Script, call: Call, item: u64| {
        [number, WORKSHOP].into_iter().for_each(|caller| script.then(call.by(caller), value(item)));
    };
    let (mut now, mut flags) = (0, 0);
    for _ in 0..offset {
        now += 1;
        script.then(TICK, left(&with(now, 0, flags)));
    }
    for &(length, wait) in lengths {
        script.then(write(number, 0, length.into()), left(&with(now, length, 1)));
        for _ in 0..wait {
            now += 1;
            script.then(TICK, left(&with(now, length, 1)));
            both(&mut script, line(number), 0);
        }
        for cycles_left in (0..length).rev() {
            now += 1;
            flags = if cycles_left == 0 { 4 } else { 2 };
            script.then(TICK, left(&with(now, cycles_left, flags)));
            both(&mut script, read(number, 0), cycles_left.into());
            both(&mut script, read(number, 1), flags.into());
            both(&mut script, line(number), u64::from(flags == 4));
        }
    }
    // it stays done until the next length, over a period and more
    for _ in 0..12 {
        now += 1;
        script.then(TICK, left(&with(now, 0, 4)));
        both(&mut script, line(number), 1);
    }
    script.add(sequences, "worked waits", &[0xff; BYTES]);
}

/// The worked waits of document 01: cores 2, slot 5.
pub fn worked(sequences: &mut Sequences) {
    // "Waits, e = 2: offset 3 gives 0, offset 4 gives 6.", first digit by digit
    let opening = ["0205", "020501", "020502", "020503", "020504"];
    let at_3 = ["020503020100", "020504010200", "020505000400"].as_slice();
    let at_4 = [
        "020504020100",
        "020505020100",
        "020506020100",
        "020507020100",
        "020508020100",
        "020509020100",
        "020500020100",
        "020501010200",
        "020502000400",
    ];
    for (before, after) in [(&opening[..4], at_3), (&opening, &at_4)] {
        let mut script = Script::default();
        for (first, digits) in [(reset(2, 5), before), (write(0, 0, 2), after)] {
            for (place, digits) in digits.iter().enumerate() {
                let call = if place == 0 { first } else { TICK };
                script.then(call, format!("0/0/0/{digits:0<102}"));
            }
        }
        script.add(sequences, "worked waits", &[0; BYTES]);
    }
    for (offset, wait) in [(3, 0), (4, 6)] {
        accesses(sequences, 0, offset, &[(2, wait)]);
    }
    // "Core 1, e = 2: offsets 4, 5, 8, 9 give 1, 0, 0, 6."
    for (offset, wait) in [(4, 1), (5, 0), (8, 0), (9, 6)] {
        accesses(sequences, 1, offset, &[(2, wait)]);
    }
    // "e = 5: offset 0 gives 0, offset 1 gives 9."
    for (offset, wait) in [(0, 0), (1, 9)] {
        accesses(sequences, 0, offset, &[(5, wait)]);
    }
    // "A2 from all ten offsets: exits 2, 3, 4, 5."; from 3 and 5 after 2 and 7; by may access from 4 after 8
    for (offset, wait) in [0, 0, 0, 0, 6, 5, 4, 3, 2, 1].into_iter().enumerate() {
        accesses(sequences, 0, offset as u8, &[(2, wait)]);
    }
    // "Loop over A2, counts 1 to 3, from {4}: 2 after 18, 4 after 10"
    accesses(sequences, 0, 4, &[(2, 6), (2, 0), (2, 6)]);
    // A2 twice from 3 and 5: both after 9
    accesses(sequences, 0, 3, &[(2, 0), (2, 5)]);
    accesses(sequences, 0, 5, &[(2, 5), (2, 0)]);
}

/// Every offset, core and length of small buses, and some of large ones, each from that state on until it is done and a tick more.
pub fn every_wait(sequences: &mut Sequences) {
    for (cores, slot) in [(2, 5), (2, 1), (2, 2), (3, 4), (4, 1), (16, 1), (2, 128), (16, 16), (3, 85)] {
        let bus = Bus::new(cores, slot).expect("a bus in range");
        let below = |most: u64| match bus.period() {
            0..=16 => (0..most).collect(),
            _ => vec![0, 1, slot - 1, slot % most, most / 2, most - 1],
        };
        for offset in below(bus.period()) {
            for core in [0, 1, cores / 2, cores - 1] {
                for length in below(slot).into_iter().map(|less| less + 1) {
                    let mut calls = vec![write(core, 0, length)];
                    calls.resize(2 + (bus.wait(core, offset, length) + length) as usize, TICK);
                    let state = state([cores as u8, slot as u8, offset as u8], &[]);
                    sequences.add("every wait", Sequence { state, calls }, None, Law::Reached);
                }
            }
        }
    }
}

/// A number and those that have the same low bits.
fn with_bits_above(number: u64) -> impl Iterator<Item = u64> {
    [number].into_iter().chain(ABOVE.iter().map(move |above| above + number))
}

/// Lengths, masks and flags written on both sides of every limit.
pub fn values(sequences: &mut Sequences) {
    for (cores, slot) in [(2u8, 1u8), (2, 5), (16, 16), (2, 128), (3, 85)] {
        let near = [0, 1, 2, slot - 1, slot, slot + 1, 127, 128, 129, 254, 255];
        let numbers: Vec<u64> =
            near.iter().flat_map(|&near| with_bits_above(near.into())).chain([LARGEST, LARGEST - 1]).collect();
        for core in [0, cores - 1] {
            for before in [[0, 0, 0], [0, 4, 1], [1, 4, 0], [slot, 0, 1], [slot, 1, 1], [1, 2, 0]] {
                let start = state([cores, slot, 0], &[(core.into(), before)]);
                let with = |registers| left(&state([cores, slot, 0], &[(core.into(), registers)]));
                let busy = [1, 2].contains(&before[1]);
                for &number in &numbers {
                    let length = match number {
                        number if number < 1 || number > u64::from(slot) => REFUSED.to_string(),
                        _ if busy => BUSY.to_string(),
                        _ => with([number as u8, 1, before[2]]),
                    };
                    single(sequences, "values", &start, write(core.into(), 0, number), length);
                    single(sequences, "values", &start, write(core.into(), 1, number), REFUSED);
                    let mask = match number {
                        number if number > 1 => REFUSED.to_string(),
                        number if number as u8 == before[2] => value(0),
                        _ => with([before[0], before[1], number as u8]),
                    };
                    single(sequences, "values", &start, write(core.into(), 2, number), mask);
                }
            }
        }
    }
}

/// Other registers in each core, of every kind of flags.
fn different(core: usize) -> [u8; 3] {
    [core as u8 % 5 + 1, [0, 1, 2, 4, 4][core % 5], core as u8 / 5 % 2]
}

/// What a core of the bus has to answer where it writes a length of 1, its mask as it is, or something else that has no register.
fn written(start: &[u8], core: usize, register: u64) -> String {
    let mut after = start.to_vec();
    after[3 + 3 * core..5 + 3 * core].copy_from_slice(&[1, 1]);
    match (register, different(core)[1]) {
        (0, 1 | 2) => BUSY.to_string(),
        (0, _) => left(&after),
        (2, _) => value(0),
        _ => REFUSED.to_string(),
    }
}

/// Registers and cores on both sides of every limit, and what fewer bits would make of them; by the core and by the workshop.
pub fn numbers(sequences: &mut Sequences) {
    let mut registers: Vec<u64> = [0, 1, 2].into_iter().flat_map(with_bits_above).collect();
    registers.extend([3, 4, 127, 128, 255, LARGEST]);
    for (number, slot) in [(2u8, 5u8), (3, 85), (8, 32), (15, 17), (16, 16)] {
        let near = [0, 1, 2, number - 1, number, number + 1, 14, 15, 16, 17, 31, 32, 255];
        for core in near.iter().flat_map(|&near| with_bits_above(near.into())).chain([LARGEST]) {
            for caller in [core, WORKSHOP] {
                on_registers(sequences, [number, slot], caller, core, &registers);
            }
        }
    }
}

/// What this caller is answered where it reads and writes these registers of a core and reads its line, on a state with other
/// registers in each core. What is forbidden is tried on bytes that are no state too.
fn on_registers(sequences: &mut Sequences, [cores, slot]: [u8; 2], caller: u64, core: u64, registers: &[u64]) {
    let all: Vec<(usize, [u8; 3])> = (0..CORES).map(|core| (core, different(core))).collect();
    let start = state([cores, slot, 1], &all);
    let own = different(core as usize % CORES);
    let writes = caller == core && core < 16;
    let reads = writes || caller == WORKSHOP;
    let mut script = Script::default();
    let mut one = |call: Call, right: bool, item: String| {
        let item = if core < cores.into() { item } else { REFUSED.to_string() };
        if right {
            single(sequences, "cores and registers", &start, call.by(caller), item);
        } else {
            script.then(call.by(caller), FORBIDDEN);
        }
    };
    one(line(core), reads, value(u64::from(own[1] == 4 && own[2] == 1)));
    for &register in registers {
        let read_value = own.get(register.min(3) as usize);
        one(read(core, register), reads, read_value.map_or(REFUSED.to_string(), |&own| value(own.into())));
        let number = if register == 2 { own[2].into() } else { 1 };
        one(write(core, register, number), writes, written(&start, core as usize % CORES, register));
        one(write(core, register, LARGEST), writes, REFUSED.to_string());
    }
    if !writes {
        script.clone().add(sequences, "callers", &start);
        script.add(sequences, "callers", &[0xff; BYTES]);
    }
}

/// "a caller above 16 or without that right": every call by every caller on every core up to 17, and what fewer bits would make of
/// callers and cores.
pub fn callers(sequences: &mut Sequences) {
    let far = [0, 1, 9, 15, 16, 17].into_iter().flat_map(with_bits_above).chain([18, 31, 32, 48, 255, LARGEST]);
    let every: BTreeSet<u64> = (0..=17).chain(far).collect();
    for bus @ [cores, slot] in [[2, 5], [16, 16]] {
        for &caller in &every {
            // what its lowest bits name, what has the same lowest bits, and itself
            let named: BTreeSet<u64> = (0..=17).chain(with_bits_above(caller % 16)).chain([caller % 256, caller]).collect();
            for core in named {
                on_registers(sequences, bus, caller, core, &[0, 1, 2, 3, LARGEST]);
            }
            let start = state([cores, slot, 1], &[(1, [3, 4, 1]), (15, [2, 0, 1])]);
            let mut ticked = start.clone();
            ticked[2] = 2;
            let calls = [
                (TICK, left(&ticked)),
                (reset(3, 7), left(&state([3, 7, 0], &[]))),
                (reset(cores.into(), slot.into()), left(&state([cores, slot, 0], &[]))),
                (reset(0, 0), REFUSED.to_string()),
                (reset(17, 1), REFUSED.to_string()),
                (reset(LARGEST, 5), REFUSED.to_string()),
                (reset(2, LARGEST), REFUSED.to_string()),
            ];
            for (call, item) in calls {
                let item = if caller == WORKSHOP { item } else { FORBIDDEN.to_string() };
                single(sequences, "callers", &start, call.by(caller), item);
            }
        }
    }
}

/// Numbers of a reset on both sides of every limit, from states of every kind.
pub fn resets(sequences: &mut Sequences) {
    let used = state([2, 5, 9], &[(0, [2, 1, 1]), (1, [3, 2, 1]), (2, [5, 4, 1]), (15, [1, 0, 1])]);
    let starts = [vec![0; BYTES], vec![0xff; BYTES], used];
    let slots = [0, 1, 2, 15, 16, 17, 18, 19, 23, 25, 28, 36, 42, 51, 52, 63, 64, 65, 85, 86, 127, 128, 129, 130, 255];
    for cores in [0, 1, 2, 3, 4, 5, 8, 15, 16, 17, 18, 32, 128, 129, 255].into_iter().flat_map(with_bits_above) {
        let whole = slots.iter().copied().chain(ABOVE.map(|above| above + 5)).chain([LARGEST, 1 << 33]);
        for slot in whole {
            let good = (2..=16).contains(&cores) && (1..=128).contains(&slot) && cores * slot <= 256;
            let after = state([cores as u8, slot as u8, 0], &[]);
            for start in &starts {
                let item = if good { left(&after) } else { REFUSED.to_string() };
                single(sequences, "resets", start, reset(cores, slot), item);
            }
        }
    }
    for (cores, slot) in [(2, LARGEST), (LARGEST, 5), (LARGEST, LARGEST), (1 << 63, 2), (1 << 32, 1 << 32)] {
        single(sequences, "resets", &starts[2], reset(cores, slot), REFUSED);
    }
}

/// Every call on a state that is malformed: all but a reset are refused, and a caller without that right before that.
fn refuse_all(sequences: &mut Sequences, category: &'static str, start: &[u8]) {
    let mut script = Script::default();
    let calls = [TICK, read(0, 0), read(1, 1), read(0, 2), line(0), line(1), write(0, 0, 1), write(1, 0, 1), write(0, 2, 1)];
    let wrong = [write(0, 1, 0), read(0, 3), read(9, 3), write(1, 2, 2), write(0, 0, 0), reset(1, 5), reset(2, 129)];
    let watched = [read(0, 0), line(1), read(16, 0), line(LARGEST)].map(|call| call.by(WORKSHOP));
    calls.into_iter().chain(wrong).chain(watched).for_each(|call| script.then(call, REFUSED));
    forbidden().into_iter().for_each(|call| script.then(call, FORBIDDEN));
    script.then(reset(2, 5), left(&state([2, 5, 0], &[])));
    script.then(TICK, left(&state([2, 5, 1], &[])));
    script.add(sequences, category, start);
}

/// Calls without that right, good and bad ones in what they ask for.
fn forbidden() -> Vec<Call> {
    let workshop = [write(0, 0, 1), write(1, 2, 1), write(0, 1, 0), write(0, 0, 6), write(16, 0, 1), write(9, 2, 2)];
    let core_1 = [TICK, reset(2, 5), reset(0, 0), read(0, 0), line(0), line(16), write(0, 0, 1), write(0, 3, 1), write(2, 0, 1)];
    let nobody = [TICK, reset(2, 5), reset(1, 5), read(17, 0), read(1, 3), line(17), write(17, 0, 1), write(1, 2, 2)];
    let each =
        [(WORKSHOP, &workshop[..]), (1, &core_1), (17, &nobody), (LARGEST, &nobody), (257, &nobody), ((1 << 32) + 16, &nobody)];
    each.into_iter().flat_map(|(caller, calls)| calls.iter().map(move |call| call.by(caller))).collect()
}

/// States malformed in one number, in each core, and those just inside the same limits.
pub fn malformed(sequences: &mut Sequences) {
    let openings = [[0, 5, 0], [1, 5, 0], [17, 5, 0], [255, 1, 0], [2, 0, 0], [2, 129, 0], [2, 255, 0], [3, 86, 0], [16, 17, 0]];
    let offsets = [[2, 5, 10], [2, 5, 11], [2, 5, 255], [16, 1, 16], [3, 85, 255], [2, 127, 254], [15, 17, 255], [128, 2, 0]];
    for opening in openings.into_iter().chain(offsets) {
        refuse_all(sequences, "malformed states", &state(opening, &[]));
    }
    for (cores, slot, offset) in [(2u8, 5u8, 9u8), (16, 16, 255), (2, 128, 255), (9, 1, 0)] {
        for core in 0..CORES {
            let with = |registers| state([cores, slot, offset], &[(core, registers)]);
            let lengths =
                [[slot + 1, 0, 0], [255, 0, 1], [slot + 1, 1, 0], [slot + 1, 2, 0], [slot + 1, 4, 1], [128 | slot + 1, 4, 0]];
            let flags = [3, 5, 6, 7, 8, 9, 16, 18, 32, 64, 128, 129, 132, 255].map(|flags| [1, flags, 1]);
            let masks = [[0, 0, 2], [1, 1, 3], [1, 2, 128], [0, 4, 255], [0, 4, 2]];
            let zeros = [[0, 1, 0], [0, 2, 0], [0, 1, 1], [0, 2, 1]];
            for registers in lengths.into_iter().chain(flags).chain(masks).chain(zeros) {
                refuse_all(sequences, "malformed states", &with(registers));
            }
            for registers in [[0, 0, 1], [slot, 0, 0], [slot, 1, 0], [slot, 2, 1], [slot, 4, 1], [1, 1, 1], [1, 2, 0], [0, 4, 0]]
            {
                let start = with(registers);
                let calls = vec![read(0, 0), read(1, 1), read(0, 2), line(0), line(1), TICK, TICK, write(0, 2, 1), line(0)];
                sequences.open("states just inside", Sequence { state: start.clone(), calls });
                single(sequences, "states just inside", &start, read(cores as u64 - 1, 3), REFUSED);
                let own = if core == 0 { registers[0] } else { 0 };
                single(sequences, "states just inside", &start, read(0, 0), value(own.into()));
            }
        }
    }
}

/// "15 register, judged first": 16 only where nothing else is wrong; 17 "judged before 15"; a refused call leaves the state as it is.
pub fn order(sequences: &mut Sequences) {
    for flags in [1, 2] {
        for other in [0, 1, 2, 4] {
            let start = state([2, 5, 4], &[(0, [3, flags, 1]), (1, [2, other, 0])]);
            let mut script = Script::default();
            for number in [0, 6, 127, 255, 256, 257, 258, (1 << 32) + 3, LARGEST] {
                script.then(write(0, 0, number), REFUSED);
                script.then(write(0, 1, number), REFUSED);
                script.then(write(0, 0, number).by(1), FORBIDDEN);
                script.then(write(0, 0, number).by(WORKSHOP), FORBIDDEN);
            }
            for number in 1..=5 {
                script.then(write(0, 0, number), BUSY);
                script.then(write(0, 3, number), REFUSED);
                script.then(write(2, 0, number), REFUSED);
                script.then(write(256, 0, number), FORBIDDEN);
                for caller in [1, 2, 15, 16, 17, 256, LARGEST] {
                    script.then(write(0, 0, number).by(caller), FORBIDDEN);
                }
            }
            forbidden().into_iter().for_each(|call| script.then(call, FORBIDDEN));
            script.then(write(0, 2, 2), REFUSED);
            // the mask may be written meanwhile
            script.then(write(0, 2, 0), left(&state([2, 5, 4], &[(0, [3, flags, 0]), (1, [2, other, 0])])));
            script.then(read(0, 1), value(flags.into()));
            script.then(write(0, 0, 3), BUSY);
            script.add(sequences, "order of refusals", &start);
            for broken in [[0, 1, 0], [6, 0, 0], [0, 8, 0], [0, 0, 2]] {
                for core in 1..CORES {
                    let start = state([2, 5, 4], &[(0, [3, flags, 1]), (core, broken)]);
                    single(sequences, "order of refusals", &start, write(0, 0, 3), REFUSED);
                }
            }
        }
    }
}

/// "the state is not 51 bytes long": whatever the call is.
pub fn lengths(sequences: &mut Sequences) {
    let good = state([2, 5, 9], &[(0, [2, 1, 1]), (1, [3, 2, 1]), (15, [1, 0, 1])]);
    let calls = [
        TICK,
        read(0, 0),
        read(LARGEST, LARGEST),
        line(0),
        line(2),
        read(1, 0).by(WORKSHOP),
        line(16).by(WORKSHOP),
        write(0, 2, 0),
        write(0, 0, 1),
        write(0, 0, 0),
        reset(2, 5),
        reset(16, 16),
        reset(0, 0),
    ];
    let calls = [&calls[..], &forbidden()].concat();
    for bytes in [good.repeat(2), vec![0; 64], vec![0xff; 64], [vec![16], vec![1; 63]].concat()] {
        for length in (0..=64).filter(|&length| length != BYTES) {
            let mut script = Script::default();
            calls.iter().for_each(|&call| script.then(call, SHORT));
            script.add(sequences, "lengths of the state", &bytes[..length]);
        }
        sequences.open("lengths of the state", Sequence { state: bytes[..BYTES].to_vec(), calls: calls.clone() });
    }
}
