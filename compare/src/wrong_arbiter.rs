//! Calls on an arbiter for `wrong --arbiter`: a line for each sequence, as tests/linked/arbiter.c writes them, by the bytes of the state.
//! It shares no code with the second reading either.

use crate::{answer_lines, Fault, Said};

/// A call as its word says; numbers that it does not have are 0.
struct Call {
    kind: char,
    caller: u64,
    core: u64,
    register: u64,
    value: u64,
}

/// Reads sequences and writes answers until the input ends.
pub fn run(fault: &Fault) {
    let at_end = [fault.is("arbiter-no-last-line-feed"), fault.is("arbiter-line-too-many"), fault.is("arbiter-status-at-end")];
    answer_lines(at_end, &|line| {
        let (state, calls) = line.split_once(' ').unwrap_or((line, ""));
        match state.len() {
            1 if fault.is("arbiter-empty-unanswered") => Said::Nothing,
            128 if fault.is("arbiter-killed-at-64-bytes") => Said::Killed,
            _ => sequence(fault, state, calls).map_or(Said::Wrong, Said::Line),
        }
    });
}

fn sequence(fault: &Fault, state: &str, calls: &str) -> Option<String> {
    let digits = if state == "-" { "" } else { state };
    let byte = |at: usize| digits.get(at..at + 2).and_then(|pair| u8::from_str_radix(pair, 16).ok());
    let mut state: Vec<u8> = (0..digits.len()).step_by(2).map(byte).collect::<Option<_>>()?;
    let mut items = Vec::new();
    for word in calls.split(' ') {
        let call = read(fault, word)?;
        let before = state.clone();
        let [status, first, second] = answer(fault, &call, &mut state);
        let places = if status == 2 { "-/-".to_string() } else { format!("{first}/{second}") };
        let left = if state == before { "=".to_string() } else { state.iter().map(|byte| format!("{byte:02x}")).collect() };
        items.push(format!("{status}/{places}/{left}"));
    }
    if fault.is("arbiter-last-call-unanswered") && items.len() > 20 {
        items.pop();
    }
    Some(items.join(" "))
}

/// The numbers as they are held.
fn read(fault: &Fault, word: &str) -> Option<Call> {
    let mut parts = word.split('/');
    let kind = parts.next()?.chars().next()?;
    let mut number = || parts.next().map_or(Some(0), |part| part.parse::<u64>().ok());
    let mut call = Call { kind, caller: number()?, core: number()?, register: number()?, value: number()? };
    let reset = kind == 'z';
    match fault.0.as_str() {
        "arbiter-caller-in-5-bits" => call.caller %= 32,
        "arbiter-caller-in-a-byte" => call.caller %= 1 << 8,
        "arbiter-caller-16-bit" => call.caller %= 1 << 16,
        "arbiter-caller-32-bit" => call.caller %= 1 << 32,
        "arbiter-caller-63-bit" => call.caller %= 1 << 63,
        "arbiter-caller-largest-is-workshop" if call.caller == u64::MAX => call.caller = 16,
        "arbiter-caller-17-is-workshop" if call.caller == 17 => call.caller = 16,
        "arbiter-caller-above-is-workshop" => call.caller = call.caller.min(16),
        "arbiter-core-in-4-bits" if !reset => call.core %= 16,
        "arbiter-core-in-a-byte" if !reset => call.core %= 1 << 8,
        "arbiter-core-16-bit" if !reset => call.core %= 1 << 16,
        "arbiter-core-32-bit" if !reset => call.core %= 1 << 32,
        "arbiter-core-63-bit" if !reset => call.core %= 1 << 63,
        "arbiter-register-in-2-bits" if !reset => call.register %= 4,
        "arbiter-register-in-a-byte" if !reset => call.register %= 1 << 8,
        "arbiter-register-32-bit" if !reset => call.register %= 1 << 32,
        "arbiter-length-in-a-byte" if call.register == 0 => call.value %= 1 << 8,
        "arbiter-length-32-bit" if call.register == 0 => call.value %= 1 << 32,
        "arbiter-mask-in-a-bit" if call.register == 2 => call.value %= 2,
        "arbiter-mask-in-a-byte" if call.register == 2 => call.value %= 1 << 8,
        "arbiter-mask-from-any" if call.register == 2 => call.value = call.value.min(1),
        "arbiter-reset-in-bytes" if reset => (call.core, call.register) = (call.core % 256, call.register % 256),
        "arbiter-reset-32-bit" if reset => (call.core, call.register) = (call.core % (1 << 32), call.register % (1 << 32)),
        _ => {}
    }
    Some(call)
}

/// The status and both places of the answer.
fn answer(fault: &Fault, call: &Call, state: &mut Vec<u8>) -> [u64; 3] {
    let length_good = match fault.0.as_str() {
        "arbiter-52-bytes" => state.len() == 51 || state.len() == 52,
        "arbiter-longer-state" => state.len() >= 51,
        "arbiter-50-bytes" => state.len() == 51 || state.len() == 50,
        "arbiter-reset-any-length" => state.len() == 51 || call.kind == 'z' && state.len() > 51,
        _ => state.len() == 51,
    };
    if !length_good {
        return match fault.0.as_str() {
            "arbiter-length-is-15" => [1, 15, 0],
            "arbiter-forbidden-before-length" if forbidden(fault, call, state) => [1, 17, 0],
            _ => [2, 0, 0],
        };
    }
    let length = state.len();
    state.resize(51.max(length), 0);
    let number = refusal(fault, call, state);
    let value = if number == 0 { perform(fault, call, state) } else { 0 };
    if number > 0 {
        alter_refused(fault, call, number, state);
    }
    state.truncate(length);
    if number == 0 {
        done(fault, call, value, state)
    } else {
        refused(fault, call, number)
    }
}

/// The answer of a call that is done.
fn done(fault: &Fault, call: &Call, value: u64, state: &[u8]) -> [u64; 3] {
    match fault.0.as_str() {
        "arbiter-value-first" => [0, value, 0],
        "arbiter-done-is-1" => [1, 0, value],
        "arbiter-tick-answers-offset" if call.kind == 't' => [0, 0, state[2].into()],
        "arbiter-write-answers-value" if call.kind == 'w' => [0, 0, call.value],
        "arbiter-reset-answers-period" if call.kind == 'z' => [0, 0, call.core * call.register],
        _ => [0, 0, value],
    }
}

fn refused(fault: &Fault, call: &Call, number: u64) -> [u64; 3] {
    match fault.0.as_str() {
        "arbiter-place-1" => [1, number, 1],
        "arbiter-place-core" => [1, number, call.core],
        "arbiter-place-length" => [1, number, 51],
        "arbiter-place-of-busy" if number == 16 => [1, 16, call.core * 3 + 3],
        "arbiter-number-5" if number == 15 => [1, 5, 0],
        "arbiter-busy-is-15" if number == 16 => [1, 15, 0],
        "arbiter-forbidden-is-15" if number == 17 => [1, 15, 0],
        "arbiter-forbidden-is-16" if number == 17 => [1, 16, 0],
        "arbiter-forbidden-place-1" if number == 17 => [1, 17, 1],
        "arbiter-forbidden-place-caller" if number == 17 => [1, 17, call.caller],
        "arbiter-forbidden-place-core" if number == 17 => [1, 17, call.core],
        "arbiter-forbidden-is-done" if number == 17 => [0, 0, 0],
        "arbiter-forbidden-status-2" if number == 17 => [2, 0, 0],
        "arbiter-answer-swapped" => [1, 0, number],
        "arbiter-status-0" => [0, number, 0],
        "arbiter-status-2" => [2, 0, 0],
        _ => [1, number, 0],
    }
}

/// What a fault does to the state though the call is refused.
fn alter_refused(fault: &Fault, call: &Call, number: u64, state: &mut [u8]) {
    let place = 3 + 3 * (call.core % 16) as usize;
    let own = 3 + 3 * (call.caller % 16) as usize;
    let forbidden = number == 17;
    let write = call.kind == 'w';
    match fault.0.as_str() {
        "arbiter-refused-written" if write && call.register == 0 => state[place] = call.value as u8,
        "arbiter-refused-mask-written" if write && call.register == 2 => state[place + 2] = call.value as u8,
        "arbiter-busy-written" if number == 16 => state[place] = call.value as u8,
        "arbiter-busy-waits-again" if number == 16 => state[place + 1] = 1,
        "arbiter-refused-clears-done" if write && state[place + 1] == 4 => state[place + 1] = 0,
        "arbiter-refused-reset-clears" if call.kind == 'z' => state[3..51].fill(0),
        "arbiter-refused-tick-moves" if call.kind == 't' => state[2] = state[2].wrapping_add(1),
        "arbiter-forbidden-performed" if forbidden && judged_by_numbers(fault, call, state) == 0 => {
            perform(fault, call, state);
        }
        "arbiter-forbidden-mask-written" if forbidden && write && call.register == 2 => state[place + 2] = call.value as u8,
        "arbiter-forbidden-tick-moves" if forbidden && call.kind == 't' => state[2] = state[2].wrapping_add(1),
        "arbiter-forbidden-reset-clears" if forbidden && call.kind == 'z' => state[3..51].fill(0),
        "arbiter-forbidden-clears-named" if forbidden && state[place + 1] == 4 => state[place + 1] = 0,
        "arbiter-forbidden-clears-own" if forbidden && state[own + 1] == 4 => state[own + 1] = 0,
        "arbiter-malformed-cleared" if malformed(fault, state, 16) => state[3..51].fill(0),
        _ => {}
    }
}

/// 15, 16 or 17, or 0 where the call is done.
fn refusal(fault: &Fault, call: &Call, state: &[u8]) -> u64 {
    let number = judged_by_numbers(fault, call, state);
    let reset = call.kind == 'z';
    let named = !reset && call.kind != 't';
    let first = match fault.0.as_str() {
        "arbiter-forbidden-last" => number > 0,
        "arbiter-forbidden-behind-15" => number == 15,
        "arbiter-forbidden-behind-16" => number == 16,
        "arbiter-forbidden-behind-state" => !reset && malformed(fault, state, 16),
        "arbiter-forbidden-behind-core" => named && call.core >= 16,
        "arbiter-forbidden-behind-unused" => named && call.core >= state[0].into(),
        "arbiter-forbidden-behind-register" => call.kind == 'r' && call.register > 2,
        "arbiter-forbidden-behind-flags" => call.kind == 'w' && call.register == 1,
        "arbiter-forbidden-behind-value" => call.kind == 'w' && number == 15 && call.register != 1,
        "arbiter-forbidden-behind-reset" => reset && number == 15,
        _ => false,
    };
    if !first && forbidden(fault, call, state) {
        17
    } else {
        number
    }
}

/// Whether the caller has no right to the call; of the state only the number of cores is looked at, and that by faults alone.
fn forbidden(fault: &Fault, call: &Call, state: &[u8]) -> bool {
    let Call { kind, caller, core, register, value } = *call;
    let core_number = caller < 16;
    let workshop = caller == 16;
    let (reads, line, writes, ticks, resets) = (kind == 'r', kind == 'l', kind == 'w', kind == 't', kind == 'z');
    let named = reads || line || writes;
    let own = named && caller == core;
    let other = named && core_number && !own;
    let unused = named && core >= state.first().copied().unwrap_or(0).into();
    match fault.0.as_str() {
        // rights too many
        "arbiter-callers-unjudged" => false,
        "arbiter-callers-above-unjudged" if caller > 16 => false,
        "arbiter-caller-17-reads-own" if caller == 17 && own && reads => false,
        "arbiter-caller-above-own" if own && caller > 16 => false,
        "arbiter-caller-above-reads" if caller > 16 && (reads || line) => false,
        "arbiter-caller-above-ticks" if caller > 16 && ticks => false,
        "arbiter-workshop-writes" if workshop && writes => false,
        "arbiter-workshop-writes-own" if workshop && writes && own => false,
        "arbiter-workshop-writes-core-0" if workshop && writes && core == 0 => false,
        "arbiter-workshop-writes-lengths" if workshop && writes && register == 0 => false,
        "arbiter-workshop-writes-masks" if workshop && writes && register == 2 => false,
        "arbiter-workshop-clears-masks" if workshop && writes && register == 2 && value == 0 => false,
        "arbiter-workshop-writes-flags" if workshop && writes && register == 1 => false,
        "arbiter-workshop-writes-outside" if workshop && writes && core > 16 => false,
        "arbiter-core-0-is-workshop" if caller == 0 && !writes => false,
        "arbiter-core-ticks" if core_number && ticks => false,
        "arbiter-core-0-ticks" if caller == 0 && ticks => false,
        "arbiter-core-resets" if core_number && resets => false,
        "arbiter-core-15-resets" if caller == 15 && resets => false,
        "arbiter-core-resets-by-cores" if core_number && resets && caller == core => false,
        "arbiter-core-reads-others" if other && reads => false,
        "arbiter-core-reads-next" if core_number && reads && core == caller + 1 => false,
        "arbiter-core-reads-lengths" if other && reads && register == 0 => false,
        "arbiter-core-reads-flags" if other && reads && register == 1 => false,
        "arbiter-core-reads-masks" if other && reads && register == 2 => false,
        "arbiter-core-reads-no-register" if other && reads && register > 2 => false,
        "arbiter-core-reads-workshop" if core_number && core == 16 && (reads || line) => false,
        "arbiter-core-reads-lines" if other && line => false,
        "arbiter-core-reads-line-before" if core_number && line && caller == core.saturating_add(1) => false,
        "arbiter-core-writes-others" if other && writes => false,
        "arbiter-core-writes-next" if core_number && writes && core == caller + 1 => false,
        "arbiter-core-writes-lengths" if other && writes && register == 0 => false,
        "arbiter-core-writes-masks" if other && writes && register == 2 => false,
        "arbiter-core-clears-masks" if other && writes && register == 2 && value == 0 => false,
        "arbiter-core-writes-no-register" if other && writes && register > 2 => false,
        "arbiter-core-0-writes-others" if caller == 0 && writes => false,
        "arbiter-right-4-bits" if core_number && named && core % 16 == caller => false,
        "arbiter-right-in-a-byte" if core_number && named && core % 256 == caller => false,
        "arbiter-right-32-bit" if core_number && named && core % (1 << 32) == caller => false,
        // rights too few
        "arbiter-workshop-no-ticks" if ticks => true,
        "arbiter-workshop-no-resets" if resets => true,
        "arbiter-workshop-no-lines" if workshop && line => true,
        "arbiter-workshop-no-reads" if workshop && reads => true,
        "arbiter-workshop-no-masks" if workshop && reads && register == 2 => true,
        "arbiter-workshop-no-register" if workshop && reads && register > 2 => true,
        "arbiter-workshop-no-core-16" if workshop && core == 16 && (reads || line) => true,
        "arbiter-workshop-cores-only" if workshop && core >= 16 && (reads || line) => true,
        "arbiter-workshop-used-cores" if workshop && unused => true,
        "arbiter-core-used-only" if core_number && unused => true,
        "arbiter-core-15-forbidden" if caller == 15 => true,
        "arbiter-core-0-forbidden" if caller == 0 => true,
        "arbiter-core-no-line" if core_number && line => true,
        "arbiter-core-no-flags" if core_number && writes && register == 1 => true,
        "arbiter-core-no-mask" if core_number && writes && register == 2 => true,
        "arbiter-core-no-register" if core_number && named && register > 2 => true,
        "arbiter-core-no-length-0" if core_number && writes && register == 0 && value == 0 => true,
        "arbiter-core-no-large-value" if core_number && writes && value > 255 => true,
        "arbiter-reset-good-only" if resets && !bus_good(fault, true, core, register) => true,
        _ => match kind {
            't' | 'z' => !workshop,
            'w' => !(core_number && own),
            _ => !(core_number && own || workshop),
        },
    }
}

/// 15 or 16, or 0 where the call can be done, whoever its caller is.
fn judged_by_numbers(fault: &Fault, call: &Call, state: &[u8]) -> u64 {
    if call.kind == 'z' {
        let judged = fault.is("arbiter-reset-judges-state") && malformed(fault, state, 16);
        return if bus_good(fault, true, call.core, call.register) && !judged { 0 } else { 15 };
    }
    let looked_at = match fault.0.as_str() {
        "arbiter-state-unused-unjudged" => state[0].min(16).into(),
        "arbiter-state-last-unjudged" => 15,
        "arbiter-state-first-judged" => 1,
        _ => 16,
    };
    let judged = match fault.0.as_str() {
        "arbiter-state-unjudged" => false,
        "arbiter-state-tick-unjudged" => call.kind != 't',
        "arbiter-state-read-unjudged" => call.kind != 'r',
        "arbiter-state-line-unjudged" => call.kind != 'l',
        "arbiter-state-write-unjudged" => call.kind != 'w',
        _ => true,
    };
    let state_bad = judged && malformed(fault, state, looked_at);
    let named_bad = call.kind != 't' && numbers_bad(fault, call, state);
    let register_bad = state_bad || named_bad;
    let busy = call.kind == 'w' && busy(fault, call, state);
    match fault.0.as_str() {
        "arbiter-busy-before-15" if busy => 16,
        "arbiter-busy-before-state" if busy && !named_bad => 16,
        "arbiter-busy-before-value" if busy && !state_bad && call.register == 0 && call.core < state[0].into() => 16,
        _ if register_bad => 15,
        _ if busy => 16,
        _ => 0,
    }
}

/// Whether cores and slot, of a reset or of a state, are in range.
fn bus_good(fault: &Fault, reset: bool, cores: u64, slot: u64) -> bool {
    let of = if reset { "arbiter-reset-" } else { "arbiter-state-" };
    let name = if fault.0.starts_with(of) { fault.0.as_str() } else { "" };
    let cores_good = match name {
        "arbiter-reset-1-core" | "arbiter-state-1-core" => (1..=16).contains(&cores),
        "arbiter-reset-17-cores" | "arbiter-state-17-cores" => (2..=17).contains(&cores),
        "arbiter-reset-16-cores-refused" | "arbiter-state-16-cores-refused" => (2..=15).contains(&cores),
        _ => (2..=16).contains(&cores),
    };
    let slot_good = match name {
        "arbiter-reset-slot-0" | "arbiter-state-slot-0" => slot <= 128,
        "arbiter-reset-slot-128-refused" | "arbiter-state-slot-128-refused" => (1..=127).contains(&slot),
        _ => (1..=128).contains(&slot),
    };
    let most = match name {
        "arbiter-reset-product-unjudged" | "arbiter-state-product-unjudged" => u64::MAX,
        "arbiter-reset-product-over" | "arbiter-state-product-over" => 272,
        "arbiter-reset-product-256-refused" | "arbiter-state-product-256-refused" => 255,
        _ => 256,
    };
    cores_good && slot_good && cores.saturating_mul(slot) <= most
}

fn period(state: &[u8]) -> u64 {
    (u64::from(state[0]) * u64::from(state[1])).max(1)
}

/// Whether the state is malformed; so many cores' registers are looked at.
fn malformed(fault: &Fault, state: &[u8], looked_at: usize) -> bool {
    let offset = u64::from(state[2]);
    let offset_good = match fault.0.as_str() {
        "arbiter-state-offset-unjudged" => true,
        "arbiter-state-offset-at-period" => offset <= period(state),
        "arbiter-state-last-offset-refused" => offset + 1 < period(state),
        "arbiter-state-period-in-a-byte" => offset < period(state) % 256,
        _ => offset < period(state),
    };
    let cores_good = state[3..51].chunks(3).take(looked_at).all(|own| registers_good(fault, own, state[1]));
    !(bus_good(fault, false, state[0].into(), state[1].into()) && offset_good && cores_good)
}

fn registers_good(fault: &Fault, own: &[u8], slot: u8) -> bool {
    let (length, flags, mask) = (own[0], own[1], own[2]);
    let flags_good = match fault.0.as_str() {
        "arbiter-state-flags-3" => flags <= 4,
        "arbiter-state-flags-5" => [0, 1, 2, 4, 5].contains(&flags),
        "arbiter-state-flags-6" => [0, 1, 2, 4, 6].contains(&flags),
        "arbiter-state-flags-8" => [0, 1, 2, 4, 8].contains(&flags),
        "arbiter-state-flags-low-bits" => [0, 1, 2, 4].contains(&(flags % 8)),
        _ => [0, 1, 2, 4].contains(&flags),
    };
    let length_good = match fault.0.as_str() {
        "arbiter-state-length-unjudged" => true,
        "arbiter-state-length-over" => u16::from(length) <= u16::from(slot) + 1,
        "arbiter-state-idle-length-unjudged" => length <= slot || flags == 0,
        "arbiter-state-left-over-refused" => length <= slot && !(flags == 0 && length > 0),
        "arbiter-state-done-length-refused" => length <= slot && !(flags == 4 && length > 0),
        _ => length <= slot,
    };
    let zero_good = match fault.0.as_str() {
        "arbiter-state-waiting-0" => flags != 2 || length > 0,
        "arbiter-state-running-0" => flags != 1 || length > 0,
        _ => ![1, 2].contains(&flags) || length > 0,
    };
    let mask_good = match fault.0.as_str() {
        "arbiter-state-mask-2" => mask <= 2,
        "arbiter-state-mask-unjudged" => true,
        _ => mask <= 1,
    };
    flags_good && length_good && zero_good && mask_good
}

/// Whether core, register or value is out of range, or the flags are written.
fn numbers_bad(fault: &Fault, call: &Call, state: &[u8]) -> bool {
    let cores = match fault.0.as_str() {
        "arbiter-core-unused" => 16,
        "arbiter-core-at-cores" => (u64::from(state[0]) + 1).min(16),
        "arbiter-last-core-refused" => u64::from(state[0]) - 1,
        "arbiter-line-unused-core" if call.kind == 'l' => 16,
        _ => state[0].into(),
    };
    // what no register is there for is refused, whatever the fault
    if call.core >= cores || call.core >= 16 {
        return true;
    }
    if call.kind == 'l' {
        return false;
    }
    let slot = u64::from(state[1]);
    let value = call.value;
    match call.register {
        3 if fault.is("arbiter-register-3") => false,
        register if register > 2 => true,
        _ if call.kind == 'r' => false,
        0 => match fault.0.as_str() {
            "arbiter-length-0" => value > slot,
            "arbiter-length-of-slot-refused" => value < 1 || value >= slot,
            "arbiter-length-over-slot" => value < 1 || value > slot + 1,
            "arbiter-length-to-128" => value < 1 || value > 128,
            "arbiter-length-1-refused" => value < 2 || value > slot,
            _ => value < 1 || value > slot,
        },
        1 => match fault.0.as_str() {
            "arbiter-flags-written" | "arbiter-flags-ignored" => ![0, 1, 2, 4].contains(&value),
            "arbiter-flags-0-written" => value != 0,
            _ => true,
        },
        _ => match fault.0.as_str() {
            "arbiter-mask-2" => value > 2,
            "arbiter-mask-1-refused" => value > 0,
            _ => value > 1,
        },
    }
}

fn busy(fault: &Fault, call: &Call, state: &[u8]) -> bool {
    let flags = |core: usize| state[4 + 3 * core];
    let own = flags((call.core % 16) as usize);
    let length = call.register == 0;
    match fault.0.as_str() {
        "arbiter-busy-unjudged" => false,
        "arbiter-busy-waiting-only" => length && own == 1,
        "arbiter-busy-running-only" => length && own == 2,
        "arbiter-busy-done" => length && own > 0,
        "arbiter-busy-mask" => call.register != 1 && (own == 1 || own == 2),
        "arbiter-busy-by-length" => length && state[3 + 3 * (call.core as usize % 16)] > 0,
        "arbiter-busy-others" => length && (0..16).any(|core| flags(core) == 2 || core == call.core as usize % 16 && own == 1),
        _ => length && (own == 1 || own == 2),
    }
}

/// The call is done; the value read.
fn perform(fault: &Fault, call: &Call, state: &mut [u8]) -> u64 {
    let named = if fault.is("arbiter-caller-is-read") && call.kind == 'r' { call.caller } else { call.core };
    let place = 3 + 3 * (named % 16) as usize;
    let workshop = call.caller == 16;
    match call.kind {
        'z' => reset(fault, call, state),
        't' => tick(fault, state),
        'w' => write(fault, call, &mut state[3..51], place - 3),
        'r' => {
            let register = call.register.min(2) as usize;
            let value = match fault.0.as_str() {
                "arbiter-read-next-core" => state[3 + (place + register) % 48],
                "arbiter-read-waiting-as-0" if register == 1 => state[place + 1] & 6,
                "arbiter-read-done-as-1" if register == 1 => state[place + 1].min(3),
                "arbiter-read-mask-of-0" if register == 2 => state[5],
                _ => state[place + register],
            };
            let clears = fault.is("arbiter-read-clears-done") || fault.is("arbiter-workshop-read-clears-done") && workshop;
            if clears && register == 1 && state[place + 1] == 4 {
                state[place + 1] = 0;
            }
            return value.into();
        }
        _ => return interrupt(fault, workshop, &mut state[place..place + 3]),
    }
    0
}

fn interrupt(fault: &Fault, workshop: bool, own: &mut [u8]) -> u64 {
    let (done, mask) = (own[1] == 4, own[2] == 1);
    if done && (fault.is("arbiter-line-clears-done") || fault.is("arbiter-workshop-line-clears-done") && workshop) {
        own[1] = 0;
    }
    let line = match fault.0.as_str() {
        "arbiter-line-without-mask" => done,
        "arbiter-line-of-mask" => mask,
        "arbiter-workshop-line-without-mask" if workshop => done,
        "arbiter-line-while-running" => (done || own[1] == 2) && mask,
        "arbiter-line-while-idle" => (done || own[1] == 0) && mask,
        "arbiter-line-mask-turned" => done && !mask,
        "arbiter-line-with-length" => done && mask && own[0] == 0,
        _ => done && mask,
    };
    match fault.0.as_str() {
        "arbiter-line-is-4" if line => 4,
        _ => line.into(),
    }
}

fn reset(fault: &Fault, call: &Call, state: &mut [u8]) {
    let before = state.to_vec();
    state.fill(0);
    (state[0], state[1]) = (call.core as u8, call.register as u8);
    let keep = |state: &mut [u8], register: usize| {
        (3 + register..51).step_by(3).for_each(|place| state[place] = before[place]);
    };
    match fault.0.as_str() {
        "arbiter-reset-keeps-offset" => state[2] = before[2],
        "arbiter-reset-keeps-lengths" => keep(state, 0),
        "arbiter-reset-keeps-flags" => keep(state, 1),
        "arbiter-reset-keeps-masks" => keep(state, 2),
        "arbiter-reset-used-cores" => {
            let unused = 3 + 3 * call.core.min(16) as usize;
            state[unused..51].copy_from_slice(&before[unused..51]);
        }
        "arbiter-reset-masks-1" => (5..51).step_by(3).for_each(|place| state[place] = 1),
        "arbiter-reset-swapped" => state.swap(0, 1),
        "arbiter-reset-slot-only" => state[0] = before[0],
        _ => {}
    }
}

/// The registers of all cores, and where those of the core that is named begin.
fn write(fault: &Fault, call: &Call, registers: &mut [u8], named: usize) {
    let named = if fault.is("arbiter-write-next-core") { (named + 3) % 48 } else { named };
    let own = &mut registers[named..named + 3];
    let value = call.value as u8;
    match call.register {
        0 => {
            own[0] = value;
            own[1] = match fault.0.as_str() {
                "arbiter-done-kept" => own[1] & 4 | 1,
                "arbiter-waiting-not-set" => own[1],
                "arbiter-written-running" => 2,
                _ => 1,
            };
            if fault.is("arbiter-length-clears-mask") {
                own[2] = 0;
            }
        }
        1 if !fault.is("arbiter-flags-ignored") => own[1] = value,
        1 => {}
        _ => {
            own[2] = value;
            match fault.0.as_str() {
                "arbiter-mask-clears-done" if own[1] == 4 => own[1] = 0,
                "arbiter-mask-clears-length" if own[1] == 4 => own[0] = 0,
                "arbiter-mask-stops-waiting" if own[1] == 1 => own[1] = 0,
                _ => {}
            }
        }
    }
}

fn tick(fault: &Fault, state: &mut [u8]) {
    let moved = (u64::from(state[2]) + 1) % period(state);
    let offset = if fault.is("arbiter-offset-first") { moved } else { state[2].into() };
    let running_before = state[3..51].chunks(3).filter(|own| own[1] == 2).count();
    let slot = u64::from(state[1]);
    let stepped = match fault.0.as_str() {
        "arbiter-unused-not-stepped" => state[0].min(16).into(),
        "arbiter-last-core-not-stepped" => 15,
        _ => 16,
    };
    for core in 0..stepped {
        let own = &mut state[3 + 3 * core..6 + 3 * core];
        let starts = own[1] == 1 && may_start(fault, core as u64, slot, offset, own[0].into());
        let blocked = fault.is("arbiter-one-runs") && running_before > 0;
        let owned = core as u64 * slot <= offset && offset < (core as u64 + 1) * slot;
        if starts && !blocked {
            own[1] = 2;
            if fault.is("arbiter-first-cycle-uncounted") {
                continue;
            }
        }
        if own[1] == 2 && !(fault.is("arbiter-runs-in-slot-only") && !owned) {
            run_cycle(fault, own);
        }
    }
    state[2] = match fault.0.as_str() {
        "arbiter-offset-unwrapped" => state[2].wrapping_add(1),
        "arbiter-offset-stays" => state[2],
        "arbiter-offset-wraps-early" if moved + 1 == period(state) => 0,
        "arbiter-offset-in-7-bits" => moved as u8 % 128,
        "arbiter-offset-to-1" if moved == 0 => 1 % period(state) as u8,
        _ => moved as u8,
    };
}

/// Whether the slot of a waiting core still holds its whole length.
fn may_start(fault: &Fault, core: u64, slot: u64, offset: u64, length: u64) -> bool {
    let first = match fault.0.as_str() {
        "arbiter-slot-of-next" => (core + 1) * slot,
        "arbiter-slot-of-first" => 0,
        _ => core * slot,
    };
    let inside = first <= offset && offset < first + slot;
    match fault.0.as_str() {
        "arbiter-starts-in-last-cycles" => inside,
        "arbiter-starts-anywhere" => true,
        "arbiter-starts-at-slot-only" => offset == first,
        "arbiter-starts-before-slot" => offset + length <= first + slot,
        "arbiter-one-cycle-short" => inside && offset + length < first + slot,
        "arbiter-one-cycle-over" => inside && offset + length <= first + slot + 1,
        "arbiter-slot-in-a-byte" => inside && (offset + length) % 256 <= first + slot,
        "arbiter-end-in-a-byte" => inside && offset + length <= (first + slot) % 256,
        _ => inside && offset + length <= first + slot,
    }
}

/// A cycle of a running core.
fn run_cycle(fault: &Fault, own: &mut [u8]) {
    own[0] = own[0].wrapping_sub(1);
    let ended = if fault.is("arbiter-done-early") { own[0] <= 1 } else { own[0] == 0 };
    own[1] = match fault.0.as_str() {
        "arbiter-running-kept" if ended => 6,
        "arbiter-done-idle" if ended => 0,
        "arbiter-done-if-masked" if ended => 4 * own[2].min(1),
        "arbiter-waiting-kept" if !ended => 3,
        "arbiter-waits-again" if !ended => 1,
        _ if ended => 4,
        _ => 2,
    };
    match fault.0.as_str() {
        "arbiter-done-sets-length" if ended => own[0] = 1,
        "arbiter-done-clears-mask" if ended => own[2] = 0,
        _ => {}
    }
}
