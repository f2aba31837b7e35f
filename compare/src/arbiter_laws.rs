//! What is tried on the program's own answers: when an access is done, that no two cores run, that other cores' calls do not matter to
//! a core, and forbidden ones to nobody.

use crate::device::{Asked, Bus, Call, Sequence, BYTES, CORES, WORKSHOP};

/// What the program answered to a call, and the state that it left.
pub struct Step {
    answer: String,
    state: Vec<u8>,
}

impl Step {
    fn is_done(&self) -> bool {
        self.answer.starts_with("0/")
    }

    fn registers(&self, core: usize) -> &[u8] {
        &self.state[3 + 3 * core..6 + 3 * core]
    }
}

/// The steps of a line, if it has one for each call and every state is whole.
pub fn steps(sequence: &Sequence, line: &str) -> Option<Vec<Step>> {
    let mut state = sequence.state.clone();
    let mut steps = Vec::new();
    for item in line.split(' ') {
        let (answer, left) = item.rsplit_once('/')?;
        if left != "=" {
            state = left.as_bytes().chunks(2).map(byte).collect::<Option<_>>()?;
        }
        steps.push(Step { answer: answer.to_string(), state: state.clone() });
    }
    let whole = steps.len() == sequence.calls.len() && steps.iter().all(|step| step.state.len() == BYTES);
    whole.then_some(steps)
}

fn byte(digits: &[u8]) -> Option<u8> {
    u8::from_str_radix(std::str::from_utf8(digits).ok()?, 16).ok()
}

/// "a length written at offset o is done after wait + length ticks and no sooner, if no reset comes between": where that is otherwise.
pub fn untimely(sequence: &Sequence, steps: &[Step]) -> Option<String> {
    let mut ticks_left = [None; CORES];
    let mut before = &sequence.state;
    for (place, (call, step)) in sequence.calls.iter().zip(steps).enumerate() {
        match call.asked {
            _ if !step.is_done() => {}
            Asked::Write { core, register: 0, value } => {
                // where the program took what it may not take, its line differs
                let bus = Bus::new(before[0].into(), before[1].into()).filter(|bus| core < bus.cores && value <= bus.slot)?;
                ticks_left[core as usize] = Some(bus.wait(core, before[2].into(), value) + value);
            }
            Asked::Reset { .. } => ticks_left = [None; CORES],
            Asked::Tick => {
                for (core, left) in ticks_left.iter_mut().enumerate() {
                    *left = left.map(|ticks| ticks - 1);
                    let done = step.registers(core)[1] == 4;
                    if left.is_some_and(|ticks| done != (ticks == 0)) {
                        return Some(format!("call {place}: core {core} is done {}", if done { "too soon" } else { "too late" }));
                    }
                    *left = left.filter(|&ticks| ticks > 0);
                }
            }
            _ => {}
        }
        before = &step.state;
    }
    None
}

/// In states reached from a reset no two cores have running set: where two have.
pub fn crowded(steps: &[Step]) -> Option<String> {
    let running = |step: &Step| (0..CORES).filter(|&core| step.registers(core)[1] == 2).count();
    let place = steps.iter().position(|step| running(step) > 1)?;
    Some(format!("call {place}: two cores run"))
}

/// Two sequences, with what the program answered.
pub type Both<'a> = [(&'a Sequence, &'a [Step]); 2];

/// Where they differ in what is seen of some of their calls.
fn apart<'a, T: PartialEq>(both: Both<'a>, seen: &dyn Fn(&Call, &'a Step) -> Option<T>) -> Option<String> {
    let [first, second] = both.map(|(sequence, steps)| {
        let all = sequence.calls.iter().zip(steps).filter_map(|(call, step)| seen(call, step));
        all.collect::<Vec<T>>()
    });
    let place = (0..first.len().max(second.len())).find(|&place| first.get(place) != second.get(place))?;
    Some(format!("they differ at call {place} of those that count"))
}

/// A call that has to be alike in both where a core has to find the same: "a core's own calls and the workshop's ticks and resets".
pub fn is_alike(core: u64, call: &Call) -> bool {
    call.caller == core || call.caller == WORKSHOP && matches!(call.asked, Asked::Tick | Asked::Reset { .. })
}

/// "the other cores' writes never alter this core's registers or line", from one state.
pub fn disturbed(core: u64, both: Both) -> Option<String> {
    apart(both, &|call, step| is_alike(core, call).then(|| (&step.answer, step.registers(core as usize))))
}

/// "every answer to that core is equal", from different states, with one reset before its calls.
pub fn unequal(core: u64, both: Both) -> Option<String> {
    apart(both, &|call, step| (call.caller == core).then_some(&step.answer))
}

/// Calls lead where the permitted ones among them lead, which are alike in both.
pub fn led_elsewhere(both: Both) -> Option<String> {
    let [first, second] = both.map(|(_, steps)| steps.last().map(|step| &step.state));
    let elsewhere = (first != second).then(|| "the last states differ".to_string());
    elsewhere.or_else(|| apart(both, &|call, step| call.is_permitted().then_some((&step.answer, &step.state))))
}
