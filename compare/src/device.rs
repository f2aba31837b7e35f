//! A second reading of change requests W7 and W8: what each call of the arbiter answers, and the state that it leaves.
//!
//! Each core is idle, waits, runs or is done, and goes from one to the other as the request's sentences say. A second account has no
//! such stages: an access is two dates, found by the clock of document 01 when its length is written, and the registers follow from
//! the dates and the number of ticks. Both must agree after every call that is done. Whether a call is forbidden is said of the call
//! alone, before anything else of it or of the state is looked at.

use crate::generate::hexadecimal;
use Stage::{Done, Idle, Running, Waiting};

/// Cores that a state has registers for, and its bytes: cores, slot, offset, then length, flags and mask of each core.
pub const CORES: usize = 16;
pub const BYTES: usize = 3 + 3 * CORES;

/// "Each call names its caller: a core number, or 16 for the workshop."
pub const WORKSHOP: u64 = 16;

#[derive(Clone, Copy, PartialEq, Eq, Hash)]
pub struct Call {
    pub caller: u64,
    pub asked: Asked,
}

/// What is asked for in a call.
#[derive(Clone, Copy, PartialEq, Eq, Hash)]
pub enum Asked {
    Tick,
    Read { core: u64, register: u64 },
    Line { core: u64 },
    Write { core: u64, register: u64, value: u64 },
    Reset { cores: u64, slot: u64 },
}

impl Call {
    /// The same, by another caller.
    pub fn by(self, caller: u64) -> Call {
        Call { caller, ..self }
    }

    /// The core that is named.
    fn core(&self) -> Option<u64> {
        match self.asked {
            Asked::Tick | Asked::Reset { .. } => None,
            Asked::Read { core, .. } | Asked::Line { core } | Asked::Write { core, .. } => Some(core),
        }
    }

    /// Whether the caller has that right.
    pub fn is_permitted(&self) -> bool {
        match self.caller {
            // "A core reads and writes its own registers and reads its own line.", whether the bus has that core or not
            0..=15 => self.core() == Some(self.caller),
            // "The workshop reads everything, ticks and resets, and writes no register."
            WORKSHOP => !matches!(self.asked, Asked::Write { .. }),
            // "a caller above 16"
            _ => false,
        }
    }

    fn word(&self) -> String {
        let caller = self.caller;
        match self.asked {
            Asked::Tick => format!("t/{caller}"),
            Asked::Read { core, register } => format!("r/{caller}/{core}/{register}"),
            Asked::Line { core } => format!("l/{caller}/{core}"),
            Asked::Write { core, register, value } => format!("w/{caller}/{core}/{register}/{value}"),
            Asked::Reset { cores, slot } => format!("z/{caller}/{cores}/{slot}"),
        }
    }
}

/// A state's bytes and the calls made on it, one after the other.
#[derive(Clone, PartialEq, Eq, Hash)]
pub struct Sequence {
    pub state: Vec<u8>,
    pub calls: Vec<Call>,
}

impl Sequence {
    /// The line that the program under test reads.
    pub fn line(&self) -> String {
        let state = if self.state.is_empty() { "-".to_string() } else { hexadecimal(&self.state) };
        self.calls.iter().fold(state, |line, call| line + " " + &call.word())
    }
}

/// Why a call is refused.
#[derive(Clone, Copy, Debug, PartialEq, Eq, PartialOrd, Ord)]
pub enum Refusal {
    State,
    Core,
    Register,
    Flags,
    Value,
    Reset,
    Busy,
    Forbidden,
}

impl Refusal {
    pub fn number(self) -> u64 {
        match self {
            Refusal::Forbidden => 17,
            Refusal::Busy => 16,
            _ => 15,
        }
    }
}

pub enum Found {
    /// the call is done; so many accesses came to done with it
    Done(usize),
    Refused(Refusal),
    /// status 2: the state has another length
    Length,
}

/// What is expected of a call.
pub struct Answer {
    pub item: String,
    pub found: Found,
    /// where this reading disagrees with itself
    pub doubt: Option<String>,
}

/// What is expected of each call.
pub fn answers(sequence: &Sequence) -> Vec<Answer> {
    let dates = Device::read(&sequence.state).map(|device| Dates::of(&device));
    let mut model = Model { state: sequence.state.clone(), dates };
    sequence.calls.iter().map(|call| model.call(call)).collect()
}

#[derive(Clone, Copy)]
pub struct Bus {
    pub cores: u64,
    pub slot: u64,
}

impl Bus {
    /// "in the ranges of tag 1": cores 2 to 16, slot 1 to 128, cores × slot at most 256.
    pub fn new(cores: u64, slot: u64) -> Option<Bus> {
        let good = (2..=16).contains(&cores) && (1..=128).contains(&slot) && cores * slot <= 256;
        good.then_some(Bus { cores, slot })
    }

    pub fn period(self) -> u64 {
        self.cores * self.slot
    }

    /// The wait by Equation 7, for a core of the bus and a length from 1 to the slot length.
    pub fn wait(self, core: u64, offset: u64, length: u64) -> u64 {
        let first = core * self.slot;
        if first <= offset && offset <= first + self.slot - length {
            0
        } else {
            (first + self.period() - offset) % self.period()
        }
    }

    /// The same by the clock: cycles that pass one at a time until all cycles of the access lie inside the core's slot of that period;
    /// none for a core that has no slot.
    fn cycles_until_start(self, core: u64, offset: u64, length: u64) -> Option<u64> {
        (0..self.period()).find(|wait| {
            let start = (offset + wait) % self.period();
            (start..start + length).all(|cycle| cycle / self.slot == core)
        })
    }

    /// Cycles from the offset on that the core's slot still holds.
    fn held(self, core: u64, offset: u64) -> u64 {
        (offset..self.period()).take_while(|cycle| cycle / self.slot == core).count() as u64
    }
}

#[derive(Clone, Copy, PartialEq)]
enum Stage {
    Idle,
    Waiting,
    Running,
    Done,
}

#[derive(Clone, Copy)]
struct Core {
    stage: Stage,
    length: u64,
    mask: u64,
}

impl Core {
    /// None where a number is out of range, the flags are not 0, 1, 2 or 4, or a waiting or running length is 0.
    fn read(registers: &[u8], slot: u64) -> Option<Core> {
        let &[length, flags, mask] = registers else { return None };
        let stage = match flags {
            0 => Idle,
            1 if length > 0 => Waiting,
            2 if length > 0 => Running,
            4 => Done,
            _ => return None,
        };
        let core = Core { stage, length: length.into(), mask: mask.into() };
        (core.length <= slot && core.mask <= 1).then_some(core)
    }

    /// "0 length, 1 flags (bit 0 waiting, bit 1 running, bit 2 done), 2 interrupt mask (0 or 1)"
    fn registers(&self) -> [u64; 3] {
        let bits = [Waiting, Running, Done].iter().zip([1, 2, 4]);
        let flags = bits.filter(|(stage, _)| **stage == self.stage).map(|(_, bit)| bit).sum();
        [self.length, flags, self.mask]
    }

    /// "Writing a length from 1 to the slot length clears done and sets waiting."
    fn write(&mut self, register: u64, value: u64, slot: u64) -> Result<(), Refusal> {
        match register {
            0 if value < 1 || value > slot => return Err(Refusal::Value),
            0 if [Waiting, Running].contains(&self.stage) => return Err(Refusal::Busy),
            0 => (self.stage, self.length) = (Waiting, value),
            1 => return Err(Refusal::Flags),
            2 if value > 1 => return Err(Refusal::Value),
            2 => self.mask = value,
            _ => return Err(Refusal::Register),
        }
        Ok(())
    }
}

struct Device {
    bus: Bus,
    offset: u64,
    cores: [Core; CORES],
}

impl Device {
    /// "A reset names cores and slot, in the ranges of tag 1, and clears all registers and the offset."
    fn reset(bus: Bus) -> Device {
        Device { bus, offset: 0, cores: [Core { stage: Idle, length: 0, mask: 0 }; CORES] }
    }

    /// None where the bytes are no state of the arbiter; unused cores' registers count.
    fn read(state: &[u8]) -> Option<Device> {
        let [cores, slot, offset, registers @ ..] = state else { return None };
        let mut device = Device::reset(Bus::new((*cores).into(), (*slot).into())?);
        device.offset = (*offset).into();
        for (core, registers) in device.cores.iter_mut().zip(registers.chunks(3)) {
            *core = Core::read(registers, device.bus.slot)?;
        }
        (state.len() == BYTES && device.offset < device.bus.period()).then_some(device)
    }

    fn bytes(&self) -> Vec<u8> {
        let opening = [self.bus.cores, self.bus.slot, self.offset];
        let registers = self.cores.iter().flat_map(Core::registers);
        opening.into_iter().chain(registers).map(|number| number as u8).collect()
    }

    fn core(&mut self, core: u64) -> Result<&mut Core, Refusal> {
        self.cores[..self.bus.cores as usize].iter_mut().zip(0..).find(|own| own.1 == core).map(|own| own.0).ok_or(Refusal::Core)
    }

    fn tick(&mut self) {
        for (core, number) in self.cores.iter_mut().zip(0..) {
            // "a waiting core whose slot still holds its whole length turns from waiting to running"
            if core.stage == Waiting && self.bus.held(number, self.offset) >= core.length {
                core.stage = Running;
            }
            // "a running length, that one too, falls by one, and at zero running gives way to done"
            if core.stage == Running {
                core.length -= 1;
                core.stage = if core.length == 0 { Done } else { Running };
            }
        }
        // "then the offset moves on"
        self.offset = (self.offset + 1) % self.bus.period();
    }

    fn number_done(&self) -> usize {
        self.cores.iter().filter(|core| core.stage == Done).count()
    }
}

/// The device after the call, the value read, and the accesses that came to done.
fn perform(state: &[u8], call: &Call) -> Result<(Device, u64, usize), Refusal> {
    // "judged before 15"
    if !call.is_permitted() {
        return Err(Refusal::Forbidden);
    }
    if let Asked::Reset { cores, slot } = call.asked {
        return Ok((Device::reset(Bus::new(cores, slot).ok_or(Refusal::Reset)?), 0, 0));
    }
    let mut device = Device::read(state).ok_or(Refusal::State)?;
    let slot = device.bus.slot;
    let (mut value, mut ended) = (0, 0);
    match call.asked {
        Asked::Read { core, register } => {
            let registers = device.core(core)?.registers();
            value = *registers.get(register.min(3) as usize).ok_or(Refusal::Register)?;
        }
        // "The interrupt line is done together with the mask."
        Asked::Line { core } => {
            let core = device.core(core)?;
            value = u64::from(core.stage == Done && core.mask == 1);
        }
        Asked::Write { core, register, value } => device.core(core)?.write(register, value, slot)?,
        _ => {
            let before = device.number_done();
            device.tick();
            ended = device.number_done() - before;
        }
    }
    Ok((device, value, ended))
}

/// A core of the second account. Dates are numbers of ticks; an access waits up to its first date and runs up to its second.
#[derive(Clone, Copy)]
enum Dated {
    Rest { length: u64, flags: u64 },
    Access { starts: i64, ends: i64 },
}

/// The second account: from which offset on so many ticks passed, and the dates and the mask of each core.
struct Dates {
    bus: Bus,
    from: u64,
    ticks: i64,
    cores: [(Dated, u64); CORES],
}

/// The date of an access that never starts: its core has no slot.
const NEVER: i64 = 1 << 40;

impl Dates {
    fn of(device: &Device) -> Dates {
        let cores = [(Dated::Rest { length: 0, flags: 0 }, 0); CORES];
        let mut dates = Dates { bus: device.bus, from: device.offset, ticks: 0, cores };
        for (number, core) in device.cores.iter().enumerate() {
            let [length, flags, mask] = core.registers();
            let dated = match flags {
                1 => dates.access(number as u64, length),
                2 => Dated::Access { starts: -1, ends: length as i64 },
                _ => Dated::Rest { length, flags },
            };
            dates.cores[number] = (dated, mask);
        }
        dates
    }

    fn offset(&self) -> u64 {
        (self.from + self.ticks as u64) % self.bus.period()
    }

    /// An access that is due now.
    fn access(&self, core: u64, length: u64) -> Dated {
        let cycles = self.bus.cycles_until_start(core, self.offset(), length);
        let starts = cycles.map_or(NEVER, |cycles| self.ticks + cycles as i64);
        Dated::Access { starts, ends: starts + length as i64 }
    }

    fn bytes(&self) -> Vec<u8> {
        let mut bytes = vec![self.bus.cores as u8, self.bus.slot as u8, self.offset() as u8];
        for (dated, mask) in self.cores {
            let (length, flags) = match dated {
                Dated::Rest { length, flags } => (length, flags),
                Dated::Access { starts, ends } if self.ticks <= starts => ((ends - starts) as u64, 1),
                Dated::Access { ends, .. } if self.ticks < ends => ((ends - self.ticks) as u64, 2),
                Dated::Access { .. } => (0, 4),
            };
            bytes.extend([length as u8, flags as u8, mask as u8]);
        }
        bytes
    }
}

struct Model {
    state: Vec<u8>,
    /// none where the state is not one of the arbiter
    dates: Option<Dates>,
}

impl Model {
    fn call(&mut self, call: &Call) -> Answer {
        if self.state.len() != BYTES {
            return Answer { item: "2/-/-/=".to_string(), found: Found::Length, doubt: None };
        }
        match perform(&self.state, call) {
            Err(refusal) => Answer { item: format!("1/{}/0/=", refusal.number()), found: Found::Refused(refusal), doubt: None },
            Ok((device, value, ended)) => {
                let doubt = self.follow(call, &device);
                let after = device.bytes();
                let left = if after == self.state { "=".to_string() } else { hexadecimal(&after) };
                self.state = after;
                Answer { item: format!("0/0/{value}/{left}"), found: Found::Done(ended), doubt }
            }
        }
    }

    /// The second account of a call that is done; where it differs from this device after it, or from Equation 7.
    fn follow(&mut self, call: &Call, after: &Device) -> Option<String> {
        let mut doubt = None;
        match (call.asked, &mut self.dates) {
            (Asked::Reset { .. }, dates) => *dates = Some(Dates::of(&Device::reset(after.bus))),
            (Asked::Tick, Some(dates)) => dates.ticks += 1,
            (Asked::Write { core, register: 0, value }, Some(dates)) => {
                let (clock, formula) =
                    (dates.bus.cycles_until_start(core, dates.offset(), value), dates.bus.wait(core, dates.offset(), value));
                doubt = (clock != Some(formula)).then(|| format!("by the clock {clock:?}, by Equation 7 {formula}"));
                dates.cores[core as usize].0 = dates.access(core, value);
            }
            (Asked::Write { core, value, .. }, Some(dates)) => dates.cores[core as usize].1 = value,
            _ => {}
        }
        let by_dates = self.dates.as_ref().map(Dates::bytes).unwrap_or_default();
        doubt.or((by_dates != after.bytes()).then(|| format!("by dates {}", hexadecimal(&by_dates))))
    }
}
