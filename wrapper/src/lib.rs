//! Both figures, the exit count and the table of exit offsets of a task image, the same after a change of one block's durations, the finishes
//! of tasks that wait for tasks, and the bus arbiter as a device: a safe wrapper of the proved functions of `crates/linked`, which
//! `include/slotfigures.h` describes. Every length that is passed on is a slice's own, and what is refused is refused there.
//!
//! [`figures`] and [`preview`] are to have 1 MiB of stack, the others 32 KiB. A spawned thread has 2 MiB unless
//! `std::thread::Builder::stack_size` says otherwise; where the stack ends, the program does.

use std::cell::Cell;
use std::fmt;

#[link(name = "linked", kind = "static")]
extern "C" {
    fn slotfigures_judge(
        image: *const u8,
        image_length: usize,
        answer: *mut u64,
        answer_length: usize,
    ) -> u64;
    fn slotfigures_figures(
        image: *const u8,
        image_length: usize,
        table: *mut u64,
        table_length: usize,
        answer: *mut u64,
        answer_length: usize,
    ) -> u64;
    fn slotfigures_edit(
        image: *mut u8,
        image_length: usize,
        node: u64,
        lowest: u64,
        highest: u64,
        answer: *mut u64,
        answer_length: usize,
    ) -> u64;
    fn slotfigures_preview(
        image: *const u8,
        image_length: usize,
        node: u64,
        lowest: u64,
        highest: u64,
        table: *mut u64,
        table_length: usize,
        answer: *mut u64,
        answer_length: usize,
    ) -> u64;
    fn slotfigures_finishes(
        table: *const u64,
        table_length: usize,
        finishes: *mut u64,
        finishes_length: usize,
        answer: *mut u64,
        answer_length: usize,
    ) -> u64;
    fn slotfigures_arbiter_reset(
        state: *mut u8,
        state_length: usize,
        caller: u64,
        cores: u64,
        slot: u64,
        answer: *mut u64,
        answer_length: usize,
    ) -> u64;
    fn slotfigures_arbiter_tick(
        state: *mut u8,
        state_length: usize,
        caller: u64,
        answer: *mut u64,
        answer_length: usize,
    ) -> u64;
    fn slotfigures_arbiter_write(
        state: *mut u8,
        state_length: usize,
        caller: u64,
        core: u64,
        reg: u64,
        value: u64,
        answer: *mut u64,
        answer_length: usize,
    ) -> u64;
    fn slotfigures_arbiter_read(
        state: *mut u8,
        state_length: usize,
        caller: u64,
        core: u64,
        reg: u64,
        answer: *mut u64,
        answer_length: usize,
    ) -> u64;
    fn slotfigures_arbiter_line(
        state: *mut u8,
        state_length: usize,
        caller: u64,
        core: u64,
        answer: *mut u64,
        answer_length: usize,
    ) -> u64;
}

/// At a place of the table: no run ends at this offset.
pub const NO_TIME: u64 = u64::MAX;

/// Places that are enough for every image: no period is larger.
pub const MOST_PLACES: usize = 256;

/// Tasks of the largest table that [`finishes`] accepts.
pub const MOST_TASKS: usize = 64;

/// Tasks that one task may wait for.
pub const MOST_WAITS: usize = 8;

/// Both figures, in cycles, and the number of exit offsets.
#[derive(Clone, Copy, Debug, PartialEq, Eq)]
pub struct Figures {
    pub tight: u64,
    pub published: u64,
    pub exits: u64,
}

/// An entry of a table of tasks that wait for tasks: its core (0 to 15), its time in cycles (at most 6,553,500,000) and the indices of the
/// earlier tasks that it waits for (at most [`MOST_WAITS`]). Tasks on one core run in table order.
///
/// A tight figure may be a time only if its image lists every offset below its period as a start: it holds for the listed starts alone, and
/// a task may start at any. The image is then one of this core, and all images are of one bus (in all of them the same core owns each offset).
#[derive(Clone, Copy, Debug, PartialEq, Eq)]
pub struct Task<'a> {
    pub core: usize,
    pub time: u64,
    pub waits: &'a [usize],
}

impl Task<'_> {
    // The entry's numbers: core, time, how many it waits for, and the first eight of those.
    fn row(&self) -> [u64; 3 + MOST_WAITS] {
        let mut row = [0; 3 + MOST_WAITS];
        row[0] = self.core as u64;
        row[1] = self.time;
        row[2] = self.waits.len() as u64;
        for (place, wait) in row[3..].iter_mut().zip(self.waits) {
            *place = *wait as u64;
        }
        row
    }
}

/// Why nothing is given: the number, its word and its place. The numbers 1 to 11 and 18 are told of an image, and the place is a byte position
/// or, for 7 to 10 and 18, the image's length. Of a change, 19 is told of a node that does not exist or is no plain block, and the place is
/// the image's length; 5 also of durations out of range, and the place is that of the block's field. 15 and 16 are told of an [`Arbiter`], and
/// the place is 0; 17 is told of a core above 15 that asks for a handle, and of no call of a handle. 21 is told of a table of tasks, and the
/// place is the index of an entry, or 0 for the table's size.
#[derive(Clone, Copy, Debug, PartialEq, Eq)]
pub struct Refusal {
    pub number: u64,
    pub word: &'static str,
    pub place: u64,
}

// The word of a refusal's number.
fn word(number: u64) -> &'static str {
    match number {
        1 => "cut",
        2 => "tag",
        3 => "full",
        4 => "length",
        5 => "value",
        6 => "forward",
        7 => "unfinished",
        8 => "deep",
        9 => "long",
        10 => "table",
        11 => "entry",
        15 => "register",
        16 => "busy",
        17 => "forbidden",
        18 => "lines",
        19 => "block",
        21 => "task",
        _ => unreachable!("no refusal has the number {number}"),
    }
}

impl fmt::Display for Refusal {
    fn fmt(&self, f: &mut fmt::Formatter<'_>) -> fmt::Result {
        write!(f, "refused {} {} ({})", self.number, self.place, self.word)
    }
}

impl std::error::Error for Refusal {}

// What a call leaves in its answer if its status is 0, or the refusal in the first two places. The third status, too few places, cannot come:
// no call needs more than the three that are lent here, nor more finishes than `finishes` lends, nor another state than an `Arbiter` holds.
fn told(call: impl FnOnce(&mut [u64]) -> u64) -> Result<[u64; 3], Refusal> {
    let mut answer = [0; 3];
    match call(&mut answer) {
        0 => Ok(answer),
        1 => Err(Refusal {
            number: answer[0],
            word: word(answer[0]),
            place: answer[1],
        }),
        _ => unreachable!("there are places enough"),
    }
}

/// The period of an accepted image, which is the number of places that [`figures`] and [`preview`] need; or why it is refused (numbers 1 to 9,
/// 11 and 18).
pub fn period(image: &[u8]) -> Result<usize, Refusal> {
    // the pointers and lengths are those of an image and an answer that live through the call and do not overlap
    let [_, period, _] = told(|answer| unsafe {
        slotfigures_judge(
            image.as_ptr(),
            image.len(),
            answer.as_mut_ptr(),
            answer.len(),
        )
    })?;
    Ok(period as usize)
}

/// Whether an image is accepted, or why it is not (numbers 1 to 9, 11 and 18).
///
/// Nodes are numbered from 0 as they stand in the image: its third field is node 0. The last is the entry, or the one whose number stands in a
/// field with tag 8, which may close the image and is no node. A loop, tag 7, names a body and a test: its body length is 8, and one of 6, without a
/// test, is refused with 4. No accepted image has more than 9,265 bytes.
pub fn judge(image: &[u8]) -> Result<(), Refusal> {
    period(image).map(|_| ())
}

// What a call for figures leaves in its answer.
fn figured(call: impl FnOnce(&mut [u64]) -> u64) -> Result<Figures, Refusal> {
    told(call).map(|[tight, published, exits]| Figures {
        tight,
        published,
        exits,
    })
}

/// Both figures and the exit count of an image. Place o of the table, for each offset o below the period, then holds the longest time
/// of a run that ends there, or [`NO_TIME`]; later places keep their contents, and after a refusal (numbers 1 to 11 and 18) all do.
pub fn figures(image: &[u8], table: &mut [u64]) -> Result<Figures, Refusal> {
    // the pointers and lengths are those of an image, a table and an answer that live through the call and do not overlap
    figured(|answer| unsafe {
        slotfigures_figures(
            image.as_ptr(),
            image.len(),
            table.as_mut_ptr(),
            table.len(),
            answer.as_mut_ptr(),
            answer.len(),
        )
    })
}

/// Sets the durations of one plain block in an image, four bytes and no others; the edited image is accepted too. After a refusal every byte
/// is as it was.
///
/// Nodes are numbered from 0 as they stand in the image: its third field is node 0. Refused: an image that is not accepted, by its own number
/// (1 to 9, 11 or 18); then a node that does not exist or is no plain block (19); then durations of which the highest is above 65,535, or the
/// lowest above the highest or more than 63 below it (5, and the place is that of the block's field).
pub fn edit(image: &mut [u8], node: u64, lowest: u64, highest: u64) -> Result<(), Refusal> {
    // the pointers and lengths are those of an image and an answer that live through the call and do not overlap
    told(|answer| unsafe {
        slotfigures_edit(
            image.as_mut_ptr(),
            image.len(),
            node,
            lowest,
            highest,
            answer.as_mut_ptr(),
            answer.len(),
        )
    })
    .map(|_| ())
}

/// What [`figures`] would give, its table too, of a copy of the image that [`edit`] has edited; the image itself is left alone. Refused as
/// by [`edit`], and last where the table has fewer places than the period (10). After a refusal the table keeps its contents.
pub fn preview(
    image: &[u8],
    node: u64,
    lowest: u64,
    highest: u64,
    table: &mut [u64],
) -> Result<Figures, Refusal> {
    // the pointers and lengths are those of an image, a table and an answer that live through the call and do not overlap
    figured(|answer| unsafe {
        slotfigures_preview(
            image.as_ptr(),
            image.len(),
            node,
            lowest,
            highest,
            table.as_mut_ptr(),
            table.len(),
            answer.as_mut_ptr(),
            answer.len(),
        )
    })
}

/// The finish of each task of a table, in cycles: its time plus the largest finish among those that it waits for and the previous task on its
/// core, or 0. Places past the table hold 0. If every task starts as soon as those have ended and takes no longer than its time, each starts by
/// its finish less its time, and none ends after its finish; a tight figure may be a time only as [`Task`] says.
///
/// Refused (number 21): a table that has not 1 to [`MOST_TASKS`] tasks, place 0; or else the first entry with a number out of range or a wait
/// for a task that is not earlier, place its index.
pub fn finishes(tasks: &[Task]) -> Result<[u64; MOST_TASKS], Refusal> {
    let table: Vec<u64> = tasks.iter().flat_map(Task::row).collect();
    let mut finishes = [0; MOST_TASKS];
    // the pointers and lengths are those of a table, finishes and an answer that live through the call and do not overlap
    told(|answer| unsafe {
        slotfigures_finishes(
            table.as_ptr(),
            table.len(),
            finishes.as_mut_ptr(),
            finishes.len(),
            answer.as_mut_ptr(),
            answer.len(),
        )
    })?;
    Ok(finishes)
}

/// The arbiter of a bus of equal slots as a device: cores, slot and offset of the bus, and three registers for each of 16 cores. The cores and
/// the slot are those of the last accepted reset, or of the bytes that it was made of; the offset moves on by 1 with each tick, from the period
/// (cores times slot) less 1 to 0.
///
/// Its owner keeps it and gives out handles, which make every call: a [`Core`] reads and writes its own registers and reads its own line, the
/// [`Workshop`] reads everything, ticks and resets. Those of one arbiter may be held side by side; none leads to another, or to the arbiter. Each
/// names its own caller and can say no call that this caller may not make, so none is ever answered 17. Handles stay in the arbiter's thread: one
/// call is made at a time.
///
/// Proved of states reached by calls from a reset: a length written at offset o is done after wait + length ticks and no sooner, if no reset
/// comes between, where the wait is that of an access of this length from o, as both figures have it on such a bus; and no two cores have
/// running set.
/// Proved of every state: with a core's own writes and all ticks and resets equal and in the same order, the other cores' writes never alter
/// its registers or line. And from one accepted reset on, with a core's own calls and the workshop's ticks and resets equal and in the same
/// order, every answer to that core is equal, whatever the state was before that reset.
///
/// A call that is refused changes nothing. All 64 bits of the numbers given count.
#[derive(Clone, Debug, PartialEq, Eq)]
pub struct Arbiter {
    state: Cell<[u8; Arbiter::BYTES]>,
}

impl Arbiter {
    /// Bytes of the state.
    pub const BYTES: usize = 51;

    /// Register 0: the cycles that an access has still to run, at most the slot.
    pub const LENGTH: u64 = 0;
    /// Register 1: 0, or one of [`Self::WAITING`], [`Self::RUNNING`] and [`Self::DONE`]. It is read, never written.
    pub const FLAGS: u64 = 1;
    /// Register 2: 1 if done is to set the interrupt line, else 0.
    pub const MASK: u64 = 2;

    /// Flags: a length is written, and its access has not started.
    pub const WAITING: u64 = 1;
    /// Flags: its access has started.
    pub const RUNNING: u64 = 2;
    /// Flags: its access has run; until the next length is written, or a reset.
    pub const DONE: u64 = 4;

    // The caller that is no core.
    const WORKSHOP: u64 = 16;

    /// An arbiter after a reset; or why that is refused, as by [`Workshop::reset`].
    pub fn new(cores: u64, slot: u64) -> Result<Self, Refusal> {
        let arbiter = Self::from_bytes([0; Self::BYTES]);
        arbiter.workshop().reset(cores, slot)?;
        Ok(arbiter)
    }

    /// An arbiter with the state of these bytes: cores, slot, offset, then length, flags and mask of cores 0 to 15. Nothing is judged here.
    /// Until a reset is accepted, every other call refuses a state (15) of which a number, those of unused cores counted, is out of range: of
    /// cores and slot as in [`Workshop::reset`], an offset not below the period, a length above the slot, flags that are not 0, 1, 2 or 4, a
    /// mask above 1, or a length of 0 beside waiting or running.
    pub fn from_bytes(state: [u8; Self::BYTES]) -> Self {
        Arbiter {
            state: Cell::new(state),
        }
    }

    /// The bytes of the state, in the order of [`Self::from_bytes`].
    pub fn bytes(&self) -> [u8; Self::BYTES] {
        self.state.get()
    }

    /// The handle of a core, 0 to 15, whatever the bus: one that the bus does not use may call too, and is refused (15). Refused (17): a number
    /// above 15.
    pub fn core(&self, number: u64) -> Result<Core<'_>, Refusal> {
        let core = Core(Caller {
            arbiter: self,
            number,
        });
        // a write to the flags changes nothing: it is refused to a core with 15, and to no core with 17
        match core.write(Self::FLAGS, 0) {
            Err(refusal) if refusal.number == 17 => Err(refusal),
            _ => Ok(core),
        }
    }

    /// The handle of the workshop.
    pub fn workshop(&self) -> Workshop<'_> {
        Workshop(Caller {
            arbiter: self,
            number: Self::WORKSHOP,
        })
    }
}

// Who calls, by number: every call of an arbiter names it.
#[derive(Clone, Copy, Debug)]
struct Caller<'a> {
    arbiter: &'a Arbiter,
    number: u64,
}

impl Caller<'_> {
    // One call on the state, which is lent to it with this caller's number: the second place of its answer.
    fn call(&self, call: impl FnOnce(&mut [u8], u64, &mut [u64]) -> u64) -> Result<u64, Refusal> {
        let mut state = self.arbiter.state.get();
        let given = told(|answer| call(&mut state, self.number, answer));
        self.arbiter.state.set(state);
        given.map(|[_, value, _]| value)
    }

    // What a core's register holds.
    fn read(&self, core: u64, register: u64) -> Result<u64, Refusal> {
        // here and below, the pointers and lengths are those of a state and an answer that live through the call and do not overlap
        self.call(|state, caller, answer| unsafe {
            slotfigures_arbiter_read(
                state.as_mut_ptr(),
                state.len(),
                caller,
                core,
                register,
                answer.as_mut_ptr(),
                answer.len(),
            )
        })
    }

    // Whether a core's line is set.
    fn line(&self, core: u64) -> Result<bool, Refusal> {
        self.call(|state, caller, answer| unsafe {
            slotfigures_arbiter_line(
                state.as_mut_ptr(),
                state.len(),
                caller,
                core,
                answer.as_mut_ptr(),
                answer.len(),
            )
        })
        .map(|line| line == 1)
    }
}

/// A core's handle of an [`Arbiter`]: it reads and writes this core's registers and reads its line, and no other's. Refused by each of its calls
/// (15): a state as in [`Arbiter::from_bytes`], or a core not below the number of cores.
#[derive(Clone, Copy)]
pub struct Core<'a>(Caller<'a>);

impl Core<'_> {
    /// Writes a register. A length is 1 to the slot: it clears done and sets waiting, and the mask stays. A mask is 0 or 1, and may be written
    /// while waiting or running. Refused, beside what is said above: a register above 2, any write to the flags, or another value (15); then a
    /// length while this core is waiting or running (16).
    pub fn write(&self, register: u64, value: u64) -> Result<(), Refusal> {
        self.0
            .call(|state, caller, answer| unsafe {
                slotfigures_arbiter_write(
                    state.as_mut_ptr(),
                    state.len(),
                    caller,
                    caller,
                    register,
                    value,
                    answer.as_mut_ptr(),
                    answer.len(),
                )
            })
            .map(|_| ())
    }

    /// What a register holds. Refused, beside what is said above: a register above 2 (15).
    pub fn read(&self, register: u64) -> Result<u64, Refusal> {
        self.0.read(self.0.number, register)
    }

    /// Whether the interrupt line is set: the flags are done and the mask is 1.
    pub fn line(&self) -> Result<bool, Refusal> {
        self.0.line(self.0.number)
    }
}

// The number alone: of the state a core reads its registers, and no more.
impl fmt::Debug for Core<'_> {
    fn fmt(&self, f: &mut fmt::Formatter<'_>) -> fmt::Result {
        f.debug_tuple("Core").field(&self.0.number).finish()
    }
}

/// The workshop's handle of an [`Arbiter`]: it reads the registers and lines of every core, ticks and resets, and writes no register.
#[derive(Clone, Copy, Debug)]
pub struct Workshop<'a>(Caller<'a>);

impl Workshop<'_> {
    /// Sets cores and slot, and all else to 0: the offset and every register. Refused (15), whatever the state: cores not 2 to 16, a slot not
    /// 1 to 128, or cores times slot above 256.
    pub fn reset(&self, cores: u64, slot: u64) -> Result<(), Refusal> {
        self.0
            .call(|state, caller, answer| unsafe {
                slotfigures_arbiter_reset(
                    state.as_mut_ptr(),
                    state.len(),
                    caller,
                    cores,
                    slot,
                    answer.as_mut_ptr(),
                    answer.len(),
                )
            })
            .map(|_| ())
    }

    /// Passes a cycle: a waiting core whose slot still holds its whole length turns from waiting to running; each running length, that one
    /// too, falls by 1, and at 0 running gives way to done; then the offset moves on. Refused (15): a state as in [`Arbiter::from_bytes`].
    pub fn tick(&self) -> Result<(), Refusal> {
        self.0
            .call(|state, caller, answer| unsafe {
                slotfigures_arbiter_tick(
                    state.as_mut_ptr(),
                    state.len(),
                    caller,
                    answer.as_mut_ptr(),
                    answer.len(),
                )
            })
            .map(|_| ())
    }

    /// What a core's register holds. Refused (15): a state as in [`Arbiter::from_bytes`], a core not below the number of cores, or a register
    /// above 2.
    pub fn read(&self, core: u64, register: u64) -> Result<u64, Refusal> {
        self.0.read(core, register)
    }

    /// Whether a core's interrupt line is set, as by [`Core::line`]. Refused (15): a state as in [`Arbiter::from_bytes`], or a core not below the
    /// number of cores.
    pub fn line(&self, core: u64) -> Result<bool, Refusal> {
        self.0.line(core)
    }
}
