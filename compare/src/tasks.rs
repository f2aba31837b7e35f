//! Judges a task table, and works its finishes out by simulating starts and ends: change request W12. Nothing here adds a time to
//! a largest finish: a clock runs, tasks start and end, and a finish is what the clock shows then.

use std::collections::VecDeque;

/// "A table of 1 to 64 tasks"
pub const MOST_TASKS: usize = 64;
/// "A table has eleven numbers to a task"
pub const NUMBERS: usize = 11;
/// "a core (0 to 15)"
pub const CORES: usize = 16;
/// "a time of at most 6,553,500,000 cycles"
pub const MOST_TIME: u64 = 6_553_500_000;
/// "up to 8 earlier tasks it waits for"
pub const MOST_WAITS: u64 = 8;
/// "21 task"
const NUMBER: u64 = 21;

/// An entry of an accepted table.
#[derive(Clone, Debug)]
pub struct Task {
    pub core: usize,
    pub time: u64,
    pub waits: Vec<usize>,
}

/// When a task started and ended.
#[derive(Clone, Copy, Debug)]
pub struct Span {
    pub start: u64,
    pub end: u64,
}

/// The tasks of a table, or the place of its refusal: "a table size outside 1 to 64, place 0, or else the first entry with a
/// number out of range or a predecessor not earlier, place its index".
pub fn judge(numbers: &[u64]) -> Result<Vec<Task>, usize> {
    // "a length that is no multiple of eleven has no size from 1 to 64"
    if numbers.len() % NUMBERS != 0 || numbers.is_empty() || numbers.len() > MOST_TASKS * NUMBERS {
        return Err(0);
    }
    numbers.chunks(NUMBERS).enumerate().map(|(own, entry)| task(own, entry).ok_or(own)).collect()
}

/// "core, time, how many it waits for, then eight places of which the first that many count and the rest are ignored"
fn task(own: usize, entry: &[u64]) -> Option<Task> {
    let (core, time, count) = (entry[0], entry[1], entry[2]);
    if core >= CORES as u64 || time > MOST_TIME || count > MOST_WAITS {
        return None;
    }
    let named = &entry[3..3 + count as usize];
    if named.iter().any(|&earlier| earlier >= own as u64) {
        return None;
    }
    Some(Task { core: core as usize, time, waits: named.iter().map(|&earlier| earlier as usize).collect() })
}

/// What contradicts "none ends after its finish", or that each starts by its finish less its time: the first task that is late, if any.
pub fn late(tasks: &[Task], spans: &[Span], finishes: &[u64]) -> Option<String> {
    let late = |own: usize| spans[own].end > finishes[own] || spans[own].start + tasks[own].time > finishes[own];
    let own = (0..tasks.len()).find(|&own| late(own))?;
    Some(format!(
        "task {own} of time {} from {} to {}, finish {}",
        tasks[own].time, spans[own].start, spans[own].end, finishes[own]
    ))
}

/// The numbers of a table that gives these tasks; the places that do not count hold 0.
pub fn numbers(tasks: &[Task]) -> Vec<u64> {
    let mut numbers = Vec::new();
    for (own, task) in tasks.iter().enumerate() {
        numbers.extend([task.core as u64, task.time, task.waits.len() as u64]);
        numbers.extend(task.waits.iter().map(|&earlier| earlier as u64));
        numbers.resize((own + 1) * NUMBERS, 0);
    }
    numbers
}

/// "every task starts as soon as those have ended": the clock goes from event to event. `takes` says how long a task takes that
/// starts at this cycle.
pub fn by_events(tasks: &[Task], takes: &mut dyn FnMut(usize, u64) -> u64) -> Vec<Span> {
    // "those it waits for and the previous task on its core"
    let previous = |own: usize| tasks[..own].iter().rposition(|earlier| earlier.core == tasks[own].core);
    let before: Vec<Vec<usize>> =
        (0..tasks.len()).map(|own| tasks[own].waits.iter().copied().chain(previous(own)).collect()).collect();
    let mut started: Vec<Option<Span>> = vec![None; tasks.len()];
    let mut ended = vec![false; tasks.len()];
    let mut clock = 0;
    loop {
        // what ends at this moment lets others start at it, and a time of 0 ends where it starts
        let mut moved = true;
        while moved {
            moved = false;
            for own in 0..tasks.len() {
                match started[own] {
                    None if before[own].iter().all(|&earlier| ended[earlier]) => {
                        started[own] = Some(Span { start: clock, end: clock + takes(own, clock) });
                        moved = true;
                    }
                    Some(span) if span.end == clock && !ended[own] => {
                        ended[own] = true;
                        moved = true;
                    }
                    _ => {}
                }
            }
        }
        // the next moment at which one that runs ends
        let running = started.iter().zip(&ended).filter(|(_, &ended)| !ended).filter_map(|(span, _)| span.map(|span| span.end));
        match running.min() {
            Some(next) => clock = next,
            None => return started.into_iter().flatten().collect(),
        }
    }
}

/// The same cycle by cycle and core by core, each task for exactly its time: a core has a queue of its tasks, and only the first
/// of it may start. The finishes.
pub fn by_cycles(tasks: &[Task]) -> Vec<u64> {
    // "Tasks on one core run in table order."
    let mut queues: Vec<VecDeque<usize>> = vec![VecDeque::new(); CORES];
    for (own, task) in tasks.iter().enumerate() {
        queues[task.core].push_back(own);
    }
    // for each core the cycles that are left to the task that runs on it
    let mut left: Vec<Option<u64>> = vec![None; CORES];
    let mut finishes: Vec<Option<u64>> = vec![None; tasks.len()];
    let mut clock = 0;
    loop {
        let mut moved = true;
        while moved {
            moved = false;
            for (queue, left) in queues.iter_mut().zip(&mut left) {
                let Some(&first) = queue.front() else { continue };
                if left.is_none() && tasks[first].waits.iter().all(|&earlier| finishes[earlier].is_some()) {
                    *left = Some(tasks[first].time);
                    moved = true;
                }
                if *left == Some(0) {
                    finishes[first] = Some(clock);
                    queue.pop_front();
                    *left = None;
                    moved = true;
                }
            }
        }
        if left.iter().all(Option::is_none) {
            return finishes.into_iter().flatten().collect();
        }
        left.iter_mut().flatten().for_each(|left| *left -= 1);
        clock += 1;
    }
}

/// What a caller must find for a table.
pub struct Answer {
    /// the status, both places of the answer, the 64 finishes
    pub line: String,
    /// the tasks, or the place of the refusal
    pub judged: Result<Vec<Task>, usize>,
    /// the finishes were found cycle by cycle too
    pub by_cycles: bool,
    /// where both clocks disagree
    pub doubt: Option<String>,
}

/// Times of a table that are added up to be walked cycle by cycle are at most this.
const MOST_CYCLES: u64 = 3_000;

pub fn answer(numbers: &[u64]) -> Answer {
    let judged = judge(numbers);
    let mut answer = Answer { line: String::new(), judged, by_cycles: false, doubt: None };
    match &answer.judged {
        // "1: those 64 places are 0, the answer is 21 and the place"
        Err(place) => answer.line = line(1, [NUMBER, *place as u64], &[]),
        // "Status 0: the finishes' first 64 places are written, the answer is 0 and 0"
        Ok(tasks) => {
            let finishes: Vec<u64> = by_events(tasks, &mut |own, _| tasks[own].time).iter().map(|span| span.end).collect();
            answer.by_cycles = tasks.iter().map(|task| task.time).sum::<u64>() <= MOST_CYCLES;
            if answer.by_cycles {
                let again = by_cycles(tasks);
                if again != finishes {
                    answer.doubt = Some(format!("from event to event {finishes:?}, cycle by cycle {again:?}"));
                }
            }
            answer.line = line(0, [0, 0], &finishes);
        }
    }
    answer
}

/// "The answer is 64 finishes, 0 past the table or if refused."
pub fn line(status: u64, said: [u64; 2], finishes: &[u64]) -> String {
    let mut places = finishes.to_vec();
    places.resize(MOST_TASKS, 0);
    let numbers: Vec<String> = [&[status], &said[..], &places[..]].concat().iter().map(u64::to_string).collect();
    numbers.join(" ")
}
