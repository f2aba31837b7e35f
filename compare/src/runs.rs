//! Enumerates runs by the clock, choice by choice and cycle by cycle, and merges nothing: document 01, "The bus and a run", and change
//! requests W3, a loop's test "before each iteration and once after the last", W9, "A run's state gains the lines fetched, at first none",
//! and W5, "an access may start where that core owns the next e cycles".
//!
//! Each run is executed anew from its start. A list of choices says what it takes wherever a choice is open; after the run
//! the last choice that has another possibility moves on by one, and those behind it are taken from the first again.
//! `one` executes a single run, its choices taken as the caller says.

use crate::image::{Bus, Node, Task};
use std::collections::{BTreeMap, BTreeSet};

/// What all runs together leave.
pub struct Runs {
    /// for each final offset the longest time of a run that ends there
    pub longest: BTreeMap<u64, u64>,
    pub number: u64,
}

struct Choice {
    taken: u64,
    open: u64,
}

/// One run under way.
struct Run<'a> {
    task: &'a Task,
    offset: u64,
    count: u64,
    fetched: BTreeSet<usize>,
    choices: Vec<Choice>,
    next: usize,
    /// what is taken at first where so many possibilities are open
    first: &'a mut dyn FnMut(u64) -> u64,
    steps_left: u64,
}

/// The steps lent are used up.
struct Spent;

/// All runs of the task, or none if they take more steps than are lent.
pub fn enumerate(task: &Task, steps: u64) -> Option<Runs> {
    let mut runs = Runs { longest: BTreeMap::new(), number: 0 };
    let mut first = |_| 0;
    let mut run = Run::new(task, &mut first, steps);
    loop {
        if run.whole().is_err() {
            return None;
        }
        runs.number += 1;
        let longest = runs.longest.entry(run.offset).or_insert(run.count);
        *longest = run.count.max(*longest);
        if !run.next_choices() {
            return Some(runs);
        }
    }
}

/// The cycles of one run from this offset, whether it is listed as a start or not; `choose` takes one of so many possibilities.
/// None if it takes more steps than are lent.
pub fn one(task: &Task, offset: u64, choose: &mut dyn FnMut(u64) -> u64, steps: u64) -> Option<u64> {
    let mut run = Run::new(task, choose, steps);
    run.from(offset).ok()?;
    Some(run.count)
}

impl<'a> Run<'a> {
    fn new(task: &'a Task, first: &'a mut dyn FnMut(u64) -> u64, steps: u64) -> Run<'a> {
        Run { task, offset: 0, count: 0, fetched: BTreeSet::new(), choices: Vec::new(), next: 0, first, steps_left: steps }
    }

    fn whole(&mut self) -> Result<(), Spent> {
        self.next = 0;
        let start = self.choose(self.task.starts.len() as u64)?;
        self.from(self.task.starts[start as usize])
    }

    /// "Its state is an offset and a count of cycles, at first the start and 0. ... The entry is executed from that state"
    fn from(&mut self, start: u64) -> Result<(), Spent> {
        self.offset = start;
        self.count = 0;
        self.fetched.clear();
        self.execute(self.task.entry())
    }

    fn execute(&mut self, node: usize) -> Result<(), Spent> {
        self.step(1)?;
        let task = self.task;
        match &task.nodes[node] {
            // "A plain block passes its duration, any in its range."
            Node::Plain { lowest, highest } => {
                let duration = lowest + self.choose(highest - lowest + 1)?;
                self.pass(duration)
            }
            // "An always-access block accesses for any duration in its range; a may-access block takes any in its range and
            // either passes it or accesses for it."
            Node::Access { may, lowest, highest } => {
                let duration = lowest + self.choose(highest - lowest + 1)?;
                if *may && self.choose(2)? == 0 {
                    self.pass(duration)
                } else {
                    self.access(duration)
                }
            }
            // "Its first execution in a run, counted over all nodes with that line, always accesses; later ones pass the hit time."
            Node::Fetch { line, lowest, highest, hit } => {
                if self.fetched.insert(*line) {
                    let duration = lowest + self.choose(highest - lowest + 1)?;
                    self.access(duration)
                } else {
                    self.pass(*hit)
                }
            }
            // "A sequence executes its children in order"
            Node::Sequence { children } => children.iter().try_for_each(|&child| self.execute(child)),
            // "a branch any one of its arms"
            Node::Branch { arms } => {
                let arm = self.choose(arms.len() as u64)?;
                self.execute(arms[arm as usize])
            }
            // "a loop its body as often as any permitted count says"; "The test is executed before each iteration and once after the
            // last, so a count of 0 still executes it once."
            Node::Loop { least, greatest, body, test } => {
                let count = least + self.choose(greatest - least + 1)?;
                for _ in 0..count {
                    self.execute(*test)?;
                    self.execute(*body)?;
                }
                self.execute(*test)
            }
        }
    }

    /// "To pass a cycle adds 1 to the count and moves the offset on by 1, from P − 1 to 0."
    fn pass(&mut self, cycles: u64) -> Result<(), Spent> {
        for _ in 0..cycles {
            self.step(1)?;
            self.count += 1;
            self.offset = if self.offset == self.task.bus.period() - 1 { 0 } else { self.offset + 1 };
        }
        Ok(())
    }

    /// "An access of e cycles passes one cycle at a time until it may start, and then passes e cycles."
    fn access(&mut self, e: u64) -> Result<(), Spent> {
        while !may_start(&self.task.bus, self.offset, e) {
            self.pass(1)?;
        }
        self.step(e)?;
        self.pass(e)
    }

    /// "Every choice is open again at each execution". The answer is below `open`.
    fn choose(&mut self, open: u64) -> Result<u64, Spent> {
        if open == 1 {
            return Ok(0);
        }
        self.step(1)?;
        if self.next == self.choices.len() {
            let taken = (self.first)(open);
            self.choices.push(Choice { taken, open });
        }
        self.next += 1;
        Ok(self.choices[self.next - 1].taken)
    }

    /// Moves on to the choices of a run not yet made; false when all were made.
    fn next_choices(&mut self) -> bool {
        while let Some(last) = self.choices.last_mut() {
            last.taken += 1;
            if last.taken < last.open {
                return true;
            }
            self.choices.pop();
        }
        false
    }

    fn step(&mut self, steps: u64) -> Result<(), Spent> {
        self.steps_left = self.steps_left.checked_sub(steps).ok_or(Spent)?;
        Ok(())
    }
}

/// "it starts only where all e cycles lie inside the core's slot of that period"; with tag 9 "where that core owns the next e cycles",
/// "counted round the period". Both ask who owns each cycle: with tag 1 the one behind a core's slot is another core's, at the end of the
/// period too.
fn may_start(bus: &Bus, offset: u64, e: u64) -> bool {
    (offset..offset + e).all(|cycle| bus.owners[(cycle % bus.period()) as usize] == bus.core)
}
