//! What `figure` has to write for an input, by this folder's own reading of document 01 and of change requests W1, W3, W5 and W9.

use crate::image::{depths, judge, visits, Node, Task, MOST_BYTES, MOST_DEPTH, MOST_VISITS};
use crate::{offsets, runs};
use std::collections::BTreeSet;
use std::fmt;

/// How an answer was found. `Unread`: a read fails, so that there is none.
pub enum Way {
    Unread,
    Refused(u64),
    Enumerated { runs: u64 },
    Calculated,
}

/// What blocks with tag 10 make of an accepted image.
#[derive(Clone, Copy, PartialEq)]
pub enum Lines {
    /// it has none
    None,
    /// the published exit set is that of the exit offsets all the same
    Same,
    /// the published exit set has offsets at which no run ends
    Wider,
}

/// Accepted images with tag 9: all, and those of them in which the core has several stretches, an access is longer than one of these, a
/// stretch goes round the end of the period, the core owns every cycle, and the period is 1.
#[derive(Default)]
pub struct Unequal {
    pub all: usize,
    pub several: usize,
    pub passed_over: usize,
    pub round: usize,
    pub every: usize,
    pub period_1: usize,
}

impl Unequal {
    pub fn count(&mut self, task: &Task) {
        if task.bus.equal.is_some() {
            return;
        }
        let (period, stretches) = (task.bus.period(), &task.bus.stretches);
        let longest = task.nodes.iter().map(|node| match node {
            Node::Access { highest, .. } | Node::Fetch { highest, .. } => *highest,
            _ => 0,
        });
        let longest = longest.max().unwrap_or(0);
        self.all += 1;
        self.several += usize::from(stretches.len() > 1);
        self.passed_over += usize::from(stretches.iter().any(|stretch| stretch.length < longest));
        self.round += usize::from(stretches.iter().any(|stretch| stretch.first + stretch.length > period));
        self.every += usize::from(stretches.iter().any(|stretch| stretch.length == period));
        self.period_1 += usize::from(period == 1);
    }

    /// Whether so many of each were met.
    pub fn met(&self, least: usize) -> bool {
        [self.several, self.passed_over, self.round, self.every, self.period_1].into_iter().all(|met| met >= least)
    }
}

impl fmt::Display for Unequal {
    fn fmt(&self, to: &mut fmt::Formatter) -> fmt::Result {
        write!(to, "{}, of them with several stretches: {}", self.all, self.several)?;
        write!(to, ", an access longer than one of them: {}", self.passed_over)?;
        write!(to, ", one round the period: {}, every cycle owned: {}, period 1: {}", self.round, self.every, self.period_1)
    }
}

/// Accepted images with tag 8: all, and those of them whose entry is not the last node, is the first and not the last, stands below a node
/// that is too deep or too long for an entry, and below all nodes with the highest line number.
#[derive(Default)]
pub struct Named {
    pub all: usize,
    pub not_last: usize,
    pub first: usize,
    pub heavy: usize,
    pub lines: usize,
}

impl Named {
    pub fn count(&mut self, task: &Task) {
        if task.named.is_none() {
            return;
        }
        let (entry, nodes) = (task.entry(), &task.nodes);
        let deep = depths(nodes)[entry..].iter().any(|&depth| depth > MOST_DEPTH);
        let long = visits(nodes)[entry..].iter().any(|&all| all > MOST_VISITS);
        let to_entry = Task { nodes: nodes[..=entry].to_vec(), ..task.clone() };
        self.all += 1;
        self.not_last += usize::from(entry + 1 < nodes.len());
        self.first += usize::from(entry == 0 && nodes.len() > 1);
        self.heavy += usize::from(deep || long);
        self.lines += usize::from(to_entry.lines() < task.lines());
    }

    /// Whether so many of each were met.
    pub fn met(&self, least: usize) -> bool {
        [self.not_last, self.first, self.heavy, self.lines].into_iter().all(|met| met >= least)
    }
}

impl fmt::Display for Named {
    fn fmt(&self, to: &mut fmt::Formatter) -> fmt::Result {
        write!(to, "{}, of them not of the last node: {}, of the first: {}", self.all, self.not_last, self.first)?;
        write!(to, ", below one too deep or too long: {}, below the highest line: {}", self.heavy, self.lines)
    }
}

/// Accepted images that execute a loop: all, and those of them in which one has a test that is not a plain block of duration 0, and such
/// a test that may follow no iteration, has choices, accesses the bus, fetches a line, holds a loop, and is the body.
#[derive(Default)]
pub struct Tested {
    pub all: usize,
    pub busy: usize,
    pub at_0: usize,
    pub chooses: usize,
    pub accesses: usize,
    pub fetches: usize,
    pub loops: usize,
    pub body: usize,
}

impl Tested {
    pub fn count(&mut self, task: &Task) {
        let loops = executed_loops(task);
        let busy: Vec<_> =
            loops.iter().filter(|(_, _, test)| task.nodes[*test] != Node::Plain { lowest: 0, highest: 0 }).collect();
        // whether the test of one of them executes such a node
        let any = |kind: &dyn Fn(&Node) -> bool| {
            let mut tests = busy.iter().map(|(_, _, test)| executed(task, *test));
            usize::from(tests.any(|test| test.into_iter().any(|number| kind(&task.nodes[number]))))
        };
        self.all += usize::from(!loops.is_empty());
        self.busy += usize::from(!busy.is_empty());
        self.at_0 += usize::from(busy.iter().any(|(least, _, _)| *least == 0));
        self.chooses += any(&|node| match node {
            Node::Plain { lowest, highest } | Node::Fetch { lowest, highest, .. } => lowest < highest,
            Node::Access { may, lowest, highest } => *may || lowest < highest,
            Node::Loop { least, greatest, .. } => least < greatest,
            Node::Branch { .. } => true,
            Node::Sequence { .. } => false,
        });
        self.accesses += any(&|node| matches!(node, Node::Access { .. } | Node::Fetch { .. }));
        self.fetches += any(&|node| matches!(node, Node::Fetch { .. }));
        self.loops += any(&|node| matches!(node, Node::Loop { .. }));
        self.body += usize::from(busy.iter().any(|(_, body, test)| body == test));
    }

    /// Whether so many of each were met.
    pub fn met(&self, least: usize) -> bool {
        let each = [self.at_0, self.chooses, self.accesses, self.fetches, self.loops, self.body];
        each.into_iter().all(|met| met >= least)
    }
}

/// The loops that some run executes: least count, body and test.
pub fn executed_loops(task: &Task) -> Vec<(u64, usize, usize)> {
    let all = executed(task, task.entry()).into_iter().filter_map(|number| match task.nodes[number] {
        Node::Loop { least, body, test, .. } => Some((least, body, test)),
        _ => None,
    });
    all.collect()
}

/// The nodes that some execution of this one executes, itself among them: of a loop of no iterations the test alone.
pub fn executed(task: &Task, node: usize) -> BTreeSet<usize> {
    let mut all = BTreeSet::from([node]);
    for number in (0..=node).rev() {
        match &task.nodes[number] {
            _ if !all.contains(&number) => {}
            Node::Sequence { children: named } | Node::Branch { arms: named } => all.extend(named),
            Node::Loop { greatest: 0, test, .. } => all.extend([test]),
            Node::Loop { body, test, .. } => all.extend([body, test]),
            _ => {}
        }
    }
    all
}

impl fmt::Display for Tested {
    fn fmt(&self, to: &mut fmt::Formatter) -> fmt::Result {
        write!(to, "{}, of them with a test that is not plain 0: {}", self.all, self.busy)?;
        write!(to, ", one after no iteration: {}, with choices: {}", self.at_0, self.chooses)?;
        write!(to, ", that accesses: {}, that fetches a line: {}", self.accesses, self.fetches)?;
        write!(to, ", that holds a loop: {}, that is the body: {}", self.loops, self.body)
    }
}

pub struct Answer {
    pub text: String,
    pub way: Way,
    /// of an accepted image
    pub task: Option<Task>,
    pub lines: Lines,
    /// where the enumeration and the calculation, or the calculation's own parts, disagree
    pub doubt: Option<String>,
}

/// Both figures and the exit offsets, each with its longest time.
pub struct Figures {
    pub tight: u64,
    pub published: u64,
    pub exits: Vec<(u64, u64)>,
    pub lines: Lines,
    /// the runs, where they were enumerated
    pub runs: Option<u64>,
    /// as in an answer
    pub doubt: Option<String>,
}

pub fn answer(input: &[u8], steps: u64) -> Answer {
    match judge(&input[..input.len().min(MOST_BYTES)]) {
        Err(refusal) => Answer {
            text: format!("refused {} {}\n", refusal.number, refusal.place),
            way: Way::Refused(refusal.number),
            task: None,
            lines: Lines::None,
            doubt: None,
        },
        Ok(task) => {
            let figures = figures(&task, steps);
            let mut text = format!("tight {}\npublished {}\nexits {}\n", figures.tight, figures.published, figures.exits.len());
            for (offset, time) in figures.exits {
                text += &format!("{offset} {time}\n");
            }
            let way = figures.runs.map_or(Way::Calculated, |runs| Way::Enumerated { runs });
            Answer { text, way, task: Some(task), lines: figures.lines, doubt: figures.doubt }
        }
    }
}

/// Where a read fails, no part of the input is judged.
pub fn unread() -> Answer {
    Answer { text: String::new(), way: Way::Unread, task: None, lines: Lines::None, doubt: None }
}

/// The figures by calculation, and by enumeration too where so many steps are enough for it.
pub fn figures(task: &Task, steps: u64) -> Figures {
    let times = offsets::tight(task);
    let (published, set) = offsets::published(task);
    let exits: Vec<(u64, u64)> =
        times.iter().enumerate().filter_map(|(offset, time)| time.map(|time| (offset as u64, time))).collect();
    let tight = exits.iter().map(|&(_, time)| time).max().unwrap_or(0);

    let mut doubt = None;
    // "exit offsets, which are the offsets at which some run ends": the published exit set is the same set, and may have more offsets
    // only where there are lines, of which it knows nothing
    let same = offsets::members(&set).eq(exits.iter().map(|&(offset, _)| offset));
    let lines = match (task.lines(), same) {
        (0, _) => Lines::None,
        (_, true) => Lines::Same,
        (_, false) => Lines::Wider,
    };
    if lines == Lines::None && !same {
        doubt = Some("the published exit set is not the set of offsets that hold a time".to_string());
    }
    if !exits.iter().all(|&(offset, _)| set[offset as usize]) {
        doubt = Some("the published exit set has not all offsets that hold a time".to_string());
    }
    if published < tight {
        doubt = Some(format!("published {published} is below tight {tight}"));
    }
    let all = runs::enumerate(task, steps);
    if let Some(all) = &all {
        if !all.longest.iter().map(|(&offset, &time)| (offset, time)).eq(exits.iter().copied()) {
            doubt = Some(format!("enumerated {:?}, calculated {:?}", all.longest, exits));
        }
    }
    Figures { tight, published, exits, lines, runs: all.map(|all| all.number), doubt }
}
