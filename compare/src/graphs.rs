//! Graphs of task images on one bus clock: "For tight figures as times, each image must list every offset as a start."

use crate::generate::{on_schedule, random_nodes, random_schedule, starts, work, Random, SMALL};
use crate::image::{judge, Node, Task as Image};
use crate::tasks::{by_events, late, numbers, Task};
use crate::{offsets, runs};
use std::collections::HashMap;

/// Which starts the images of a graph list.
#[derive(Clone, Copy, PartialEq)]
pub enum Listed {
    /// every offset below the period
    Every,
    /// one, the same for all images
    One,
}

/// Tasks that are images on one bus, whose slots are equal or not; where they are, some may be written with tag 1 and some with tag 9.
/// Those on one core of the table have that core's number on the bus.
pub struct Graph {
    period: u64,
    /// the one start where one is listed
    start: u64,
    every: Vec<Image>,
    one: Vec<Image>,
    /// the core of each task, and those it waits for
    shape: Vec<(usize, Vec<usize>)>,
}

/// Steps of the calculation for an image, and cycles of its tight figure, at most.
const MOST_WORK: u64 = 300_000;
const MOST_TIGHT: u64 = 4_000;
/// Steps lent to one run, and to the enumeration of all runs from one offset.
const STEPS: u64 = 1_000_000;
const FEW_STEPS: u64 = 20_000;
/// Whole runs of a graph with choices taken at random, and as many with the longest run of each task.
const WHOLE_RUNS: u64 = 6;

/// "tight figures as times": the longest time of any run from any listed start
fn tight(image: &Image) -> u64 {
    offsets::tight(image).into_iter().flatten().max().unwrap_or(0)
}

/// So many graphs.
pub fn all(seed: u64, wanted: usize) -> Vec<Graph> {
    let mut random = Random::new(seed ^ 0x6772_6170_6873);
    (0..wanted).map(|_| random_graph(&mut random)).collect()
}

fn random_graph(random: &mut Random) -> Graph {
    let schedule = random_schedule(random);
    let period = schedule.period();
    let start = random.below(period);
    let all: Vec<u8> = (0..period).map(|offset| offset as u8).collect();
    let mut graph = Graph { period, start, every: Vec::new(), one: Vec::new(), shape: Vec::new() };
    let size = if random.once_in(6) { random.from(9, 20) } else { random.from(2, 8) };
    for own in 0..size as usize {
        let (field_1, bus) = on_schedule(random, &schedule);
        let (every, one) = loop {
            let nodes = random_nodes(random, &SMALL, &bus);
            let image = |from: &[u8]| [field_1.clone(), starts(from), nodes.clone()].concat();
            let (every, one) = (image(&all), image(&[start as u8]));
            if let (Ok(judged), Ok(with_one)) = (judge(&every), judge(&one)) {
                if work(&every) <= MOST_WORK && tight(&judged) <= MOST_TIGHT {
                    break (judged, with_one);
                }
            }
        };
        graph.every.push(every);
        graph.one.push(one);
        let count = if own == 0 { 0 } else { random.below(4) };
        graph.shape.push((bus.core as usize, (0..count).map(|_| random.below(own as u64) as usize).collect()));
    }
    graph
}

impl Graph {
    fn images(&self, listed: Listed) -> &[Image] {
        match listed {
            Listed::Every => &self.every,
            Listed::One => &self.one,
        }
    }

    fn tasks(&self, listed: Listed) -> Vec<Task> {
        let all = self.shape.iter().zip(self.images(listed));
        all.map(|((core, waits), image)| Task { core: *core, time: tight(image), waits: waits.clone() }).collect()
    }

    /// Tasks whose image has lines.
    pub fn with_lines(&self) -> usize {
        self.every.iter().filter(|image| image.lines() > 0).count()
    }

    /// Tasks whose image has tag 9.
    pub fn with_pairs(&self) -> usize {
        self.every.iter().filter(|image| image.bus.equal.is_none()).count()
    }

    /// Tasks whose image has tag 8.
    pub fn with_entry(&self) -> usize {
        self.every.iter().filter(|image| image.named.is_some()).count()
    }

    /// Tasks whose image has a loop with a test that is not a plain block of duration 0.
    pub fn with_tests(&self) -> usize {
        let idle = Node::Plain { lowest: 0, highest: 0 };
        let tested =
            |image: &&Image| image.nodes.iter().any(|node| matches!(node, Node::Loop { test, .. } if image.nodes[*test] != idle));
        self.every.iter().filter(tested).count()
    }

    /// Whether images with tag 9 have different analysed cores.
    pub fn shared(&self) -> bool {
        let cores = || self.every.iter().filter(|image| image.bus.equal.is_none()).map(|image| image.bus.core);
        cores().min() != cores().max()
    }

    /// The task table with the tight figures as times.
    pub fn table(&self, listed: Listed) -> Vec<u64> {
        numbers(&self.tasks(listed))
    }
}

/// What was seen of the runs of a graph.
#[derive(Default)]
pub struct Seen {
    /// runs of single tasks, and those of them that were the longest of all from their offset
    pub runs: u64,
    pub longest: u64,
    /// a task that ended after its finish
    pub late: Option<String>,
}

/// Whole runs of a graph on one clock, each begun at a random cycle of it; where one start is listed, at a cycle with that offset.
/// Each task starts "as soon as those have ended", its run begins at the offset that the clock shows then, listed or not, with no
/// line fetched, and takes what it takes. It is held to these finishes.
pub fn run(graph: &Graph, listed: Listed, finishes: &[u64], random: &mut Random) -> Seen {
    let mut seen = Seen::default();
    let (images, tasks) = (graph.images(listed), graph.tasks(listed));
    let mut known: HashMap<(usize, u64), Option<u64>> = HashMap::new();
    for number in 0..2 * WHOLE_RUNS {
        let origin = match listed {
            Listed::Every => random.below(1 << 40),
            Listed::One => graph.start + graph.period * random.below(1 << 32),
        };
        let spans = by_events(&tasks, &mut |own, start| {
            seen.runs += 1;
            let offset = (origin + start) % graph.period;
            if number % 2 == 1 {
                if let Some(time) = known.entry((own, offset)).or_insert_with(|| longest(&images[own], offset)) {
                    seen.longest += 1;
                    return *time;
                }
            }
            // a run that takes more steps than are lent counts as one of so many cycles
            runs::one(&images[own], offset, &mut |open| random.below(open), STEPS).unwrap_or(STEPS)
        });
        if let (None, Some(late)) = (&seen.late, late(&tasks, &spans, finishes)) {
            seen.late = Some(format!("begun at cycle {origin} of a clock of period {}: {late}", graph.period));
        }
    }
    seen
}

/// The longest of all runs from this offset, where they are few enough.
fn longest(image: &Image, offset: u64) -> Option<u64> {
    let from = Image { starts: vec![offset], ..image.clone() };
    runs::enumerate(&from, FEW_STEPS)?.longest.into_values().max()
}
