//! Judges a task image: document 01, "The task image" and "When no figure is given", and change requests W1, W3, W5 and W9.

/// "reads at most 16,384 bytes from standard input and judges those"
pub const MOST_BYTES: usize = 16_384;
pub const MOST_NODES: usize = 256;
pub const MOST_DEPTH: u64 = 24;
pub const MOST_VISITS: u64 = 100_000;
/// of the period × 2 to the number of lines
const MOST_COMBINATIONS: u64 = 1_024;
/// "a line number 0 to 3"
pub const MOST_LINES: usize = 4;

/// A slot of the period: the core that owns it, and its length in cycles.
struct Slot {
    core: u64,
    length: u64,
}

/// Consecutive cycles that the task's core owns, "counted round the period": the offset of the first, and how many.
#[derive(Clone, PartialEq, Debug)]
pub struct Stretch {
    pub first: u64,
    pub length: u64,
}

/// The bus and the task's core on it.
#[derive(Clone, PartialEq, Debug, Default)]
pub struct Bus {
    pub core: u64,
    /// the slot length of tag 1, "one slot length in cycles for all"
    pub equal: Option<u64>,
    /// the core that owns each offset, for whoever steps the clock
    pub owners: Vec<u64>,
    /// those of the task's core, put together from its slots, for whoever calculates
    pub stretches: Vec<Stretch>,
}

impl Bus {
    fn new(core: u64, slots: &[Slot], equal: Option<u64>) -> Bus {
        let owners = slots.iter().flat_map(|slot| (0..slot.length).map(|_| slot.core)).collect();
        Bus { core, equal, owners, stretches: stretches(core, slots) }
    }

    /// "a period P = cores × slot"; with tag 9 "The period is the sum"
    pub fn period(&self) -> u64 {
        self.owners.len() as u64
    }

    /// With tag 1 the slot length; with tag 9 "A bus duration may not exceed the longest such stretch, nor the period". The cycles that
    /// the core owns one after another are counted through two periods.
    pub fn longest_access(&self) -> u64 {
        let (mut longest, mut owned) = (0, 0);
        for &owner in self.owners.iter().chain(&self.owners) {
            owned = if owner == self.core { owned + 1 } else { 0 };
            longest = owned.max(longest);
        }
        longest.min(self.period())
    }
}

/// The stretches of a core: slots of it that are neighbours are one, and the last slot of the period is a neighbour of the first.
fn stretches(core: u64, slots: &[Slot]) -> Vec<Stretch> {
    let mut all: Vec<Stretch> = Vec::new();
    let mut offset = 0;
    for slot in slots {
        match all.last_mut() {
            Some(last) if slot.core == core && last.first + last.length == offset => last.length += slot.length,
            _ if slot.core == core => all.push(Stretch { first: offset, length: slot.length }),
            _ => {}
        }
        offset += slot.length;
    }
    if let [first, .., last] = &mut all[..] {
        if first.first == 0 && last.first + last.length == offset {
            last.length += first.length;
            all.remove(0);
        }
    }
    all
}

/// "A node is one of five kinds, each with its own numbers." The sixth is the block with tag 10, of code fetched once.
#[derive(Clone, PartialEq, Debug)]
pub enum Node {
    Plain { lowest: u64, highest: u64 },
    Access { may: bool, lowest: u64, highest: u64 },
    Fetch { line: usize, lowest: u64, highest: u64, hit: u64 },
    Sequence { children: Vec<usize> },
    Branch { arms: Vec<usize> },
    Loop { least: u64, greatest: u64, body: usize, test: usize },
}

/// An accepted image.
#[derive(Clone, PartialEq, Debug, Default)]
pub struct Task {
    pub bus: Bus,
    pub starts: Vec<u64>,
    pub nodes: Vec<Node>,
    /// the entry's number, where a field with tag 8 holds it
    pub named: Option<usize>,
}

impl Task {
    /// "The last node is the entry", or the node that tag 8 names.
    pub fn entry(&self) -> usize {
        self.named.unwrap_or(self.nodes.len() - 1)
    }

    /// "Lines are one more than the highest line number in the image, or 0."
    pub fn lines(&self) -> u32 {
        let numbers = self.nodes.iter().filter_map(|node| match node {
            Node::Fetch { line, .. } => Some(*line as u32),
            _ => None,
        });
        numbers.max().map_or(0, |highest| highest + 1)
    }
}

#[derive(Clone, Copy, PartialEq, Eq, Debug)]
pub struct Refusal {
    pub number: u64,
    pub place: u64,
}

/// "Fields are judged from the front. Within one the order is: head cut, 2, 3, 4, body cut, 5, 6. Then 7, 8, 9, 10." And 11 "judged and
/// placed in that field as 5 is", 18 "judged after 9 and before 10".
pub fn judge(image: &[u8]) -> Result<Task, Refusal> {
    let mut task = Task::default();
    let mut place = 0;
    let mut fields = 0;
    while place < image.len() {
        let refuse = |number: u64| Err(Refusal { number, place: place as u64 });
        let left = image.len() - place;
        // "1 or 2 bytes left where a field's head should stand"
        if left < 3 {
            return refuse(1);
        }
        let tag = image[place];
        // "the first field's tag is not 1, the second's not 2, or a later one's not 3 to 7", nor 10; "A field with tag 9 may stand first
        // in place of tag 1"; one with tag 8 "may close the image after at least one node field", and "A field after it has the wrong tag"
        let of_node = (3..=7).contains(&tag) || tag == 10;
        let tag_fits = match fields {
            0 => tag == 1 || tag == 9,
            1 => tag == 2,
            2 => of_node,
            _ => (of_node || tag == 8) && task.named.is_none(),
        };
        if !tag_fits {
            return refuse(2);
        }
        // "a 257th node field"
        if of_node && task.nodes.len() == MOST_NODES {
            return refuse(3);
        }
        // "body length not in the tag's row"
        let length = two_bytes(&image[place + 1..]) as usize;
        if !length_in_row(tag, length) {
            return refuse(4);
        }
        // "fewer bytes left than its length for its body"
        if left - 3 < length {
            return refuse(1);
        }
        let body = &image[place + 3..place + 3 + length];
        if !values_in_row(tag, body, &task.bus) {
            return refuse(5);
        }
        // "a child number not below the node's own"
        let own = task.nodes.len() as u64;
        if children(tag, body).iter().any(|&child| child >= own) {
            return refuse(6);
        }
        // "the number in tag 8 is not that of a node"
        if tag == 8 && two_bytes(body) >= own {
            return refuse(11);
        }
        match tag {
            1 | 9 => task.bus = bus_of(tag, body),
            2 => task.starts = body.iter().map(|&o| o.into()).collect(),
            8 => task.named = Some(two_bytes(body) as usize),
            _ => task.nodes.push(node(tag, body)),
        }
        place += 3 + length;
        fields += 1;
    }
    let refuse = |number: u64| Err(Refusal { number, place: image.len() as u64 });
    // "the image ends, between fields, before a node field"
    if task.nodes.is_empty() {
        return refuse(7);
    }
    // "Depth and visits are those of the node named."
    if depths(&task.nodes)[task.entry()] > MOST_DEPTH {
        return refuse(8);
    }
    if visits(&task.nodes)[task.entry()] > MOST_VISITS {
        return refuse(9);
    }
    // "period × 2 to the number of lines exceeds 1,024"
    if task.bus.period() * 2u64.pow(task.lines()) > MOST_COMBINATIONS {
        return refuse(18);
    }
    Ok(task)
}

/// "Numbers of two bytes have the high byte first."
fn two_bytes(bytes: &[u8]) -> u64 {
    u64::from(bytes[0]) * 256 + u64::from(bytes[1])
}

fn length_in_row(tag: u8, length: usize) -> bool {
    match tag {
        1 | 4 => length == 3,
        2 => (1..=256).contains(&length),
        3 => length == 4,
        5 => (2..=32).contains(&length) && length % 2 == 0,
        6 => (4..=16).contains(&length) && length % 2 == 0,
        7 => length == 8,
        8 => length == 2,
        9 => (3..=65).contains(&length) && length % 2 == 1,
        10 => length == 5,
        _ => false,
    }
}

/// "a number that breaks its row's rules, order and products included; child numbers are left to 6"
fn values_in_row(tag: u8, body: &[u8], bus: &Bus) -> bool {
    match tag {
        1 => {
            let (cores, slot, core) = (u64::from(body[0]), u64::from(body[1]), u64::from(body[2]));
            (2..=16).contains(&cores) && (1..=128).contains(&slot) && core < cores && cores * slot <= 256
        }
        2 => {
            let below_period = body.iter().all(|&o| u64::from(o) < bus.period());
            let strictly_ascending = body.windows(2).all(|pair| pair[0] < pair[1]);
            below_period && strictly_ascending
        }
        3 => {
            let (lowest, highest) = (two_bytes(body), two_bytes(&body[2..]));
            lowest <= highest && highest - lowest <= 63
        }
        4 => {
            let (kind, lowest, highest) = (body[0], u64::from(body[1]), u64::from(body[2]));
            (kind == 1 || kind == 2) && 1 <= lowest && lowest <= highest && highest <= bus.longest_access()
        }
        7 => {
            let (least, greatest) = (two_bytes(body), two_bytes(&body[2..]));
            least <= greatest && greatest <= 10_000
        }
        // "pairs of core (0 to 15) and slot length (1 to 128)"; "The period is the sum, at most 256, and the analysed core has at least
        // one pair."
        9 => {
            let (analysed, slots) = (u64::from(body[0]), pairs(body));
            let each = slots.iter().all(|slot| slot.core <= 15 && (1..=128).contains(&slot.length));
            let sum: u64 = slots.iter().map(|slot| slot.length).sum();
            each && sum <= 256 && slots.iter().any(|slot| slot.core == analysed)
        }
        10 => {
            let (line, lowest, highest) = (usize::from(body[0]), u64::from(body[1]), u64::from(body[2]));
            line < MOST_LINES && 1 <= lowest && lowest <= highest && highest <= bus.longest_access()
        }
        _ => true,
    }
}

/// The slots that a field with tag 9 has behind the analysed core.
fn pairs(body: &[u8]) -> Vec<Slot> {
    body[1..].chunks(2).map(|pair| Slot { core: pair[0].into(), length: pair[1].into() }).collect()
}

/// The bus that field 1 says: with tag 1 a slot for each core, in their order.
pub fn bus_of(tag: u8, body: &[u8]) -> Bus {
    if tag == 9 {
        return Bus::new(body[0].into(), &pairs(body), None);
    }
    let (cores, slot) = (u64::from(body[0]), u64::from(body[1]));
    let slots: Vec<Slot> = (0..cores).map(|core| Slot { core, length: slot }).collect();
    Bus::new(body[2].into(), &slots, Some(slot))
}

/// The child numbers named by a field; none in a bus, starts, block or entry field.
fn children(tag: u8, body: &[u8]) -> Vec<u64> {
    match tag {
        5 | 6 => body.chunks(2).map(two_bytes).collect(),
        // "least, greatest, body, and the child number of a test node"
        7 => body[4..].chunks(2).map(two_bytes).collect(),
        _ => Vec::new(),
    }
}

fn node(tag: u8, body: &[u8]) -> Node {
    let named: Vec<usize> = children(tag, body).iter().map(|&child| child as usize).collect();
    match tag {
        3 => Node::Plain { lowest: two_bytes(body), highest: two_bytes(&body[2..]) },
        4 => Node::Access { may: body[0] == 1, lowest: body[1].into(), highest: body[2].into() },
        5 => Node::Sequence { children: named },
        6 => Node::Branch { arms: named },
        10 => {
            let (lowest, highest) = (body[1].into(), body[2].into());
            Node::Fetch { line: body[0].into(), lowest, highest, hit: two_bytes(&body[3..]) }
        }
        _ => Node::Loop { least: two_bytes(body), greatest: two_bytes(&body[2..]), body: named[0], test: named[1] },
    }
}

/// "The depth of a block is 1, of another node 1 plus that of its deepest child." "depth counts the test as a child."
pub fn depths(nodes: &[Node]) -> Vec<u64> {
    let mut depths: Vec<u64> = Vec::new();
    for node in nodes {
        let depth = match node {
            Node::Plain { .. } | Node::Access { .. } | Node::Fetch { .. } => 1,
            Node::Sequence { children: named } | Node::Branch { arms: named } => {
                1 + named.iter().map(|&child| depths[child]).max().unwrap_or(0)
            }
            Node::Loop { body, test, .. } => 1 + depths[*body].max(depths[*test]),
        };
        depths.push(depth);
    }
    depths
}

/// "The visits of a block are 1; of a sequence or branch 1 plus the sum over its children"; of a loop "1 + greatest × (body + test) +
/// test". The lesser of that and 100,001: exact up to 100,000, and 0 × many stays 0.
pub fn visits(nodes: &[Node]) -> Vec<u64> {
    let mut visits: Vec<u64> = Vec::new();
    for node in nodes {
        let all = match node {
            Node::Plain { .. } | Node::Access { .. } | Node::Fetch { .. } => 1,
            Node::Sequence { children: named } | Node::Branch { arms: named } => {
                1 + named.iter().map(|&child| visits[child]).sum::<u64>()
            }
            Node::Loop { greatest, body, test, .. } => 1 + greatest * (visits[*body] + visits[*test]) + visits[*test],
        };
        visits.push(all.min(MOST_VISITS + 1));
    }
    visits
}
