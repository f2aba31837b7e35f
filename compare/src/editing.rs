//! A second reading of change request W10: what an edit leaves of an image, and what its preview answers.
//!
//! The image is taken apart into its fields, the named block's field is made anew from the durations, and the fields are put together
//! again. What comes of it is judged like any image, and its figures are worked out like those of any image.

use crate::generate::{hexadecimal, plain};
use crate::image::{judge, Node, Refusal, Task};
use crate::reference::{figures, Figures, Lines};

/// An image, the block that is edited, its new durations, and the places of the table that is lent to the preview.
#[derive(Clone, PartialEq, Eq, Hash)]
pub struct Edit {
    pub image: Vec<u8>,
    pub node: u64,
    pub lowest: u64,
    pub highest: u64,
    pub places: u64,
}

impl Edit {
    /// The line that the program under test reads.
    pub fn line(&self) -> String {
        format!("{} {} {} {} {}", bytes(&self.image), self.node, self.lowest, self.highest, self.places)
    }
}

/// What was found out about an edit.
pub enum Found {
    /// the image's own number
    Own(u64),
    /// 19, of a block with tag 10 or not, and 5
    Block {
        fetched: bool,
    },
    Durations,
    /// the edit is done; the preview has a table that is too short, or figures, from so many runs where they were enumerated
    Table,
    Enumerated(u64),
    Calculated,
}

pub struct Answer {
    pub line: String,
    pub found: Found,
    /// what the figures are of
    pub task: Option<Task>,
    /// those of the figures
    pub lines: Lines,
    /// where this reading disagrees with itself
    pub doubt: Option<String>,
}

pub fn answer(edit: &Edit, steps: u64) -> Answer {
    let length = edit.image.len() as u64;
    let refused = |found, number, place| {
        let line = refused_line(&edit.image, number, place);
        Answer { line, found, task: None, lines: Lines::None, doubt: None }
    };
    // "Unaccepted images are refused first, by their own numbers"
    let task = match judge(&edit.image) {
        Err(own) => return refused(Found::Own(own.number), own.number, own.place),
        Ok(task) => task,
    };
    // "19 block, the node does not exist or is not plain, judged before that 5, with the image's length as place"
    if !is_plain(&task, edit.node) {
        let named = usize::try_from(edit.node).ok().and_then(|node| task.nodes.get(node));
        return refused(Found::Block { fetched: matches!(named, Some(Node::Fetch { .. })) }, 19, length);
    }
    // "durations out of range get 5 at that block's field"
    let (place, edited) = edited(edit);
    let judged = edited.as_ref().ok_or(Refusal { number: 5, place }).and_then(|edited| judge(edited));
    let (edited, edited_task) = match (edited, judged) {
        (Some(edited), Ok(edited_task)) => (edited, edited_task),
        _ => {
            let doubt =
                in_range(edit.lowest, edit.highest).then(|| "durations in range, and the edited image is refused".to_string());
            return Answer { doubt, ..refused(Found::Durations, 5, place) };
        }
    };
    let mut doubt = None;
    if !in_range(edit.lowest, edit.highest) {
        doubt = Some("durations out of range, and the edited image is accepted".to_string());
    }
    if !alike(edit, &task, &edited_task) || !alters_four(&edit.image, &edited, place as usize) {
        doubt = Some("more than a block's durations is another".to_string());
    }
    // "10 is judged last in the preview"
    if edit.places < edited_task.bus.period() {
        let line = format!("edit 0 0 0 {}; preview 1 10 {length}", bytes(&edited));
        return Answer { line, found: Found::Table, task: None, lines: Lines::None, doubt };
    }
    // "what the edit on a copy and a fresh calculation would give"
    let figures = figures(&edited_task, steps);
    let found = figures.runs.map_or(Found::Calculated, Found::Enumerated);
    let line = done_line(&edited, &figures);
    Answer { line, found, task: Some(edited_task), lines: figures.lines, doubt: doubt.or(figures.doubt) }
}

/// The image after the edit, if both durations can be written; and the place of the block's field.
pub fn edited(edit: &Edit) -> (u64, Option<Vec<u8>>) {
    let mut fields = fields(&edit.image);
    let own = 2 + edit.node as usize;
    let place = fields[..own].iter().map(|field| field.len() as u64).sum();
    let (Ok(lowest), Ok(highest)) = (u16::try_from(edit.lowest), u16::try_from(edit.highest)) else { return (place, None) };
    fields[own] = plain(lowest, highest);
    (place, Some(fields.concat()))
}

/// The fields of an accepted image.
fn fields(image: &[u8]) -> Vec<Vec<u8>> {
    let mut fields = Vec::new();
    let mut rest = image;
    while let [_, high, low, ..] = rest {
        let (field, after) = rest.split_at(3 + usize::from(*high) * 256 + usize::from(*low));
        fields.push(field.to_vec());
        rest = after;
    }
    fields
}

pub fn is_plain(task: &Task, node: u64) -> bool {
    (0..).zip(&task.nodes).any(|(own, kind): (u64, _)| own == node && matches!(kind, Node::Plain { .. }))
}

/// "0 to 65,535, lowest ≤ highest, difference at most 63"
pub fn in_range(lowest: u64, highest: u64) -> bool {
    highest <= 65_535 && (0..=63).any(|difference| lowest.checked_add(difference) == Some(highest))
}

/// Whether the nodes of both tasks are the same but for the edited block, which has the durations, and all else is the same.
fn alike(edit: &Edit, task: &Task, edited: &Task) -> bool {
    let mut expected = task.clone();
    expected.nodes[edit.node as usize] = Node::Plain { lowest: edit.lowest, highest: edit.highest };
    expected == *edited
}

/// "sets those four bytes of the lent image to the given durations and alters no others"
fn alters_four(image: &[u8], edited: &[u8], place: usize) -> bool {
    let others = |image: &[u8]| [&image[..place + 3], &image[place + 7..]].concat();
    image.len() == edited.len() && others(image) == others(edited)
}

/// "A refused edit changes no byte."
pub fn refused_line(image: &[u8], number: u64, place: u64) -> String {
    format!("edit 1 {number} {place} {}; preview 1 {number} {place}", bytes(image))
}

fn done_line(edited: &[u8], figures: &Figures) -> String {
    let mut line = format!("edit 0 0 0 {}; preview 0", bytes(edited));
    line += &format!(" {} {} {}", figures.tight, figures.published, figures.exits.len());
    for (offset, time) in &figures.exits {
        line += &format!(" {offset}:{time}");
    }
    line
}

fn bytes(image: &[u8]) -> String {
    if image.is_empty() {
        "-".to_string()
    } else {
        hexadecimal(image)
    }
}
