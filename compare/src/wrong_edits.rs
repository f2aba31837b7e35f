//! Edits for `wrong --edits`: a line for each, as tests/linked/edits.c writes them, by the bytes of the image. It shares no code with
//! the second reading either.

use crate::{answer_lines, from_starts, judge, listed, of_first_stretch, published, Exits, Fault, Image, Node, Said};

struct Edit {
    bytes: Vec<u8>,
    node: u64,
    lowest: u64,
    highest: u64,
    places: u64,
}

type Refusal = (u64, u64);

/// Reads edits and writes answers until the input ends.
pub fn run(fault: &Fault) {
    let at_end = [fault.is("edits-no-last-line-feed"), fault.is("edits-line-too-many"), fault.is("edits-status-at-end")];
    answer_lines(at_end, &|line| {
        let Some(edit) = read(line) else { return Said::Wrong };
        match edit.bytes.len() {
            0 if fault.is("edits-empty-unanswered") => Said::Nothing,
            9_265 if fault.is("edits-killed-at-longest") => Said::Killed,
            _ => Said::Line(answer(fault, &edit)),
        }
    });
}

fn read(line: &str) -> Option<Edit> {
    let words: Vec<&str> = line.split(' ').collect();
    let [image, numbers @ ..] = &words[..] else { return None };
    let numbers: Vec<u64> = numbers.iter().map(|number| number.parse().ok()).collect::<Option<_>>()?;
    let [node, lowest, highest, places] = numbers[..] else { return None };
    let digits = if *image == "-" { "" } else { image };
    let byte = |at: usize| digits.get(at..at + 2).and_then(|pair| u8::from_str_radix(pair, 16).ok());
    let bytes: Vec<u8> = (0..digits.len()).step_by(2).map(byte).collect::<Option<_>>()?;
    Some(Edit { bytes, node, lowest, highest, places })
}

/// The place and the tag of each node field, as far as lengths lead. One with tag 8 is none.
fn nodes(fault: &Fault, bytes: &[u8]) -> Vec<(usize, u8)> {
    let mut fields = Vec::new();
    let mut place = 0;
    while place + 3 <= bytes.len() {
        fields.push((place, bytes[place]));
        place += match fault.0.as_str() {
            "edits-starts-at-6" if place == 0 => 6,
            "edits-loops-of-9-bytes" if bytes[place] == 7 => 9,
            _ => 3 + bytes[place + 1] as usize * 256 + bytes[place + 2] as usize,
        };
    }
    fields.drain(..fields.len().min(2));
    fields.retain(|field| field.1 != 8);
    fields
}

/// The entry's field, where the image is accepted.
fn entry(edit: &Edit) -> Option<usize> {
    let image = judge(&Fault::default(), &edit.bytes).ok()?;
    Some(image.nodes[image.entry].place)
}

/// The tests of an accepted image's loops: each loop's field and its test's.
fn tests(edit: &Edit) -> Vec<(usize, usize)> {
    let Ok(image) = judge(&Fault::default(), &edit.bytes) else { return Vec::new() };
    let all = image.nodes.iter().filter(|node| node.tag == 7);
    all.map(|node| (node.place, image.nodes[node.children[1]].place)).collect()
}

fn is_test(edit: &Edit, place: usize) -> bool {
    tests(edit).iter().any(|&(_, test)| test == place)
}

/// Whether tag 8 closes the image.
fn has_entry(edit: &Edit) -> bool {
    judge(&Fault::default(), &edit.bytes).is_ok_and(|image| image.named.is_some())
}

/// The period that field 1 says, good or not.
fn period(fault: &Fault, edit: &Edit) -> u64 {
    match &edit.bytes[..] {
        [9, _, length, _, pairs @ ..] if !fault.is("edits-period-of-tag-1") => {
            pairs.iter().take(*length as usize).skip(1).step_by(2).map(|&slot| slot as u64).sum()
        }
        [_, _, _, cores, slot, _, ..] => *cores as u64 * *slot as u64,
        _ => 0,
    }
}

/// The field that is taken for the named node.
fn named(fault: &Fault, edit: &Edit) -> Option<(usize, u8)> {
    let nodes = nodes(fault, &edit.bytes);
    let of = |tags: &[u8], number: u64| nodes.iter().filter(|(_, tag)| tags.contains(tag)).nth(number as usize).copied();
    let at = |number: u64| nodes.get(usize::try_from(number).ok()?).copied();
    let count = nodes.len() as u64;
    match fault.0.as_str() {
        "edits-node-from-1" => at(edit.node.checked_sub(1)?),
        "edits-node-from-the-end" => at(count.checked_sub(1)?.checked_sub(edit.node)?),
        "edits-node-of-plain" => of(&[3], edit.node),
        "edits-node-of-blocks" => of(&[3, 4, 10], edit.node),
        "edits-node-of-fields" => at(edit.node.checked_sub(2)?),
        "edits-node-in-7-bits" => at(if edit.node < 256 { edit.node % 128 } else { edit.node }),
        "edits-node-in-a-byte" => at(edit.node % 256),
        "edits-node-16-bit" => at(edit.node % (1 << 16)),
        "edits-node-32-bit" => at(edit.node % (1 << 32)),
        "edits-node-63-bit" => at(edit.node % (1 << 63)),
        "edits-last-for-missing" => at(edit.node.min(count.checked_sub(1)?)),
        "edits-count-for-last" if edit.node == count => at(count.checked_sub(1)?),
        "edits-first-node-lost" => at(edit.node).filter(|_| edit.node > 0),
        "edits-last-node-lost" => at(edit.node).filter(|_| edit.node + 1 < count),
        "edits-node-255-lost" => at(edit.node).filter(|_| edit.node != 255),
        "edits-loop-names-test" => at(edit.node).map(|named| {
            let test = tests(edit).into_iter().find(|test| test.0 == named.0);
            test.map_or(named, |(_, test)| (test, edit.bytes[test]))
        }),
        "edits-next-plain-named" => {
            at(edit.node).and_then(|from| nodes.iter().find(|node| node.0 >= from.0 && node.1 == 3).copied())
        }
        _ => at(edit.node),
    }
}

/// Whether the field that is named counts as that of a plain block.
fn block_good(fault: &Fault, edit: &Edit, (place, tag): (usize, u8)) -> bool {
    let reached = || {
        let Ok(image) = judge(&Fault::default(), &edit.bytes) else { return true };
        let mut reached = vec![false; image.nodes.len()];
        reached[image.entry] = true;
        for number in (0..image.nodes.len()).rev() {
            if reached[number] {
                image.nodes[number].children.iter().for_each(|&child| reached[child] = true);
            }
        }
        image.nodes.iter().zip(reached).any(|(node, reached)| node.place == place && reached)
    };
    match fault.0.as_str() {
        "edits-any-node" => true,
        "edits-bus-block-edited" => tag == 3 || tag == 4,
        "edits-may-block-edited" => tag == 3 || tag == 4 && edit.bytes[place + 3] == 1,
        "edits-loop-edited" => tag == 3 || tag == 7,
        "edits-fetch-edited" => tag == 3 || tag == 10,
        "edits-unreached-refused" => tag == 3 && reached(),
        "edits-entry-refused" => tag == 3 && entry(edit) != Some(place),
        "edits-named-entry-refused" => tag == 3 && !(has_entry(edit) && entry(edit) == Some(place)),
        "edits-above-entry-refused" => tag == 3 && entry(edit).is_none_or(|entry| place <= entry),
        "edits-test-refused" => tag == 3 && !is_test(edit, place),
        "edits-test-only" => tag == 3 && is_test(edit, place),
        _ => tag == 3,
    }
}

/// The durations as they are held.
fn held(fault: &Fault, edit: &Edit) -> (u64, u64) {
    let most = match fault.0.as_str() {
        "edits-durations-16-bit" => 1 << 16,
        "edits-durations-32-bit" => 1 << 32,
        "edits-durations-63-bit" => 1 << 63,
        _ => return (edit.lowest, edit.highest),
    };
    (edit.lowest % most, edit.highest % most)
}

fn durations_good(fault: &Fault, edit: &Edit, before: Option<(u64, u64)>) -> bool {
    let (lowest, highest) = held(fault, edit);
    let difference = highest.wrapping_sub(lowest);
    match fault.0.as_str() {
        "edits-durations-unjudged" => true,
        "edits-difference-only" => difference <= 63,
        "edits-difference-unjudged" => highest <= 65_535 && lowest <= highest,
        "edits-difference-64" => highest <= 65_535 && lowest <= highest && difference <= 64,
        "edits-difference-63-refused" => highest <= 65_535 && lowest <= highest && difference <= 62,
        "edits-difference-in-a-byte" => highest <= 65_535 && lowest <= highest && difference % 256 <= 63,
        "edits-reversed-accepted" => lowest <= 65_535 && highest <= 65_535 && lowest.abs_diff(highest) <= 63,
        "edits-order-unjudged" => highest <= 65_535 && highest.saturating_sub(lowest) <= 63,
        "edits-lowest-judged-only" => lowest <= 65_535 && lowest <= highest && difference <= 63,
        "edits-65536-accepted" => highest <= 65_536 && lowest <= highest && difference <= 63,
        "edits-65535-refused" => highest < 65_535 && lowest <= highest && difference <= 63,
        "edits-difference-comes-round" => highest <= 65_535 && difference <= 63,
        "edits-0-refused" => highest <= 65_535 && lowest >= 1 && lowest <= highest && difference <= 63,
        "edits-highest-0-refused" => highest <= 65_535 && highest >= 1 && lowest <= highest && difference <= 63,
        "edits-equal-refused" => highest <= 65_535 && lowest < highest && difference <= 63,
        "edits-same-refused" => highest <= 65_535 && lowest <= highest && difference <= 63 && before != Some((lowest, highest)),
        _ => highest <= 65_535 && lowest <= highest && difference <= 63,
    }
}

fn table_good(fault: &Fault, edit: &Edit) -> bool {
    let period = period(fault, edit);
    match fault.0.as_str() {
        "edits-table-at-period" => edit.places > period,
        "edits-table-one-short" => edit.places + 1 >= period,
        "edits-table-of-256" => edit.places >= 256,
        "edits-table-of-256-refused" => edit.places >= period && edit.places != 256,
        "edits-table-in-a-byte" => edit.places >= period % 256,
        "edits-table-too-long" => edit.places >= period && edit.places <= 256,
        "edits-table-unjudged" => true,
        _ => edit.places >= period,
    }
}

#[derive(Clone, Copy, PartialEq)]
enum Check {
    Own,
    Lines,
    Block,
    Value,
    Table,
}

/// The first refusal that holds, with the check that gave it.
fn refusal(fault: &Fault, edit: &Edit, preview: bool) -> Option<(Check, Refusal)> {
    use Check::*;
    let order = match fault.0.as_str() {
        "edits-value-before-block" => [Own, Lines, Value, Block, Table],
        "edits-table-before-value" => [Own, Lines, Block, Table, Value],
        "edits-table-before-block" => [Own, Lines, Table, Block, Value],
        "edits-table-before-image" => [Table, Own, Lines, Block, Value],
        "edits-block-before-image" => [Block, Own, Lines, Value, Table],
        "edits-value-before-image" => [Value, Own, Lines, Block, Table],
        "edits-lines-after-block" => [Own, Block, Lines, Value, Table],
        "edits-lines-after-value" => [Own, Block, Value, Lines, Table],
        "edits-lines-after-table" => [Own, Block, Value, Table, Lines],
        _ => [Own, Lines, Block, Value, Table],
    };
    let length = edit.bytes.len() as u64;
    let named = named(fault, edit);
    let field = named.map_or(length, |(place, _)| place as u64);
    for check in order {
        let refusal = match check {
            Own => own(fault, edit, preview).filter(|refusal| refusal.0 != 18),
            Lines => own(fault, edit, preview).filter(|refusal| refusal.0 == 18),
            Block => {
                let place = match fault.0.as_str() {
                    "edits-place-of-block-field" => field,
                    "edits-place-of-block-0" => 0,
                    "edits-place-of-block-node" => edit.node,
                    "edits-place-of-block-last" => nodes(fault, &edit.bytes).last().map_or(0, |node| node.0 as u64),
                    "edits-place-of-block-tag-8" if has_entry(edit) => length - 5,
                    _ => length,
                };
                let number = match fault.0.as_str() {
                    "edits-number-18" => 18,
                    "edits-not-plain-is-tag" if named.is_some() => 2,
                    "edits-not-plain-is-value" if named.is_some() => 5,
                    "edits-missing-is-forward" if named.is_none() => 6,
                    _ => 19,
                };
                let judged = !(preview && fault.is("edits-preview-block-unjudged"));
                let good = named.is_some_and(|named| block_good(fault, edit, named));
                (judged && !good).then_some((number, place))
            }
            Value => {
                let before = named.filter(|node| node.1 == 3).and_then(|(place, _)| {
                    let two = |at: usize| Some(*edit.bytes.get(at)? as u64 * 256 + *edit.bytes.get(at + 1)? as u64);
                    Some((two(place + 3)?, two(place + 5)?))
                });
                let place = match fault.0.as_str() {
                    "edits-place-of-value-length" => length,
                    "edits-place-of-value-body" => field + 3,
                    "edits-place-of-value-highest" => field + 5,
                    "edits-place-of-value-node" => edit.node,
                    "edits-place-of-value-0" => 0,
                    "edits-place-of-value-tag-1" => (field + 6).saturating_sub(field_1(edit) as u64),
                    _ => field,
                };
                let judged = !(preview && fault.is("edits-preview-value-unjudged"));
                (judged && !durations_good(fault, edit, before))
                    .then_some((if fault.is("edits-number-19") { 19 } else { 5 }, place))
            }
            Table => {
                let place = match fault.0.as_str() {
                    "edits-place-of-table-places" => edit.places,
                    "edits-place-of-table-0" => 0,
                    "edits-place-of-table-field" => field,
                    "edits-place-of-table-tag-8" if has_entry(edit) => length - 5,
                    _ => length,
                };
                let judged = preview || fault.is("edits-table-in-edit");
                (judged && !table_good(fault, edit)).then_some((10, place))
            }
        };
        if let Some(refusal) = refusal {
            return Some((check, refusal));
        }
    }
    None
}

/// The length of field 1.
fn field_1(edit: &Edit) -> usize {
    edit.bytes.get(2).map_or(0, |length| 3 + *length as usize)
}

/// The image's own number.
fn own(fault: &Fault, edit: &Edit, preview: bool) -> Option<Refusal> {
    if edit.bytes.first() == Some(&9) {
        match fault.0.as_str() {
            "edits-tag-9-refused" => return Some((2, 0)),
            "edits-tag-9-unedited" if !preview => return Some((2, 0)),
            "edits-tag-9-unpreviewed" if preview => return Some((2, 0)),
            _ => {}
        }
    }
    if has_entry(edit) {
        let length = edit.bytes.len() as u64;
        match fault.0.as_str() {
            "edits-tag-8-refused" => return Some((2, length - 5)),
            "edits-tag-8-unedited" if !preview => return Some((2, length - 5)),
            "edits-tag-8-unpreviewed" if preview => return Some((2, length - 5)),
            _ => {}
        }
    }
    // how the edit, or both, judge loops
    let of_loops = match fault.0.as_str() {
        "edits-loop-length-6" if !preview => "loop-length-6",
        "edits-test-unjudged" if !preview => "test-unjudged",
        "edits-test-before-value" => "test-before-value",
        "edits-visits-without-tests" if !preview => "visits-without-tests",
        "edits-depth-without-test" if !preview => "depth-without-test",
        _ => "",
    };
    let (number, place) = judge(&Fault(of_loops.to_string()), &edit.bytes).err()?;
    let place = place as u64;
    match fault.0.as_str() {
        "edits-entry-unjudged" if number == 11 && !preview => None,
        "edits-entry-is-19" if number == 11 => Some((19, edit.bytes.len() as u64)),
        "edits-entry-placed-length" if number == 11 => Some((number, edit.bytes.len() as u64)),
        "edits-tag-9-unjudged" if place == 0 && number == 5 && edit.bytes[0] == 9 && !preview => None,
        "edits-own-number-19" => Some((19, edit.bytes.len() as u64)),
        "edits-own-place-length" => Some((number, edit.bytes.len() as u64)),
        "edits-deep-unjudged" if number == 8 && !preview => None,
        "edits-long-unjudged" if number == 9 && !preview => None,
        "edits-lines-unjudged" if number == 18 && !preview => None,
        "edits-lines-are-19" if number == 18 => Some((19, place)),
        "edits-lines-placed-0" if number == 18 => Some((number, 0)),
        // what is wrong behind the block that is named, or in it
        "edits-later-unjudged" if !preview && number <= 6 && named(fault, edit).is_some_and(|named| (named.0 as u64) < place) => {
            None
        }
        "edits-own-field-unjudged"
            if !preview && number == 5 && named(fault, edit).map(|named| named.0 as u64) == Some(place) =>
        {
            None
        }
        _ => Some((number, place)),
    }
}

/// Writes bytes, as many as there is room for.
fn put(bytes: &mut [u8], place: usize, new: &[u8]) {
    bytes.iter_mut().skip(place).zip(new).for_each(|(byte, &new)| *byte = new);
}

fn four(lowest: u64, highest: u64) -> [u8; 4] {
    [(lowest >> 8) as u8, lowest as u8, (highest >> 8) as u8, highest as u8]
}

/// The image after a proper edit of the field that is named, and so what a preview works with.
fn edited(fault: &Fault, edit: &Edit) -> Vec<u8> {
    let (lowest, highest) = held(fault, edit);
    let mut bytes = edit.bytes.clone();
    if let Some((place, 3)) = named(fault, edit) {
        put(&mut bytes, place + 3, &four(lowest, highest));
    }
    bytes
}

/// The image after the edit.
fn written(fault: &Fault, edit: &Edit, refused: Option<Check>) -> Vec<u8> {
    let bytes = &edit.bytes;
    let mut after = match refused {
        None => edited(fault, edit),
        Some(Check::Own | Check::Lines) if fault.is("edits-unaccepted-written") => edited(fault, edit),
        Some(Check::Lines) if fault.is("edits-lines-written") => edited(fault, edit),
        Some(Check::Value) if fault.is("edits-refused-written") => edited(fault, edit),
        Some(Check::Value) if fault.is("edits-refused-lowest-written") && edit.lowest <= 65_535 => {
            let mut after = edited(fault, edit);
            named(fault, edit).iter().for_each(|(place, _)| put(&mut after, place + 5, &bytes[place + 5..place + 7]));
            after
        }
        Some(Check::Value) if fault.is("edits-refused-cleared") => {
            edited(fault, &Edit { bytes: bytes.clone(), lowest: 0, highest: 0, ..*edit })
        }
        Some(_) => bytes.clone(),
    };
    let Some((place, tag)) = named(fault, edit) else { return after };
    let (lowest, highest) = held(fault, edit);
    if refused == Some(Check::Block) && fault.is("edits-not-plain-written") {
        put(&mut after, place + 3, &four(lowest, highest));
    }
    if refused.is_some() || tag != 3 {
        return after;
    }
    let body = place + 3;
    let plain = || nodes(fault, bytes).into_iter().filter(|(_, tag)| *tag == 3).map(|(place, _)| place);
    match fault.0.as_str() {
        "edits-byte-before" => after[place + 2] = 0,
        "edits-tag-written" => after[place] = 4,
        "edits-byte-behind" => put(&mut after, body + 4, &[0]),
        "edits-low-byte-first" => {
            put(&mut after, body, &[lowest as u8, (lowest >> 8) as u8, highest as u8, (highest >> 8) as u8])
        }
        "edits-durations-swapped" => put(&mut after, body, &four(highest, lowest)),
        "edits-highest-only" => put(&mut after, body, &bytes[body..body + 2]),
        "edits-lowest-only" => put(&mut after, body + 2, &bytes[body + 2..body + 4]),
        "edits-low-bytes-only" => {
            put(&mut after, body, &bytes[body..body + 1]);
            put(&mut after, body + 2, &bytes[body + 2..body + 3]);
        }
        "edits-last-byte-kept" => put(&mut after, body + 3, &bytes[body + 3..body + 4]),
        "edits-nothing-written" => after = bytes.clone(),
        "edits-tag-9-unwritten" if bytes[0] == 9 => after = bytes.clone(),
        "edits-written-behind-tag-1" if bytes[0] == 9 => {
            after = bytes.clone();
            put(&mut after, (body + 6).saturating_sub(field_1(edit)), &four(lowest, highest));
        }
        "edits-pairs-cleared" if bytes[0] == 9 => put(&mut after, 6, &[0, 0]),
        "edits-tag-8-unwritten" if has_entry(edit) => after = bytes.clone(),
        "edits-test-unwritten" if is_test(edit, place) => after = bytes.clone(),
        "edits-tests-written-too" => {
            let plain = tests(edit).into_iter().map(|(_, test)| test).filter(|&test| bytes[test] == 3);
            plain.for_each(|test| put(&mut after, test + 3, &four(lowest, highest)));
        }
        "edits-body-written" => {
            // the body of the loops whose test it is
            let image = judge(&Fault::default(), bytes);
            let of = |image: &Image| {
                let own = |node: &&Node| node.tag == 7 && image.nodes[node.children[1]].place == place;
                let bodies = image.nodes.iter().filter(own).map(|node| &image.nodes[node.children[0]]);
                bodies.filter(|body| body.tag == 3).map(|body| body.place).collect::<Vec<_>>()
            };
            image.iter().flat_map(of).for_each(|body| put(&mut after, body + 3, &four(lowest, highest)));
        }
        "edits-above-entry-unwritten" if entry(edit).is_some_and(|entry| place > entry) => after = bytes.clone(),
        "edits-entry-written" => {
            after = bytes.clone();
            entry(edit).iter().for_each(|entry| put(&mut after, entry + 3, &four(lowest, highest)));
        }
        "edits-entry-cleared" if has_entry(edit) => put(&mut after, bytes.len() - 2, &[0, 0]),
        "edits-entry-renamed" if has_entry(edit) => put(&mut after, bytes.len() - 1, &[edit.node as u8]),
        "edits-one-byte-late" => {
            after = bytes.clone();
            put(&mut after, body + 1, &four(lowest, highest));
        }
        "edits-range-joined" => {
            let two = |at: usize| bytes[at] as u64 * 256 + bytes[at + 1] as u64;
            put(&mut after, body, &four(lowest.min(two(body)), highest.max(two(body + 2))));
        }
        "edits-next-written" => {
            if let Some(next) = plain().find(|&next| next > place) {
                after = bytes.clone();
                put(&mut after, next + 3, &four(lowest, highest));
            }
        }
        "edits-next-written-too" => {
            plain().filter(|&next| next > place).take(1).for_each(|next| put(&mut after, next + 3, &four(lowest, highest)))
        }
        "edits-first-written" => {
            after = bytes.clone();
            plain().take(1).for_each(|first| put(&mut after, first + 3, &four(lowest, highest)));
        }
        "edits-alike-written" => {
            let alike = |other: usize| bytes[other + 3..other + 7] == bytes[body..body + 4];
            plain().filter(|&other| alike(other)).for_each(|other| put(&mut after, other + 3, &four(lowest, highest)));
        }
        "edits-all-written" => plain().for_each(|other| put(&mut after, other + 3, &four(lowest, highest))),
        _ => {}
    }
    after
}

struct Figures {
    tight: u64,
    published: u64,
    exits: usize,
    times: Exits,
}

fn figures(fault: &Fault, image: &Image) -> Figures {
    // what is wrong with the figures of an image
    let within = match fault.0.as_str() {
        "edits-preview-last-test-lost" => "test-last-lost",
        "edits-preview-idle-test-lost" => "test-idle-lost",
        "edits-preview-test-once" => "test-once-first",
        "edits-preview-test-forgets" => "test-forgets",
        "edits-preview-cost-without-tests" => "published-without-tests",
        _ => "",
    };
    let within = Fault(within.to_string());
    let times = listed(&within, &from_starts(&within, image, &image.starts));
    let published = published(&within, image, &image.starts).0;
    Figures { tight: times.values().copied().max().unwrap_or(0), published, exits: times.len(), times }
}

/// The figures of the preview, or what the edited image is refused with, where a fault let durations through.
fn previewed(fault: &Fault, edit: &Edit) -> Result<Figures, (u64, usize)> {
    let none = Fault::default();
    let mut image = judge(&none, &edited(fault, edit))?;
    let before = judge(&none, &edit.bytes)?;
    let block = image.nodes.iter().position(|node| Some(node.place) == named(fault, edit).map(|named| named.0));
    let [old, new] =
        [&before, &image].map(|image| block.map_or((0, 0), |block| (image.nodes[block].low, image.nodes[block].high)));
    if let Some(block) = block.filter(|&block| image.nodes[block].tag == 3) {
        let node = &mut image.nodes[block];
        (node.low, node.high) = match fault.0.as_str() {
            "edits-preview-highest-only" => (new.1, new.1),
            "edits-preview-lowest-only" => (new.0, new.0),
            "edits-preview-lowest-kept" => (old.0.min(new.1), new.1),
            "edits-preview-joined" => (old.0.min(new.0), old.1.max(new.1)),
            "edits-preview-unedited" => old,
            "edits-preview-test-unedited" if is_test(edit, node.place) => old,
            "edits-preview-test-idle" if is_test(edit, node.place) => (0, 0),
            _ => new,
        };
    }
    if fault.is("edits-preview-of-first-stretch") {
        image = of_first_stretch(&image);
    }
    image.entry = match fault.0.as_str() {
        "edits-preview-of-last" => image.nodes.len() - 1,
        "edits-preview-of-block" if image.named.is_some() => block.unwrap_or(image.entry),
        _ => image.entry,
    };
    let mut new_figures = figures(fault, &image);
    let old_figures = figures(fault, &before);
    match fault.0.as_str() {
        "edits-preview-unedited-tight" => new_figures.tight = old_figures.tight,
        "edits-preview-unedited-published" => new_figures.published = old_figures.published,
        "edits-preview-unedited-exits" => new_figures.exits = old_figures.exits,
        "edits-preview-unedited-table" => new_figures.times = old_figures.times,
        "edits-preview-both-tables" => old_figures.times.into_iter().for_each(|(offset, time)| {
            let kept = new_figures.times.entry(offset).or_insert(time);
            *kept = time.max(*kept);
        }),
        "edits-preview-by-change" => new_figures.tight = (old_figures.tight + new.1).saturating_sub(old.1),
        "edits-preview-published-tight" => new_figures.published = new_figures.tight,
        _ => {}
    }
    Ok(new_figures)
}

fn answer(fault: &Fault, edit: &Edit) -> String {
    let refused = refusal(fault, edit, false);
    let after = written(fault, edit, refused.map(|refused| refused.0));
    let done = match fault.0.as_str() {
        "edits-period-answered" => [0, 0, period(fault, edit)],
        "edits-node-answered" => [0, edit.node, 0],
        "edits-durations-answered" => [0, edit.lowest, edit.highest],
        "edits-length-answered" => [0, 0, edit.bytes.len() as u64],
        "edits-done-is-1" => [1, 0, 0],
        _ => [0, 0, 0],
    };
    let answer = |refusal: Refusal| match fault.0.as_str() {
        "edits-status-0" => [0, refusal.0, refusal.1],
        "edits-status-2" => [2, refusal.0, refusal.1],
        "edits-status-of-number" => [refusal.0, refusal.0, refusal.1],
        "edits-answer-swapped" => [1, refusal.1, refusal.0],
        _ => [1, refusal.0, refusal.1],
    };
    let first = refused.map_or(done, |(_, refusal)| answer(refusal));
    let mut hexadecimal: String = after.iter().map(|byte| format!("{byte:02x}")).collect();
    if after.is_empty() {
        hexadecimal.push('-');
    }
    let second = match refusal(fault, edit, true) {
        Some((_, refusal)) => Err(answer(refusal)),
        None => previewed(fault, edit).map_err(|(number, place)| answer((number, place as u64))),
    };
    let preview = match second {
        Err([status, number, place]) => format!("{status} {number} {place}"),
        Ok(figures) => {
            let times = figures.times.iter().map(|(offset, time)| format!(" {offset}:{time}"));
            format!("0 {} {} {}{}", figures.tight, figures.published, figures.exits, times.collect::<String>())
        }
    };
    format!("edit {} {} {} {hexadecimal}; preview {preview}", first[0], first[1], first[2])
}
