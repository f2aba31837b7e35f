//! Edits written by hand, with what has to be answered: change request W10, sentence by sentence.

use crate::cases::{longest_block, longest_image, longest_schedule, two_slots};
use crate::edit_generate::{Edits, Expected};
use crate::editing::{is_plain, refused_line, Edit};
use crate::generate::{
    blank_nodes, branch, bus, bus_block, entry, fetch, field, hexadecimal, idle, looped, plain, schedule, sequence, starts,
    Random,
};
use crate::image::judge;
use Expected::{Begins, Line, Open};

const LARGEST: u64 = u64::MAX;
const BITS_16: u64 = 1 << 16;
const BITS_32: u64 = 1 << 32;

fn edit(image: &[u8], node: u64, (lowest, highest): (u64, u64), places: u64) -> Edit {
    Edit { image: image.to_vec(), node, lowest, highest, places }
}

/// An image with nodes of every kind: blocks in a sequence, in a branch, in a loop, as its test, shared, and one that is not reached.
fn every_kind() -> Vec<u8> {
    every_kind_on(bus(2, 5, 0))
}

fn every_kind_on(field_1: Vec<u8>) -> Vec<u8> {
    let nodes = [
        plain(1, 2),
        bus_block(2, 2, 2),
        plain(7, 7),
        sequence(&[0, 1, 2]),
        branch(&[0, 3]),
        looped(1, 3, 4, 2),
        plain(4, 4),
        fetch(0, 2, 2, 1),
        sequence(&[7, 5, 7, 2]),
    ];
    [field_1, starts(&[3, 5]), nodes.concat()].concat()
}

/// Edits that lead to the worked tasks of document 01, or whose figures follow at once.
pub fn worked(edits: &mut Edits) {
    let mut done =
        |from: (Vec<u8>, &[u8]), before: &[Vec<u8>], node: usize, durations: (u16, u16), times: (u64, u64, &[(u64, u64)])| {
            let opening = [from.0, starts(from.1)].concat();
            let mut after = before.to_vec();
            after[node] = plain(durations.0, durations.1);
            let image = [opening.clone(), before.concat()].concat();
            let (tight, published, exits) = times;
            let mut line = format!("edit 0 0 0 {}{}; preview ", hexadecimal(&opening), hexadecimal(&after.concat()));
            let short = format!("{line}1 10 {}", image.len());
            line += &format!("0 {tight} {published} {}", exits.len());
            exits.iter().for_each(|(offset, time)| line += &format!(" {offset}:{time}"));
            let period = judge(&image).expect("an image that is accepted").bus.period();
            for places in [0, 1, period - 1, period, period + 1, 256, 300] {
                let expected = if places < period { &short } else { &line };
                let durations = (u64::from(durations.0), u64::from(durations.1));
                edits.add("worked edits", edit(&image, node as u64, durations, places), Line(expected.clone()));
            }
        };
    let small = || bus(2, 5, 0);
    // "Branch of plain 3 and plain 7 from {9}: exits 2 after 3, 6 after 7."
    let arms = |first, second| [plain(first, first), plain(second, second), branch(&[0, 1])];
    done((small(), &[9]), &arms(1, 7), 0, (3, 3), (7, 7, &[(2, 3), (6, 7)]));
    done((small(), &[9]), &arms(3, 9), 1, (7, 7), (7, 7, &[(2, 3), (6, 7)]));
    // to the same durations
    done((small(), &[9]), &arms(3, 7), 1, (7, 7), (7, 7, &[(2, 3), (6, 7)]));
    // the other arm has the same bytes and keeps them
    done((small(), &[9]), &arms(7, 7), 0, (3, 3), (7, 7, &[(2, 3), (6, 7)]));
    done((small(), &[9]), &arms(3, 3), 1, (7, 7), (7, 7, &[(2, 3), (6, 7)]));
    // "Plain 0 to 10 from {0}: exit 0 after 10, exits 1 to 9 after 1 to 9."
    let exits: Vec<(u64, u64)> = (0..10).map(|offset| (offset, if offset == 0 { 10 } else { offset })).collect();
    done((small(), &[0]), &[plain(5, 5)], 0, (0, 10), (10, 10, &exits));
    done((small(), &[0]), &[plain(65_535, 65_535)], 0, (0, 10), (10, 10, &exits));
    done((small(), &[0]), &[plain(0, 63)], 0, (5, 5), (5, 5, &[(5, 5)]));
    // no cycles, and most
    done((small(), &[4]), &[plain(5, 9)], 0, (0, 0), (0, 0, &[(4, 0)]));
    done((small(), &[0]), &[plain(5, 9)], 0, (65_535, 65_535), (65_535, 65_535, &[(5, 65_535)]));
    done((bus(16, 16, 0), &[255]), &[plain(5, 9)], 0, (1, 1), (1, 1, &[(0, 1)]));
    let exits: Vec<(u64, u64)> = (0..64).map(|later| (192 + later, 65_472 + later)).collect();
    done((bus(16, 16, 0), &[0]), &[plain(1, 1)], 0, (65_472, 65_535), (65_535, 65_535, &exits));
    // "A2 twice from {3, 5}" with a block of no cycles between, from one of 1
    let between = [bus_block(2, 2, 2), plain(1, 1), sequence(&[0, 1, 0])];
    done((small(), &[3, 5]), &between, 1, (0, 0), (9, 14, &[(2, 9), (4, 9)]));
    // a block of line 0, duration 2, hit time 1, twice from {0}: with 3 cycles between it ends at 2 after 2, then 5 after 5, then a hit.
    // Published: costs 2, ends at {1, 2}; 3; {4, 5} costs 8. With 4 cycles before it: 2 after 12, then a hit. Published: 4, 8, and from
    // {2, 5} 7.
    let around = |before: u16| [fetch(0, 2, 2, 1), plain(before, before), sequence(&[0, 1, 0])];
    done((small(), &[0]), &around(1), 1, (3, 3), (6, 13, &[(6, 6)]));
    let before = [plain(1, 1), fetch(0, 2, 2, 1), sequence(&[0, 1, 1])];
    done((small(), &[0]), &before, 0, (4, 4), (13, 19, &[(3, 13)]));
    // slots of unequal length: core 0 owns 0 to 2, and 5 and 6 of ten. A2 and then 1 cycle, from {5, 6}, as in the worked schedules, with
    // a block of no cycles between, from one of 1; 4 cycles, and an access of 3 that passes a short stretch over: 3 after 4 + 6 + 3; 0 or
    // 1 cycle before it: 3 after 3 and after 1 + 9 + 3
    let between = [bus_block(2, 2, 2), plain(1, 1), bus_block(2, 1, 1), sequence(&[0, 1, 2])];
    done((two_slots(0), &[5, 6]), &between, 1, (0, 0), (7, 10, &[(1, 6), (3, 7)]));
    let three = [plain(1, 1), bus_block(2, 3, 3), sequence(&[0, 1])];
    done((two_slots(0), &[0]), &three, 0, (4, 4), (13, 13, &[(3, 13)]));
    done((two_slots(0), &[0]), &three, 0, (0, 1), (13, 13, &[(3, 13)]));
    // fetched once, 2 cycles and a hit of 1, twice from {6} with 3 cycles between: 2 after 6, 5 after 9, 6 after 10. Published: 6, ends
    // at {2, 7}; 3; from {5, 0} an access of 2 without a wait.
    done((two_slots(0), &[6]), &around(1), 1, (3, 3), (10, 11, &[(6, 10)]));
    // round the period: from 9 on core 0 owns 3 cycles
    let round = schedule(0, &[(0, 2), (1, 5), (0, 3)]);
    done((round, &[5]), &three, 0, (4, 4), (7, 7, &[(2, 7)]));
    // a lone core: P = 1, and P = 256, where 2 cycles and 255 lead from 255 to 0
    done((schedule(0, &[(0, 1)]), &[0]), &[plain(5, 5)], 0, (0, 63), (63, 63, &[(0, 63)]));
    let lone = [plain(1, 1), bus_block(2, 255, 255), sequence(&[0, 1])];
    done((schedule(3, &[(3, 128), (3, 128)]), &[255]), &lone, 0, (2, 2), (257, 257, &[(0, 257)]));
    // a block in a loop, which counts each time; in one that may not execute it; in one that does not
    let with_idle = |least, greatest| [plain(1, 1), idle(), looped(least, greatest, 0, 1)];
    done((small(), &[0]), &with_idle(1, 3), 0, (3, 3), (9, 9, &[(3, 3), (6, 6), (9, 9)]));
    done((small(), &[0]), &with_idle(0, 1), 0, (3, 3), (3, 3, &[(0, 0), (3, 3)]));
    done((small(), &[4]), &with_idle(0, 0), 0, (3, 3), (0, 0, &[(4, 0)]));
    // the test of the same loops, from 0 to 2 cycles: it counts once more than the body of 1 cycle, and alone where there is no iteration
    done((small(), &[0]), &with_idle(1, 3), 1, (2, 2), (11, 11, &[(1, 11), (5, 5), (8, 8)]));
    done((small(), &[0]), &with_idle(0, 1), 1, (2, 2), (5, 5, &[(2, 2), (5, 5)]));
    done((small(), &[4]), &with_idle(0, 0), 1, (2, 2), (2, 2, &[(6, 2)]));
    // from one duration to two, 0 or 1, around plain 1: 0 or 1; 1 to 3
    done((small(), &[0]), &with_idle(0, 0), 1, (0, 1), (1, 1, &[(0, 0), (1, 1)]));
    done((small(), &[0]), &with_idle(1, 1), 1, (0, 1), (3, 3, &[(1, 1), (2, 2), (3, 3)]));
    // "Loop over A2, counts 1 to 3, from {4}: 2 after 18, 4 after 10; both figures 18.": the test becomes one of no cycles
    done((small(), &[4]), &[bus_block(2, 2, 2), plain(7, 9), looped(1, 3, 0, 1)], 1, (0, 0), (18, 18, &[(2, 18), (4, 10)]));
    // A2 as test around a block that is edited to 1 cycle, from {4}, as in the worked tests
    let around = [bus_block(2, 2, 2), plain(60, 63), looped(0, 2, 1, 0)];
    done((small(), &[4]), &around, 1, (1, 1), (18, 18, &[(2, 18), (5, 11)]));
    // a block that is body and test: once, 3 and 5 times 3 cycles
    done((small(), &[0]), &[plain(1, 1), looped(0, 2, 0, 0)], 0, (3, 3), (15, 15, &[(3, 3), (5, 15), (9, 9)]));
    // the test of two loops, one in the other: 2 × (2 × 1 + 3 × t) + 3 × t, with t = 4; one that is a child of a sequence too: 4 + 1 + 4 + 4
    let two = [plain(1, 1), plain(9, 9), looped(2, 2, 0, 1), looped(2, 2, 2, 1)];
    done((small(), &[0]), &two, 1, (4, 4), (40, 40, &[(0, 40)]));
    let shared = [plain(1, 1), plain(9, 9), looped(1, 1, 0, 1), sequence(&[2, 1])];
    done((small(), &[0]), &shared, 1, (4, 4), (13, 13, &[(3, 13)]));
    // in a test that is a branch of it and plain 1, of a loop of no iterations; in one that is a loop over it, twice, around plain 1
    let branched = [plain(1, 1), plain(9, 9), branch(&[0, 1]), looped(0, 0, 0, 2)];
    done((small(), &[0]), &branched, 1, (4, 4), (4, 4, &[(1, 1), (4, 4)]));
    let in_loop = [plain(1, 1), plain(9, 9), idle(), looped(2, 2, 1, 2), looped(1, 1, 0, 3)];
    done((small(), &[0]), &in_loop, 1, (4, 4), (17, 17, &[(7, 17)]));
    // before a test that fetches a line of 2 cycles, with a hit of 1, around plain 3, from {4}: by 10 cycles it comes to the same offset
    let fetched = [fetch(0, 2, 2, 1), plain(3, 3), looped(0, 2, 1, 0), plain(1, 1), sequence(&[3, 2])];
    done((small(), &[4]), &fetched, 3, (10, 10), (26, 38, &[(0, 26), (2, 18), (6, 22)]));
    // the test of a loop that is not reached, and of one whose body is a loop of no iterations; with slots of unequal length: 4 cycles,
    // then an access of 3: 3 after 13, 7 after 17
    done((small(), &[0]), &[plain(1, 1), plain(9, 9), looped(2, 2, 0, 1), plain(5, 5)], 1, (4, 4), (5, 5, &[(5, 5)]));
    done((small(), &[0]), &[plain(1, 1), plain(9, 9), looped(0, 0, 0, 1), looped(1, 1, 2, 0)], 1, (4, 4), (6, 6, &[(6, 6)]));
    let accessed = [plain(1, 1), bus_block(2, 3, 3), looped(1, 1, 1, 0)];
    done((two_slots(0), &[0]), &accessed, 0, (4, 4), (17, 17, &[(7, 17)]));
    // a block that is shared, and blocks that are not reached: before the entry only
    done((small(), &[0]), &[plain(1, 1), sequence(&[0, 0, 0])], 0, (11, 11), (33, 33, &[(3, 33)]));
    done((small(), &[0]), &[plain(1, 1), plain(2, 2)], 0, (9, 9), (2, 2, &[(2, 2)]));
    done((small(), &[0]), &[plain(1, 1), plain(2, 2)], 1, (9, 9), (9, 9, &[(9, 9)]));
    // the entry named. Node 2 executes node 1 twice, nodes 0, 1, 3 and 5 are plain; each is edited to 9: one that the entry reaches, the
    // entry itself, and blocks that it does not reach, below it and above
    let blocks = [plain(1, 1), plain(2, 2), sequence(&[1, 1]), plain(4, 4), sequence(&[2, 3]), plain(5, 5)];
    let named = |number: u16| [&blocks[..], &[entry(number)]].concat();
    for (number, times) in [(2, [4, 18, 4, 4]), (0, [9, 1, 1, 1]), (3, [4, 4, 9, 4]), (4, [8, 22, 13, 8]), (5, [5, 5, 5, 9])] {
        for (node, time) in [0, 1, 3, 5].into_iter().zip(times) {
            done((small(), &[0]), &named(number), node, (9, 9), (time, time, &[(time % 10, time)]));
        }
    }
    // a node above the entry that is too deep or too long for one
    let long = [plain(1, 1), idle(), looped(10_000, 10_000, 0, 1), looped(5, 5, 2, 1), plain(7, 7), entry(2)];
    done((small(), &[0]), &long, 0, (2, 2), (20_000, 20_000, &[(0, 20_000)]));
    done((small(), &[0]), &long, 1, (2, 2), (30_002, 30_002, &[(2, 30_002)]));
    done((small(), &[0]), &long, 4, (2, 2), (10_000, 10_000, &[(0, 10_000)]));
    // a line above the entry, 64 × 16 = 1,024, and slots of unequal length: 4 cycles, and an access of 3: 3 after 4 + 6 + 3
    done((bus(4, 16, 0), &[0]), &[plain(1, 1), fetch(3, 2, 2, 1), sequence(&[0, 1]), entry(0)], 0, (9, 9), (9, 9, &[(9, 9)]));
    let three_of = [plain(1, 1), bus_block(2, 3, 3), sequence(&[0, 1]), looped(9, 9, 2, 0), plain(0, 63), entry(2)];
    done((two_slots(0), &[0]), &three_of, 0, (4, 4), (13, 13, &[(3, 13)]));
    // times above 32 bits: 99,994 times, as bodies and as tests
    let long = [plain(1, 1), looped(10_000, 10_000, 0, 0), looped(9_994, 9_994, 0, 0), sequence(&[1, 1, 1, 1, 2, 0])];
    done((small(), &[0]), &long, 0, (65_535, 65_535), (6_553_106_790, 6_553_106_790, &[(0, 6_553_106_790)]));
}

/// Durations on both sides of every rule, with all that a narrower number would lose.
fn durations() -> Vec<(u64, u64)> {
    let mut all = Vec::new();
    for lowest in [0, 1, 193, 255, 256, 65_471, 65_472, 65_473, 65_535] {
        all.extend([0, 1, 63, 64, 256].map(|difference| (lowest, lowest + difference)));
    }
    // lowest above highest, by little and by much
    all.extend([(1, 0), (8, 7), (63, 0), (64, 0), (256, 0), (300, 45), (65_535, 0), (65_535, 65_534)]);
    // both, or one, above 65,535: with the rest of 16 or 32 bits good
    for above in [BITS_16, 2 * BITS_16, BITS_32, BITS_32 + BITS_16, 1 << 63] {
        all.extend([(above, above), (above + 5, above + 7), (5, above + 7), (above + 5, 7), (0, above), (above, 0)]);
    }
    // differences that come round: highest - lowest is 16, 0 and 63 in 64 bits
    all.extend([(LARGEST - 10, 5), (LARGEST, LARGEST), (LARGEST - 62, 0), (LARGEST - 63, LARGEST), (0, LARGEST), (LARGEST, 0)]);
    all.extend([(65_535 - 63, LARGEST), (LARGEST, 65_535)]);
    all
}

/// Numbers that may name a node: every one of the image, those behind, and what a narrower number would make of them.
fn nodes(count: u64) -> Vec<u64> {
    let mut all: Vec<u64> = (0..count + 2).collect();
    for above in [256, BITS_16, BITS_32, 1 << 63] {
        all.extend([above, above + 2, above + count - 1]);
    }
    all.extend([254, 255, LARGEST, LARGEST - 1]);
    all
}

/// Every plain block with every durations and every kind of table; of other numbers of nodes every one, with some durations.
pub fn grid(edits: &mut Edits) {
    let all: Vec<u8> = (0..=255).collect();
    let images = [
        every_kind(),
        [bus(16, 16, 5), starts(&all), plain(3, 3)].concat(),
        [bus(2, 1, 1), starts(&[0, 1]), bus_block(1, 1, 1), plain(0, 1), branch(&[0, 1]), looped(0, 2, 2, 1)].concat(),
        [bus(3, 85, 0), starts(&[254]), bus_block(2, 1, 4), sequence(&[0, 0]), plain(9, 9)].concat(),
        [bus(2, 5, 1), starts(&[0]), bus_block(2, 1, 4), sequence(&[0, 0])].concat(),
        [bus(2, 128, 0), starts(&[0]), plain(1, 1), plain(1, 1), plain(1, 1), sequence(&[2, 0, 2])].concat(),
        [bus(4, 16, 3), starts(&[5, 63]), fetch(3, 1, 2, 9), plain(1, 1), fetch(0, 3, 3, 1), sequence(&[0, 1, 2, 0])].concat(),
        [two_slots(1), starts(&[3, 9]), fetch(3, 1, 3, 9), bus_block(1, 3, 3), plain(1, 1), sequence(&[0, 2, 1, 0])].concat(),
        [schedule(0, &[(0, 1)]), starts(&[0]), plain(1, 1), bus_block(2, 1, 1), branch(&[0, 1])].concat(),
        [longest_schedule(), starts(&all), plain(3, 3), bus_block(2, 12, 12)].concat(),
        // the entry named: below, between and above plain blocks, and one itself
        [every_kind(), entry(5)].concat(),
        [bus(2, 3, 1), starts(&[2, 5]), bus_block(1, 2, 3), plain(0, 1), looped(0, 3, 0, 1), entry(0)].concat(),
        [two_slots(0), starts(&[6]), plain(0, 1), plain(2, 2), sequence(&[0, 1]), entry(1)].concat(),
    ];
    for image in &images {
        let task = judge(image).expect("an image that is accepted");
        let period = task.bus.period();
        for node in nodes(task.nodes.len() as u64) {
            let with = if is_plain(&task, node) { durations() } else { vec![(0, 0), (3, 4), (4, 3), (0, 64), (0, LARGEST)] };
            for durations in with {
                for places in [0, period - 1, period, period + 1, 256, 300] {
                    edits.add("nodes and durations", edit(image, node, durations, places), Open);
                }
            }
        }
    }
}

/// Images that are not accepted, by number.
fn broken() -> Vec<(u64, Vec<u8>)> {
    let good = every_kind();
    let opening = || [bus(2, 5, 0), starts(&[3, 5])].concat();
    let with = |more: Vec<u8>| [good.clone(), more].concat();
    let tower = |levels: u16| -> Vec<u8> { (0..levels).flat_map(|below| sequence(&[below])).collect() };
    // a period of 256 and three lines
    let wide = || [bus(16, 16, 0), starts(&[0]), fetch(2, 1, 1, 1)].concat();
    let mut bad_first = good.clone();
    bad_first[14..18].copy_from_slice(&[0, 2, 0, 1]);
    let mut wide_first = good.clone();
    wide_first[14..18].copy_from_slice(&[0, 0, 0, 64]);
    vec![
        (1, with(vec![3])),
        (1, with(vec![3, 0])),
        (1, good[..good.len() - 1].to_vec()),
        (1, good[..17].to_vec()),
        (2, with(field(9, &[]))),
        (2, with(bus(2, 5, 0))),
        (2, good[6..].to_vec()),
        (2, [bus(2, 5, 0), plain(1, 1)].concat()),
        (3, [opening(), blank_nodes(257)].concat()),
        (4, with(field(3, &[0, 1, 0]))),
        (4, [opening(), field(3, &[0, 1, 0, 1, 0])].concat()),
        (4, with(field(10, &[0, 1, 1, 0]))),
        (5, with(fetch(4, 1, 1, 1))),
        (5, with(plain(1, 0))),
        (5, [bus(1, 5, 0), starts(&[3]), plain(1, 1)].concat()),
        // the block that is named is itself the one at fault: refused first, though the edit would mend it
        (5, bad_first),
        (5, wide_first),
        (6, with(sequence(&[9]))),
        (6, [opening(), plain(1, 1), looped(1, 2, 1, 0)].concat()),
        (7, Vec::new()),
        (7, bus(2, 5, 0)),
        (7, opening()),
        (8, [opening(), plain(1, 1), tower(24)].concat()),
        (9, [opening(), plain(1, 1), looped(1, 10_000, 0, 0), looped(1, 5, 1, 0)].concat()),
        (8, [wide(), tower(24)].concat()),
        (9, [wide(), looped(1, 10_000, 0, 0), looped(1, 5, 1, 0)].concat()),
        (18, wide()),
        (18, [wide(), tower(23)].concat()),
        (18, [wide(), looped(1, 10_000, 0, 0), looped(1, 4, 1, 0)].concat()),
        (18, [wide(), plain(1, 1), plain(2, 2), sequence(&[1, 0, 2])].concat()),
        (18, [bus(2, 128, 1), starts(&[0]), plain(1, 1), fetch(3, 1, 1, 1), sequence(&[1, 0])].concat()),
        (18, [bus(5, 13, 2), starts(&[0]), plain(1, 1), fetch(3, 1, 1, 1), plain(1, 1)].concat()),
        (18, [bus(2, 64, 0), starts(&[0]), plain(1, 1), plain(2, 2), fetch(3, 1, 1, 1), sequence(&[2, 0, 1])].concat()),
        // loops: of 6, 7 and 9 bytes; cut; a greatest below the least; a test that is not below; one that is too deep or too long
        (4, [opening(), plain(1, 1), field(7, &[0, 1, 0, 2, 0, 0])].concat()),
        (4, [opening(), plain(1, 1), plain(1, 1), field(7, &[0, 1, 0, 2, 0, 0, 0])].concat()),
        (4, [opening(), plain(1, 1), plain(1, 1), field(7, &[0, 1, 0, 2, 0, 0, 0, 1, 0])].concat()),
        (1, [opening(), plain(1, 1), looped(1, 2, 0, 0)[..9].to_vec()].concat()),
        (5, [opening(), plain(1, 1), looped(2, 1, 0, 1)].concat()),
        (6, [opening(), plain(1, 1), looped(1, 2, 0, 1)].concat()),
        (6, [opening(), plain(1, 1), looped(0, 0, 0, 256), plain(1, 1)].concat()),
        (8, [opening(), plain(1, 1), tower(23), looped(0, 0, 0, 23)].concat()),
        (9, [opening(), plain(1, 1), looped(1, 10_000, 0, 0), looped(2, 2, 0, 1), looped(1, 1, 0, 2)].concat()),
        // with tag 8: an entry that is not a node; cut; before the nodes; of a wrong length; followed by bytes, a field or another; a node
        // above the entry that is refused; a named one that is too deep or too long, and a line above it that is too many
        (11, with(entry(9))),
        (11, with(entry(256))),
        (11, with(entry(65_535))),
        (11, [opening(), blank_nodes(256), entry(256)].concat()),
        (11, [wide(), tower(24), entry(25)].concat()),
        (1, with(vec![8])),
        (1, with(vec![8, 0, 2])),
        (1, with(vec![8, 0, 2, 0])),
        (1, with([entry(0), vec![3, 0]].concat())),
        (2, [opening(), entry(0), plain(1, 1)].concat()),
        (2, with([entry(0), plain(1, 1)].concat())),
        (2, with([entry(0), entry(0)].concat())),
        (4, with(field(8, &[0]))),
        (4, with(field(8, &[0, 0, 0]))),
        (5, with([plain(1, 0), entry(0)].concat())),
        (6, with([sequence(&[9]), entry(0)].concat())),
        (3, [opening(), blank_nodes(257), entry(0)].concat()),
        (8, [opening(), plain(1, 1), tower(24), plain(1, 1), entry(24)].concat()),
        (9, [opening(), plain(1, 1), looped(1, 10_000, 0, 0), looped(1, 5, 1, 0), plain(1, 1), entry(2)].concat()),
        (18, [bus(16, 16, 0), starts(&[0]), plain(1, 1), fetch(2, 1, 1, 1), entry(0)].concat()),
        // with tag 9: a field 1 that is cut, stands behind another, has a wrong length, core, slot or sum, or no slot for the analysed
        // core; a duration above the longest stretch; no node; a period of 65 and four lines
        (1, two_slots(0)[..11].to_vec()),
        (2, with(two_slots(0))),
        (2, [two_slots(0), two_slots(1), plain(1, 1)].concat()),
        (4, [field(9, &[0, 0, 5, 1]), starts(&[0]), plain(1, 1)].concat()),
        (5, every_kind_on(schedule(0, &[(0, 5), (16, 5)]))),
        (5, every_kind_on(schedule(0, &[(0, 5), (1, 129)]))),
        (5, every_kind_on(schedule(0, &[(0, 128), (1, 128), (0, 1)]))),
        (5, every_kind_on(schedule(2, &[(0, 5), (1, 5)]))),
        (5, every_kind_on(schedule(0, &[(0, 1), (1, 5), (0, 1), (1, 3)]))),
        (7, two_slots(0)),
        (18, [schedule(0, &[(0, 60), (1, 5)]), starts(&[0]), plain(1, 1), fetch(3, 1, 1, 1), sequence(&[1, 0])].concat()),
    ]
}

/// Several refusals hold; the order decides: the image's own number, 19, 5, and 10 in the preview.
pub fn order(edits: &mut Edits) {
    let bad = [(1, 0), (0, 64), (65_535, 65_536), (LARGEST, LARGEST), (BITS_16 + 1, BITS_16 + 2), (LARGEST - 10, 5)];
    let absent = [9, 10, 255, 256, BITS_16, BITS_32, LARGEST];
    // 11 at its field
    let place = every_kind().len() as u64;
    for (number, node) in [9, 10, 256, 65_535].into_iter().flat_map(|number| [0, 1, 9].map(|node| (number, node))) {
        let image = [every_kind(), entry(number)].concat();
        edits.add("order of refusals", edit(&image, node, (1, 2), 10), Line(refused_line(&image, 11, place)));
        edits.add("order of refusals", edit(&image, node, (2, 1), 0), Line(refused_line(&image, 11, place)));
    }
    for (number, image) in broken() {
        for node in [0, 1, 2, 7, 8, 9, 256, LARGEST] {
            for durations in [(1, 2), (1, 0), (0, 64), (5, 65_536), (LARGEST, LARGEST)] {
                for places in [0, 9, 10, 300] {
                    edits.add("order of refusals", edit(&image, node, durations, places), Begins(format!("edit 1 {number} ")));
                }
            }
        }
    }
    // where the fields of the plain blocks stand: the first at 11, the second after 7 and 6 bytes more, the third after 7, 9, 7 and 11;
    // behind a field 1 of 12 bytes all 6 bytes further on; behind them tag 8, or not
    let closed = |number: u16| [every_kind(), entry(number)].concat();
    let images = [(every_kind(), 0), (every_kind_on(two_slots(0)), 6), (closed(8), 0), (closed(4), 0), (closed(0), 0)];
    for (image, further) in images {
        let length = image.len() as u64;
        for (node, place) in [(0, 11 + further), (2, 24 + further), (6, 58 + further)] {
            for places in [0, 9, 10, 300] {
                for durations in bad {
                    edits.add("order of refusals", edit(&image, node, durations, places), Line(refused_line(&image, 5, place)));
                }
            }
        }
        for node in [1, 3, 4, 5, 7, 8].into_iter().chain(absent) {
            for places in [0, 9, 10, 300] {
                for durations in bad.into_iter().chain([(1, 2)]) {
                    edits.add("order of refusals", edit(&image, node, durations, places), Line(refused_line(&image, 19, length)));
                }
            }
        }
    }
}

/// Images of 256 nodes, and the longest that are accepted: with tags 8 and 9 and a block of tag 10, 9,265 bytes, and with a plain one,
/// 9,264; without tag 8 5 less; with tag 1 9,198 and 9,197.
pub fn largest(edits: &mut Edits, random: &mut Random) {
    let opening = [bus(3, 4, 1), starts(&[0, 11])].concat();
    let blocks: Vec<u8> = (0..255).flat_map(|own| plain(own, own + own % 5)).collect();
    let last = sequence(&[254, 253, 128, 127, 1, 0, 0, 254, 100]);
    let mixed: Vec<u8> =
        (0..255u16).flat_map(|own| if own % 3 == 1 { bus_block(1, 1, 3) } else { plain(own, own + 3) }).collect();
    let images = [
        [opening.clone(), blocks.clone(), last.clone()].concat(),
        [opening.clone(), blocks.clone(), plain(255, 256)].concat(),
        [opening.clone(), mixed, last.clone()].concat(),
        [opening.clone(), blank_nodes(256)].concat(),
        // the same with tag 8: an entry in the middle, and 255
        [opening.clone(), blocks.clone(), last.clone(), entry(127)].concat(),
        [opening, blocks, last, entry(255)].concat(),
    ];
    for (which, image) in images.iter().enumerate() {
        let named: Vec<u64> = if which >= 3 { vec![0, 1, 127, 128, 253, 254, 255, 256, 257, 511] } else { (0..260).collect() };
        for node in named {
            let lowest = random.below(300);
            let places = *random.one_of(&[11, 12, 256, 300]);
            edits.add("256 nodes", edit(image, node, (lowest, lowest + random.below(9)), places), Open);
        }
        for node in [0, 1, 127, 128, 129, 254, 255] {
            for (durations, places) in [((0, 0), 12), ((7, 9), 12), ((7, 70), 256), ((7, 71), 12), ((9, 7), 0), ((300, 301), 11)]
            {
                edits.add("256 nodes", edit(image, node, durations, places), Open);
            }
        }
        for node in [256 + 255, BITS_16 + 255, BITS_32 + 254, LARGEST] {
            edits.add("256 nodes", edit(image, node, (2, 3), 12), Line(refused_line(image, 19, image.len() as u64)));
        }
        // 7 bytes each before it, but in the third image 6 where the number is 1, 4, 7 ..
        for node in [0, 252] {
            let place = 11 + 7 * node - if which == 2 { node / 3 } else { 0 };
            edits.add("256 nodes", edit(image, node, (3, 2), 0), Line(refused_line(image, 5, place)));
        }
    }
    for (field_1, block, tag_8) in [
        (longest_schedule(), plain(1, 3), Vec::new()),
        (longest_schedule(), longest_block(), Vec::new()),
        (bus(16, 16, 5), plain(1, 3), Vec::new()),
        (bus(16, 16, 5), longest_block(), Vec::new()),
        (longest_schedule(), plain(1, 3), entry(1)),
        (longest_schedule(), longest_block(), entry(255)),
    ] {
        let is_plain = block == plain(1, 3);
        // the length of the last field, and what a field behind it gives
        let (last, behind) = if tag_8.is_empty() { (35, 3) } else { (5, 2) };
        let longest = [longest_image(field_1, block, 254), tag_8].concat();
        let length = longest.len() as u64;
        let cut = longest[..longest.len() - 1].to_vec();
        let more = [longest.clone(), plain(1, 1)].concat();
        for node in [0, 1, 254, 255, 256, LARGEST] {
            for durations in [(0, 0), (1, 3), (0, 63), (65_535, 65_535), (0, 64)] {
                for places in [255, 256] {
                    let expected = if is_plain { Open } else { Line(refused_line(&longest, 19, length)) };
                    edits.add("longest image", edit(&longest, node, durations, places), expected);
                }
            }
            // the last field, and the field behind it
            edits.add("longest image", edit(&cut, node, (1, 2), 256), Begins(format!("edit 1 1 {} ", length - last)));
            edits.add("longest image", edit(&more, node, (1, 2), 256), Begins(format!("edit 1 {behind} {length} ")));
        }
    }
}
