//! Images written by hand: the worked tasks, both sides of every limit, and inputs where more than one refusal holds.

use crate::generate::{
    blank_nodes, branch, bus, bus_block, entry, fetch, field, idle, looped, plain, schedule, sequence, starts, Cases, Expected,
};
use crate::image::bus_of;
use Expected::{Accepted, Open, Refused};

/// Cores 2, slot 5, core 0, as in "Worked tasks".
fn small_bus() -> Vec<u8> {
    bus(2, 5, 0)
}

/// A2: an always-access block of duration 2.
fn a2() -> Vec<u8> {
    bus_block(2, 2, 2)
}

fn either(good: bool, number: u64) -> Expected {
    if good {
        Accepted
    } else {
        Refused(number)
    }
}

/// What `figure` writes: the tight and the published figure, and the exit offsets with their times.
fn listing(figures: (u64, u64), exits: &[(u64, u64)]) -> Expected {
    let mut text = format!("tight {}\npublished {}\nexits {}\n", figures.0, figures.1, exits.len());
    for (offset, time) in exits {
        text += &format!("{offset} {time}\n");
    }
    Expected::Text(text)
}

fn line(text: &str) -> Expected {
    Expected::Text(format!("{text}\n"))
}

/// One node over another, `levels` high, on this one.
fn tower(first: Vec<u8>, levels: u16, level: &dyn Fn(u16) -> Vec<u8>) -> Vec<Vec<u8>> {
    let mut nodes = vec![first];
    nodes.extend((0..levels).map(level));
    nodes
}

/// "Worked tasks", with what `figure` writes for them. Where document 01 gives times only, the figures follow from these.
pub fn worked(cases: &mut Cases) {
    let mut task = |bus: Vec<u8>, from: &[u8], nodes: &[Vec<u8>], figures: (u64, u64), exits: &[(u64, u64)]| {
        cases.add("worked", [bus, starts(from), nodes.concat()].concat(), listing(figures, exits));
    };
    // "Waits, e = 2: offset 3 gives 0, offset 4 gives 6."
    task(small_bus(), &[3], &[a2()], (2, 2), &[(5, 2)]);
    task(small_bus(), &[4], &[a2()], (8, 8), &[(2, 8)]);
    // "Core 1, e = 2: offsets 4, 5, 8, 9 give 1, 0, 0, 6."
    task(bus(2, 5, 1), &[4], &[a2()], (3, 3), &[(7, 3)]);
    task(bus(2, 5, 1), &[5], &[a2()], (2, 2), &[(7, 2)]);
    task(bus(2, 5, 1), &[8], &[a2()], (2, 2), &[(0, 2)]);
    task(bus(2, 5, 1), &[9], &[a2()], (8, 8), &[(7, 8)]);
    // "e = 5: offset 0 gives 0, offset 1 gives 9."
    task(small_bus(), &[0], &[bus_block(2, 5, 5)], (5, 5), &[(5, 5)]);
    task(small_bus(), &[1], &[bus_block(2, 5, 5)], (14, 14), &[(5, 14)]);
    // "A2 from {3, 5}: exits 5 after 2 and 2 after 7"
    task(small_bus(), &[3, 5], &[a2()], (7, 7), &[(2, 7), (5, 2)]);
    // "A2 from all ten offsets: exits 2, 3, 4, 5."
    let all_ten: Vec<u8> = (0..10).collect();
    task(small_bus(), &all_ten, &[a2()], (8, 8), &[(2, 8), (3, 2), (4, 2), (5, 2)]);
    // "May access, duration 2, from {4}: exits 6 after 2, 2 after 8."
    task(small_bus(), &[4], &[bus_block(1, 2, 2)], (8, 8), &[(2, 8), (6, 2)]);
    // "Branch of plain 3 and plain 7 from {9}: exits 2 after 3, 6 after 7."
    task(small_bus(), &[9], &[plain(3, 3), plain(7, 7), branch(&[0, 1])], (7, 7), &[(2, 3), (6, 7)]);
    // "Plain 0 to 10 from {0}: exit 0 after 10, exits 1 to 9 after 1 to 9."
    let mut exits = vec![(0, 10)];
    exits.extend((1..10).map(|o| (o, o)));
    task(small_bus(), &[0], &[plain(0, 10)], (10, 10), &exits);
    // "Loop over A2, counts 1 to 3, from {4}: 2 after 18, 4 after 10; both figures 18." "The loop tasks of document 01 hold with a plain
    // block of duration 0 as test".
    task(small_bus(), &[4], &[a2(), idle(), looped(1, 3, 0, 1)], (18, 18), &[(2, 18), (4, 10)]);
    // "Loop, counts 0 to 0, from {4}: exit 4, both figures 0."
    task(small_bus(), &[4], &[a2(), idle(), looped(0, 0, 0, 1)], (0, 0), &[(4, 0)]);
    // "A2 twice from {3, 5}"
    task(small_bus(), &[3, 5], &[a2(), sequence(&[0, 0])], (9, 14), &[(2, 9), (4, 9)]);
    // the longest time of an image with 100,000 visits: 4 × 20,001 + 19,989 + 1 = 99,994 plain blocks of 65,535, as bodies and as tests
    let longest =
        [plain(65_535, 65_535), looped(10_000, 10_000, 0, 0), looped(9_994, 9_994, 0, 0), sequence(&[1, 1, 1, 1, 2, 0])];
    task(small_bus(), &[0], &longest, (6_553_106_790, 6_553_106_790), &[(0, 6_553_106_790)]);

    // the same five lines from the bytes as printed
    let printed = [1, 0, 3, 2, 5, 0, 2, 0, 2, 3, 5, 4, 0, 3, 2, 2, 2, 5, 0, 4, 0, 0, 0, 0];
    let built = [small_bus(), starts(&[3, 5]), a2(), sequence(&[0, 0])].concat();
    assert!(built == printed, "the builders give the printed bytes");

    let from_zero = |first: Vec<u8>, nodes: &[Vec<u8>]| [first, starts(&[0]), nodes.concat()].concat();
    // "16 cores × slot 16 is accepted, 16 × 17 gives 5; difference 63 is accepted, 64 gives 5."
    cases.add("worked", from_zero(bus(16, 16, 0), &[plain(0, 63)]), Accepted);
    cases.add("worked", from_zero(bus(16, 17, 0), &[plain(0, 63)]), line("refused 5 0"));
    cases.add("worked", from_zero(small_bus(), &[plain(7, 70)]), Accepted);
    cases.add("worked", from_zero(small_bus(), &[plain(7, 71)]), line("refused 5 10"));
    // "A block under 23 nested one-child sequences is accepted, under 24 gives 8."
    let nested = |levels: u16| from_zero(small_bus(), &tower(a2(), levels, &|below| sequence(&[below])));
    cases.add("worked", nested(23), line("tight 2\npublished 2\nexits 1\n2 2"));
    cases.add("worked", nested(24), line(&format!("refused 8 {}", 6 + 4 + 6 + 24 * 5)));
    // "save the visit cases": a loop of 10,000 over a block has 1 + 10,000 × 2 + 1 = 20,002 visits; inside a loop of 4 these are 1 + 4 ×
    // 20,003 + 1 = 80,014, inside a loop of 5 they are 100,017; inside one of 9 or 10, as in document 01, still more
    let inside =
        |count: u16| from_zero(small_bus(), &[plain(10, 10), idle(), looped(10_000, 10_000, 0, 1), looped(count, count, 2, 1)]);
    cases.add("worked", inside(4), line("tight 400000\npublished 400000\nexits 1\n0 400000"));
    for count in [5, 9, 10] {
        cases.add("worked", inside(count), line(&format!("refused 9 {}", 6 + 4 + 7 + 7 + 11 + 11)));
    }
    // "An empty image gives 7 at place 0."
    cases.add("worked", Vec::new(), line("refused 7 0"));
}

/// Just inside and just outside of every rule of every row.
pub fn limits(cases: &mut Cases) {
    let mut add = |image: Vec<u8>, expected: Expected| cases.add("limits", image, expected);
    let task = |nodes: &[Vec<u8>]| [small_bus(), starts(&[0, 4]), nodes.concat()].concat();

    // 1 bus: "cores 2 to 16, slot 1 to 128, core number below cores ...; cores × slot at most 256"
    for cores in [0u64, 1, 2, 3, 4, 5, 7, 8, 15, 16, 17, 32, 128, 255] {
        let most = if cores == 0 { 1 } else { 256 / cores };
        for slot in [0, 1, 2, 16, 17, 64, 127, 128, 129, 255, most, most + 1] {
            for core in [0, cores.saturating_sub(1), cores, 255] {
                if slot > 255 {
                    continue;
                }
                let good = cores >= 2 && cores <= 16 && slot >= 1 && slot <= 128 && core < cores && cores * slot <= 256;
                let image = [bus(cores as u8, slot as u8, core as u8), starts(&[0]), bus_block(2, 1, 1)].concat();
                add(image, either(good, 5));
            }
        }
    }

    // 2 starts: "strictly ascending, each below P"
    let all: Vec<u8> = (0..=255).collect();
    let row = |cores, slot, from: &[u8]| [bus(cores, slot, 1), starts(from), bus_block(1, 1, 1)].concat();
    for (cores, slot) in [(2, 1), (2, 5), (3, 85), (2, 127), (2, 128), (16, 16), (16, 15)] {
        let period = cores as usize * slot as usize;
        add(row(cores, slot, &all[..period]), Accepted);
        add(row(cores, slot, &all[period - 1..period]), Accepted);
        add(row(cores, slot, &[0, (period - 1) as u8]), Accepted);
        if period < 256 {
            add(row(cores, slot, &all[..period + 1]), Refused(5));
            add(row(cores, slot, &all[period..period + 1]), Refused(5));
            add(row(cores, slot, &[0, period as u8]), Refused(5));
            add(row(cores, slot, &[255]), Refused(5));
            add(row(cores, slot, &all), Refused(5));
        }
        add(row(cores, slot, &[0, 0]), Refused(5));
        add(row(cores, slot, &[1, 0]), Refused(5));
    }
    add(row(2, 5, &[1, 3, 3, 4]), Refused(5));
    add(row(2, 5, &[1, 3, 2, 4]), Refused(5));
    add(row(2, 5, &[4, 4, 10]), Refused(5));
    add(row(16, 16, &[255, 0]), Refused(5));
    add(row(16, 16, &[254, 255, 255]), Refused(5));

    // 3 plain block: "lowest ≤ highest, difference at most 63"
    for lowest in [0i64, 1, 62, 63, 64, 191, 192, 193, 255, 256, 257, 5_000, 65_471, 65_472, 65_473, 65_534, 65_535] {
        for difference in [-65_535, -256, -255, -64, -1, 0, 1, 62, 63, 64, 65, 127, 255, 256, 257, 319, 65_535] {
            let highest = lowest + difference;
            if (0..=65_535).contains(&highest) {
                let good = (0..=63).contains(&difference);
                add(task(&[plain(lowest as u16, highest as u16)]), either(good, 5));
            }
        }
    }

    // 4 bus block: "kind (1 may access, 2 always accesses) ... 1 ≤ lowest ≤ highest ≤ slot"
    for (cores, slot) in [(2u8, 1u8), (2, 5), (3, 5), (3, 85), (16, 16), (2, 128)] {
        for kind in 1..=2 {
            for lowest in [0, 1, slot - 1, slot, slot + 1, 255] {
                for highest in [0, 1, slot - 1, slot, slot + 1, 255] {
                    let good = 1 <= lowest && lowest <= highest && highest <= slot;
                    let image = [bus(cores, slot, cores - 1), starts(&[0, 1]), bus_block(kind, lowest, highest)];
                    add(image.concat(), either(good, 5));
                }
            }
        }
        for kind in [0, 3, 4, 128, 255] {
            add([bus(cores, slot, 0), starts(&[1]), bus_block(kind, 1, 1)].concat(), Refused(5));
        }
    }

    // "Body length": the length of each tag, with a body of that many bytes
    for length in 0..=40u16 {
        let zeros = vec![0; length.into()];
        let even = length % 2 == 0;
        add(task(&[plain(1, 1), field(5, &zeros)]), either(even && (2..=32).contains(&length), 4));
        add(task(&[plain(1, 1), field(6, &zeros)]), either(even && (4..=16).contains(&length), 4));
        add(task(&[plain(1, 1), field(7, &zeros)]), either(length == 8, 4));
        add(task(&[field(3, &zeros)]), either(length == 4, 4));
        let ones = vec![1; length.into()];
        add(task(&[field(4, &ones)]), either(length == 3, 4));
        add(task(&[field(10, &ones)]), either(length == 5, 4));
        let mut bytes = vec![2, 5, 0];
        bytes.resize(length.into(), 0);
        add([field(1, &bytes), starts(&[0]), plain(1, 1)].concat(), either(length == 3, 4));
    }
    for tag in (1..=7).chain([10]) {
        for length in [64, 255, 256, 257, 258, 512, 1_024] {
            let body: Vec<u8> = (0..length).map(|byte| byte as u8).collect();
            let before = match tag {
                1 => Vec::new(),
                2 => bus(16, 16, 3),
                _ => task(&[]),
            };
            let expected = if tag == 2 && length <= 256 { Open } else { Refused(4) };
            add([before.clone(), field(tag, &body)].concat(), expected);
            let expected = if tag == 2 && length <= 256 { Accepted } else { Refused(4) };
            add([before, field(tag, &body), plain(1, 1)].concat(), expected);
        }
    }
    add([bus(2, 5, 0), starts(&[]), plain(1, 1)].concat(), Refused(4));

    // "a child's number is smaller than that of the node naming it", "two bytes each"
    for own in [0u16, 1, 2, 5, 254, 255] {
        for child in [0, 1, own.saturating_sub(1), own, own + 1, 254, 255, 256, 257, 511, 512, own + 256, own + 512, 65_535] {
            let before = [small_bus(), starts(&[2]), blank_nodes(own.into())].concat();
            let good = child < own;
            for last in [
                sequence(&[child]),
                sequence(&[0, child]),
                sequence(&[child, 0]),
                branch(&[child, 0]),
                branch(&[0, 0, child]),
                looped(0, 2, child, 0),
                looped(0, 0, child, 0),
                looped(0, 2, 0, child),
                looped(0, 0, 0, child),
                looped(1, 2, child, child),
            ] {
                add([before.clone(), last].concat(), either(good && own > 0, 6));
            }
        }
    }

    // 7 loop: "least ≤ greatest ≤ 10,000"
    for least in [0u16, 1, 2, 255, 256, 257, 9_999, 10_000, 10_001, 32_768, 65_535] {
        for greatest in [0, 1, 2, 255, 256, 257, 9_999, 10_000, 10_001, 10_256, 32_768, 65_535] {
            let image = [bus(2, 1, 0), starts(&[1]), bus_block(1, 1, 1), idle(), looped(least, greatest, 0, 1)].concat();
            add(image, either(least <= greatest && greatest <= 10_000, 5));
        }
    }

    // "1 to 256 node fields"
    for number in [1usize, 2, 255, 256, 257, 258, 300] {
        add(task(&[blank_nodes(number)]), either(number <= 256, 3));
        if number <= 257 {
            let mut nodes = blank_nodes(number - 1);
            nodes.extend(if number == 1 { plain(2, 3) } else { sequence(&[number as u16 - 2, 0]) });
            add(task(&[nodes]), either(number <= 256, 3));
            add(task(&[blank_nodes(number - 1), fetch(3, 1, 5, 2)]), either(number <= 256, 3));
            add(task(&[fetch(0, 1, 5, 2).repeat(number)]), either(number <= 256, 3));
        }
    }

    // "the image ends, between fields, before a node field"
    add(small_bus(), Refused(7));
    add(task(&[]), Refused(7));
    add([bus(16, 16, 1), starts(&all)].concat(), Refused(7));
}

/// Code fetched once, change request W9: tasks with what `figure` writes for them, worked out here. Cores 2, slot 5, core 0, P = 10, unless
/// said. F is a block of line 0 that accesses for 2 cycles and has a hit time of 1. Loops have a plain block of duration 0 as test.
pub fn worked_lines(cases: &mut Cases) {
    let mut task = |bus: Vec<u8>, from: &[u8], nodes: &[Vec<u8>], figures: (u64, u64), exits: &[(u64, u64)]| {
        cases.add("worked lines", [bus, starts(from), nodes.concat()].concat(), listing(figures, exits));
    };
    let f = || fetch(0, 2, 2, 1);
    // F from {0}: 2 after 2, the hit is not executed. Published: the access costs 2 and ends at 2, the hit costs 1 and ends at 1; no run
    // ends at 1.
    task(small_bus(), &[0], &[f()], (2, 2), &[(2, 2)]);
    // a hit of 9 costs more, though none is executed
    task(small_bus(), &[0], &[fetch(0, 2, 2, 9)], (2, 9), &[(2, 2)]);
    // a hit of 2 ends where the access does: the published exits are the exit offsets
    task(small_bus(), &[0], &[fetch(0, 2, 2, 2)], (2, 2), &[(2, 2)]);
    // F in a loop of 3 from {4}. The first iteration waits 6 and accesses: 2 after 8; then hits: 3 after 9, 4 after 10.
    // Published: {4}: 8 to 2, 1 to 5, costs 8. {2, 5}: 2 to 4, 1 to 3; 7 to 2, 1 to 6, costs 7. {2, 3, 4, 6}: of the accesses that from
    // 4 is the longest, costs 8. Sum 23.
    task(small_bus(), &[4], &[f(), idle(), looped(3, 3, 0, 1)], (10, 23), &[(4, 10)]);
    task(small_bus(), &[4], &[f(), idle(), looped(1, 3, 0, 1)], (10, 23), &[(2, 8), (3, 9), (4, 10)]);
    // a loop of 2 around a loop of 2, from {0}: 2 after 2, then three hits. Published: {0} costs 2, {1, 2} costs 2, {2, 3, 4} costs 8,
    // {2, 3, 4, 5} costs 8.
    task(small_bus(), &[0], &[f(), idle(), looped(2, 2, 0, 1), looped(2, 2, 2, 1)], (5, 20), &[(5, 5)]);
    // no iteration: nothing is fetched
    task(small_bus(), &[4], &[fetch(3, 2, 2, 1), idle(), looped(0, 0, 0, 1)], (0, 0), &[(4, 0)]);
    // F with a hit of 3, none or once in a loop and then once more, from {0}: 2 after 2, or 2 after 2 and then 5 after 5.
    // Published: the loop costs 3 and ends at {0, 2, 3}; from there the block costs 3.
    let hit_3 = || fetch(0, 2, 2, 3);
    task(small_bus(), &[0], &[hit_3(), idle(), looped(0, 1, 0, 1), sequence(&[2, 0])], (5, 6), &[(2, 2), (5, 5)]);
    // "counted over all nodes with that line": F, then a block of the same line with a hit of 5, from {0}: 2 after 2, 7 after 7.
    // Published: costs 2, ends at {1, 2}; then 3 or 5, costs 5.
    let other = || fetch(0, 3, 3, 5);
    task(small_bus(), &[0], &[f(), other(), sequence(&[0, 1])], (7, 7), &[(7, 7)]);
    // the other way round: 3 after 3, 4 after 4. Published: costs 5, ends at {3, 5}; then F costs 7, from 5.
    task(small_bus(), &[0], &[f(), other(), sequence(&[1, 0])], (4, 12), &[(4, 4)]);
    // two lines, each twice, from {0}: 2 after 2, 4 after 4, then hits. Published: {0} costs 2, {1, 2} costs 2, {2, 3, 4} costs 8,
    // {2, 3, 4, 5} costs 8.
    task(small_bus(), &[0], &[f(), fetch(1, 2, 2, 1), sequence(&[0, 1, 0, 1])], (6, 20), &[(6, 6)]);
    // a line fetched in one arm only, then F with a hit of 3, from {0}. First arm: 2 after 2, then a hit: 5 after 5. Second arm: 1 after
    // 1, then an access: 3 after 3. Published: the branch costs 3 and ends at {1, 2, 3}, then 3.
    task(small_bus(), &[0], &[hit_3(), plain(1, 1), branch(&[0, 1]), sequence(&[2, 0])], (5, 6), &[(3, 3), (5, 5)]);
    // both arms end at 2, after 2 with the line and after 12 without; then 5 after 5 and 4 after 14. Published: 12 and 3.
    task(small_bus(), &[0], &[hit_3(), plain(12, 12), branch(&[0, 1]), sequence(&[2, 0])], (14, 15), &[(4, 14), (5, 5)]);
    // a hit slower than the access: twice, hit 9, from {0}: 2 after 2, 1 after 11. Published: 9 and 9.
    task(small_bus(), &[0], &[fetch(0, 2, 2, 9), idle(), looped(2, 2, 0, 1)], (11, 18), &[(1, 11)]);
    // hits of 0 and 65,535, twice: 2 after 2; 7 after 65,537. Published: 2 and 2 (from 0); twice 65,535.
    task(small_bus(), &[0], &[fetch(0, 2, 2, 0), idle(), looped(2, 2, 0, 1)], (2, 4), &[(2, 2)]);
    task(small_bus(), &[0], &[fetch(0, 2, 2, 65_535), idle(), looped(2, 2, 0, 1)], (65_537, 131_070), &[(7, 65_537)]);
    // hits of 256 and of 1 are told apart: 2 after 2, then 8 after 258
    task(small_bus(), &[0], &[fetch(0, 2, 2, 256), idle(), looped(2, 2, 0, 1)], (258, 512), &[(8, 258)]);
    // 1 to 3 cycles from {3}: 4 after 1, 5 after 2, and with a wait of 7: 3 after 10. Published: costs 10, ends at {3, 4, 5}.
    task(small_bus(), &[3], &[fetch(0, 1, 3, 1)], (10, 10), &[(3, 10), (4, 1), (5, 2)]);
    // twice: each of these and a hit. Published: from 3 it costs 10 again.
    task(small_bus(), &[3], &[fetch(0, 1, 3, 1), sequence(&[0, 0])], (11, 20), &[(4, 11), (5, 2), (6, 3)]);
    // F twice from {3, 5}, "at first none": 5 after 2, 6 after 3; 2 after 7, 3 after 8. Published: {3, 5} costs 7, ends at {2, 4, 5, 6},
    // costs 8 from 4.
    task(small_bus(), &[3, 5], &[f(), sequence(&[0, 0])], (8, 15), &[(3, 8), (6, 3)]);
    // core 1, twice from {9}: 7 after 8, 8 after 9. Published: 8, ends at {0, 7}, then 7 from 0.
    task(bus(2, 5, 1), &[9], &[f(), idle(), looped(2, 2, 0, 1)], (9, 15), &[(8, 9)]);
    // blocks without a line fetch none: always 2, may 2, F, F from {0}. The always-access block: 2 after 2. The may-access one: 4 after 4.
    // F: 2 after 12, then 3 after 13. Published: 2, 2; {4} costs 8, ends at {2, 5}; then 7.
    let others = [a2(), bus_block(1, 2, 2), f(), sequence(&[0, 1, 2, 2])];
    task(small_bus(), &[0], &others, (13, 19), &[(3, 13)]);
    // a branch of a block of line 0 that accesses for 5 and has a hit of 40, and plain 30, in loops from {5}: each ends at 5, the access
    // after 10. The longest of k: 30 × k with plain alone, or 10 + 40 × (k − 1), longer from k = 4 on. Published: 40 each.
    let arms = |count: u16, least: u16| [fetch(0, 5, 5, 40), plain(30, 30), idle(), branch(&[0, 1]), looped(least, count, 3, 2)];
    task(small_bus(), &[5], &arms(2, 2), (60, 80), &[(5, 60)]);
    task(small_bus(), &[5], &arms(3, 3), (90, 120), &[(5, 90)]);
    task(small_bus(), &[5], &arms(4, 4), (130, 160), &[(5, 130)]);
    task(small_bus(), &[5], &arms(4, 1), (130, 160), &[(5, 130)]);
    task(small_bus(), &[5], &arms(10_000, 10_000), (399_970, 400_000), &[(5, 399_970)]);
    // the same later: period 2, from {1}, an access after 2, a hit of 65,534, or plain 65,520; 65,520 × k against 2 + 65,534 × (k − 1),
    // which is longer from k = 4,681 on. Published: 65,534 each.
    for (count, tight, published) in
        [(4_680, 306_633_600, 306_699_120), (4_681, 306_699_122, 306_764_654), (5_000, 327_604_468, 327_670_000)]
    {
        let nodes = [fetch(0, 1, 1, 65_534), plain(65_520, 65_520), idle(), branch(&[0, 1]), looped(count, count, 3, 2)];
        task(bus(2, 1, 0), &[1], &nodes, (tight, published), &[(1, tight)]);
    }
    // all 16 combinations meet at offset 1, period 2: each line is fetched after 2, or 10 cycles are passed; then each once more, a hit of
    // 0 or 20 or an access of 2. Lines 0 and 2: 10 + 2 is longer; lines 1 and 3: 2 + 20. Published: 10, 20, 10, 20 and 2, 20, 2, 20.
    let nodes = [
        fetch(0, 1, 1, 0),
        fetch(1, 1, 1, 20),
        fetch(2, 1, 1, 0),
        fetch(3, 1, 1, 20),
        plain(10, 10),
        branch(&[0, 4]),
        branch(&[1, 4]),
        branch(&[2, 4]),
        branch(&[3, 4]),
        sequence(&[5, 6, 7, 8, 0, 1, 2, 3]),
    ];
    task(bus(2, 1, 0), &[1], &nodes, (68, 104), &[(1, 68)]);
    // only line 3, which makes 4 lines: 64 × 16 = 1,024. F of line 3 twice, core 3 of 4 cores × slot 16, from {63}: a wait of 49, then 2:
    // 50 after 51, 51 after 52. Published: 51, ends at {0, 50}; from 0 a wait of 48, then 2.
    task(bus(4, 16, 3), &[63], &[fetch(3, 2, 2, 1), idle(), looped(2, 2, 0, 1)], (52, 101), &[(51, 52)]);
    // a line of a node that is not reached
    task(bus(4, 16, 0), &[0], &[fetch(3, 2, 2, 1), plain(1, 1)], (1, 1), &[(1, 1)]);
    task(bus(16, 16, 0), &[0], &[fetch(1, 2, 2, 1), plain(1, 1)], (1, 1), &[(1, 1)]);
    cases.add("worked lines", [bus(5, 13, 0), starts(&[0]), fetch(3, 2, 2, 1), plain(1, 1)].concat(), line("refused 18 25"));
    cases.add("worked lines", [bus(5, 13, 0), starts(&[0]), fetch(3, 2, 2, 1)].concat(), line("refused 18 18"));
}

/// "a line number 0 to 3, lowest and highest bus duration as in tag 4, and a two-byte hit time", body length 5.
pub fn limits_of_lines(cases: &mut Cases) {
    let mut add = |image: Vec<u8>, expected: Expected| cases.add("limits of lines", image, expected);
    let one = |block: Vec<u8>| [small_bus(), starts(&[0, 4]), block].concat();
    for number in [0, 1, 2, 3, 4, 5, 7, 8, 9, 10, 127, 128, 129, 252, 255] {
        for hit in [0, 1, 5, 6, 10, 63, 64, 255, 256, 257, 10_000, 10_001, 32_768, 65_534, 65_535] {
            add(one(fetch(number, 1, 5, hit)), either(number <= 3, 5));
        }
    }
    for (cores, slot) in [(2u8, 1u8), (2, 5), (3, 5), (3, 85), (16, 16), (2, 128)] {
        for number in [0, 1] {
            for lowest in [0, 1, slot - 1, slot, slot + 1, 255] {
                for highest in [0, 1, slot - 1, slot, slot + 1, 255] {
                    let good = 1 <= lowest && lowest <= highest && highest <= slot;
                    let image = [bus(cores, slot, cores - 1), starts(&[0, 1]), fetch(number, lowest, highest, 3)];
                    add(image.concat(), either(good, 5));
                }
            }
        }
    }
    // cut bodies, alone and behind another node; then 4 and 5 at their fields
    for before in [Vec::new(), plain(1, 1)] {
        let whole = one([before.clone(), fetch(4, 0, 9, 1)].concat());
        let place = whole.len() - 8;
        for cut in 1..=7 {
            add(whole[..whole.len() - cut].to_vec(), line(&format!("refused 1 {place}")));
        }
        add(whole, line(&format!("refused 5 {place}")));
        for length in [0, 3, 4, 6, 7] {
            let image = one([before.clone(), field(10, &vec![1; length])].concat());
            add(image.clone(), line(&format!("refused 4 {place}")));
            add([image, plain(1, 1)].concat(), line(&format!("refused 4 {place}")));
        }
    }
    // tag 10 is that of a node field only, and the tags next to it are of none
    add(fetch(0, 1, 1, 1), Refused(2));
    add([small_bus(), fetch(0, 1, 1, 1)].concat(), Refused(2));
    for tag in [0, 1, 2, 8, 9, 11, 12, 18, 26, 138] {
        for length in [2, 5] {
            add(one(field(tag, &vec![1; length])), line("refused 2 11"));
            // tag 8 may stand there, but not with that length, nor with number 257
            let number = match (tag, length) {
                (8, 2) => 11,
                (8, _) => 4,
                _ => 2,
            };
            let image = one([fetch(0, 1, 1, 1), field(tag, &vec![1; length])].concat());
            add(image, line(&format!("refused {number} 19")));
        }
    }
    // "The depth of a block is 1", its visits are 1
    for levels in [22, 23, 24] {
        let nodes = tower(fetch(3, 2, 2, 1), levels, &|below| sequence(&[below]));
        add(one(nodes.concat()), either(levels <= 23, 8));
        let nodes = tower(fetch(3, 2, 2, 1), levels, &|below| looped(1, 1, below, 0));
        add(one(nodes.concat()), either(levels <= 23, 8));
    }
    // 1 + 4 × 20,002 + (2 × last + 2) + more
    for (last, more) in [(9_994, 0), (9_994, 1), (9_994, 2), (9_995, 0)] {
        let named = [vec![1; 4], vec![2], vec![0; more]].concat();
        let visits = 1 + 4 * 20_002 + (2 * u64::from(last) + 2) + more as u64;
        let nodes = [fetch(0, 1, 2, 3), looped(9_999, 10_000, 0, 0), looped(last, last, 0, 0), sequence(&named)];
        add(one(nodes.concat()), either(visits <= 100_000, 9));
    }
}

/// Slots of unequal length, change request W5: tasks with what `figure` writes for them, worked out here. P = 10 unless said.
pub fn worked_schedules(cases: &mut Cases) {
    let mut task = |field_1: &[u8], from: &[u8], nodes: &[Vec<u8>], figures: (u64, u64), exits: &[(u64, u64)]| {
        let image = [field_1.to_vec(), starts(from), nodes.concat()].concat();
        cases.add("worked schedules", image, listing(figures, exits));
    };
    // an access of e cycles from an offset, which takes its wait and e cycles
    let mut waits = |field_1: &[u8], (period, e): (u64, u8), waits: &[(u8, u64)]| {
        for &(offset, wait) in waits {
            let time = wait + u64::from(e);
            let end = (u64::from(offset) + time) % period;
            task(field_1, &[offset], &[bus_block(2, e, e)], (time, time), &[(end, time)]);
        }
    };
    // two slots: core 0 owns 0 to 2, and 5 and 6, which are too few for e = 3; core 1 owns 3 and 4, and 7 to 9
    let (two, other) = (two_slots(0), two_slots(1));
    waits(&two, (10, 1), &[(0, 0), (2, 0), (3, 2), (4, 1), (5, 0), (6, 0), (7, 3), (9, 1)]);
    waits(&two, (10, 2), &[(0, 0), (1, 0), (2, 3), (3, 2), (4, 1), (5, 0), (6, 4), (7, 3), (9, 1)]);
    waits(&two, (10, 3), &[(0, 0), (1, 9), (2, 8), (3, 7), (4, 6), (5, 5), (6, 4), (9, 1)]);
    waits(&other, (10, 2), &[(0, 3), (2, 1), (3, 0), (4, 3), (5, 2), (7, 0), (8, 0), (9, 4)]);
    waits(&other, (10, 3), &[(0, 7), (3, 4), (4, 3), (6, 1), (7, 0), (8, 9), (9, 8)]);
    // round the period: core 0 owns 7 to 9 and goes on with 0 and 1
    let round = schedule(0, &[(0, 2), (1, 5), (0, 3)]);
    waits(&round, (10, 1), &[(1, 0), (2, 5), (6, 1), (7, 0), (9, 0), (0, 0)]);
    waits(&round, (10, 2), &[(9, 0), (0, 0), (1, 6), (2, 5), (7, 0)]);
    waits(&round, (10, 3), &[(7, 0), (8, 0), (9, 0), (0, 7), (1, 6)]);
    waits(&round, (10, 4), &[(7, 0), (8, 0), (9, 8), (0, 7)]);
    waits(&round, (10, 5), &[(7, 0), (8, 9), (9, 8), (0, 7), (1, 6), (2, 5), (6, 1)]);
    // the core between owns 2 to 6
    waits(&schedule(1, &[(0, 2), (1, 5), (0, 3)]), (10, 5), &[(2, 0), (3, 9), (0, 2), (9, 3)]);
    // neighbouring pairs: core 3 owns 2 to 5
    let neighbours = schedule(3, &[(1, 2), (3, 1), (3, 1), (3, 2), (1, 4)]);
    waits(&neighbours, (10, 2), &[(2, 0), (4, 0), (5, 7), (6, 6)]);
    waits(&neighbours, (10, 3), &[(2, 0), (3, 0), (4, 8)]);
    waits(&neighbours, (10, 4), &[(2, 0), (3, 9), (0, 2), (9, 3)]);
    // both: core 2 owns 6 to 9 and goes on with 0 and 1
    let both = schedule(2, &[(2, 1), (2, 1), (0, 4), (2, 1), (2, 3)]);
    waits(&both, (10, 3), &[(8, 0), (9, 0), (0, 6), (1, 5)]);
    waits(&both, (10, 5), &[(6, 0), (7, 0), (8, 8)]);
    waits(&both, (10, 6), &[(6, 0), (7, 9), (1, 5), (2, 4)]);
    // P = 6, between the core's slots two others, which are none of its own: core 0 owns 4 and 5 and goes on with 0 and 1
    waits(&schedule(0, &[(0, 2), (1, 1), (2, 1), (0, 2)]), (6, 4), &[(4, 0), (5, 5), (0, 4), (3, 1)]);
    // P = 6, the first and the last of three: core 0 owns 4 and 5 and goes on with 0, and it owns 2
    let three = schedule(0, &[(0, 1), (1, 1), (0, 1), (1, 1), (0, 2)]);
    waits(&three, (6, 1), &[(1, 1), (2, 0), (3, 1), (0, 0)]);
    waits(&three, (6, 2), &[(4, 0), (5, 0), (0, 4), (2, 2)]);
    waits(&three, (6, 3), &[(4, 0), (5, 5), (0, 4), (1, 3), (2, 2)]);
    // a short stretch is passed over: core 0 owns 0, and 2 to 5
    let short = schedule(0, &[(0, 1), (1, 1), (0, 4), (1, 4)]);
    waits(&short, (10, 1), &[(0, 0), (1, 1), (5, 0), (6, 4), (9, 1)]);
    waits(&short, (10, 2), &[(9, 3), (0, 2), (1, 1), (2, 0), (4, 0), (5, 7), (6, 6)]);
    waits(&short, (10, 4), &[(2, 0), (3, 9), (9, 3), (0, 2)]);
    // two of them: core 4 owns 0, 2 and 3, and 5 to 7
    let shorter = schedule(4, &[(4, 1), (9, 1), (4, 2), (9, 1), (4, 3), (9, 2)]);
    waits(&shorter, (10, 2), &[(0, 2), (1, 1), (3, 2), (6, 0), (7, 5), (8, 4)]);
    waits(&shorter, (10, 3), &[(0, 5), (2, 3), (3, 2), (5, 0), (6, 9), (8, 7)]);
    // the longest comes first: core 6 owns 1 to 4, and 6 and 7
    let longer = schedule(6, &[(2, 1), (6, 4), (2, 1), (6, 2), (0, 2)]);
    waits(&longer, (10, 3), &[(1, 0), (2, 0), (3, 8), (5, 6), (6, 5), (7, 4)]);
    waits(&longer, (10, 2), &[(3, 0), (4, 2), (5, 1), (6, 0), (7, 4), (8, 3)]);
    // a lone core owns every cycle: P = 5 in one slot or in two, P = 1, P = 2, and P = 256 with durations up to 255
    for pairs in [vec![(7, 5)], vec![(7, 2), (7, 3)], vec![(7, 1); 5]] {
        for e in 1..=5 {
            waits(&schedule(7, &pairs), (5, e), &[(0, 0), (1, 0), (3, 0), (4, 0)]);
        }
    }
    waits(&schedule(0, &[(0, 1)]), (1, 1), &[(0, 0)]);
    waits(&schedule(9, &[(9, 1), (9, 1)]), (2, 2), &[(0, 0), (1, 0)]);
    for e in [1, 2, 127, 128, 129, 254, 255] {
        waits(&schedule(15, &[(15, 128), (15, 128)]), (256, e), &[(0, 0), (1, 0), (127, 0), (128, 0), (129, 0), (255, 0)]);
    }
    // P = 256, all but 127: core 0 owns 128 to 255 and goes on with 0 to 126. The longest wait with its access takes 510 cycles.
    let all_but_one = schedule(0, &[(0, 127), (1, 1), (0, 128)]);
    waits(&all_but_one, (256, 255), &[(128, 0), (129, 255), (126, 2), (127, 1), (0, 128), (255, 129)]);
    waits(&all_but_one, (256, 254), &[(128, 0), (129, 0), (130, 254), (127, 1)]);
    waits(&all_but_one, (256, 1), &[(126, 0), (127, 1), (128, 0), (255, 0), (0, 0)]);
    waits(&schedule(1, &[(0, 127), (1, 1), (0, 128)]), (256, 1), &[(127, 0), (128, 255), (126, 1), (0, 127)]);
    waits(&schedule(0, &[(0, 128), (1, 128)]), (256, 128), &[(0, 0), (1, 255), (255, 1)]);
    waits(&schedule(1, &[(0, 128), (1, 128)]), (256, 128), &[(128, 0), (129, 255), (0, 128)]);
    // P = 4 of cores 3 and 15, P = 2
    waits(&schedule(15, &[(3, 2), (15, 2)]), (4, 2), &[(0, 2), (1, 1), (2, 0), (3, 3)]);
    waits(&schedule(1, &[(0, 1), (1, 1)]), (2, 1), &[(0, 1), (1, 0)]);

    // two slots: 1 to 3 cycles from {4}: 6 after 2, 7 after 3, and with a wait of 6: 3 after 9
    task(&two, &[4], &[bus_block(2, 1, 3)], (9, 9), &[(3, 9), (6, 2), (7, 3)]);
    // may access for 2 from {6}: 8 after 2, or with a wait of 4: 2 after 6
    task(&two, &[6], &[bus_block(1, 2, 2)], (6, 6), &[(2, 6), (8, 2)]);
    // A2 from all ten offsets, by the waits above: from 0 and 1 it ends at 2 and 3 after 2; from 2 to 5 at 7, after 5 from 2; from 6 to 9
    // at 2, after 6 from 6
    let all_ten: Vec<u8> = (0..10).collect();
    task(&two, &all_ten, &[a2()], (6, 6), &[(2, 6), (3, 2), (7, 5)]);
    // A2 and then 1 cycle, from {5, 6}. From 6: 2 after 6, then 3 after 7. From 5: 7 after 2, then a wait of 3: 1 after 6. Published: the
    // first costs 6, from {2, 7} the second costs 4.
    task(&two, &[5, 6], &[a2(), bus_block(2, 1, 1), sequence(&[0, 1])], (7, 10), &[(1, 6), (3, 7)]);
    // A2 in a loop of 1 to 3 from {4}: 7 after 3, then waits of 3 each: 2 after 8, 7 after 13
    task(&two, &[4], &[a2(), idle(), looped(1, 3, 0, 1)], (13, 13), &[(2, 8), (7, 13)]);
    // a branch of A2 and plain 4 from {6}
    task(&two, &[6], &[a2(), plain(4, 4), branch(&[0, 1])], (6, 6), &[(0, 4), (2, 6)]);
    // fetched once, 2 cycles and a hit of 1, twice from {6}: 2 after 6, then 3 after 7. Published: {6} costs 6 and ends at {2, 7}, from
    // both an access takes 5.
    task(&two, &[6], &[fetch(0, 2, 2, 1), idle(), looped(2, 2, 0, 1)], (7, 11), &[(3, 7)]);
    // 3 cycles from {5} pass the short stretch over: a wait of 5, 3 after 8. Published: a hit of 9 costs more.
    task(&two, &[5], &[fetch(3, 3, 3, 9)], (8, 9), &[(3, 8)]);
    // round the period: 5 cycles in a loop of 3 from {7}: 2 after 5, then waits of 5 each
    task(&round, &[7], &[bus_block(2, 5, 5), idle(), looped(3, 3, 0, 1)], (25, 25), &[(2, 25)]);
    // A2 twice from {8, 9}: 0 after 2 and 1 after 2; then 2 after 4, and with a wait of 6: 9 after 10. Published: 2 and 8.
    task(&round, &[8, 9], &[a2(), sequence(&[0, 0])], (10, 10), &[(2, 4), (9, 10)]);
    // plain blocks go by the period alone
    task(&round, &[9], &[plain(4, 4)], (4, 4), &[(3, 4)]);
    // a lone core in a loop: no wait, 5 cycles each, from {3}; P = 1, where every run ends at 0
    let lone = [bus_block(2, 5, 5), idle(), looped(0, 10_000, 0, 1)];
    task(&schedule(7, &[(7, 5)]), &[3], &lone, (50_000, 50_000), &[(3, 50_000)]);
    let one = schedule(0, &[(0, 1)]);
    task(&one, &[0], &[plain(0, 63)], (63, 63), &[(0, 63)]);
    task(&one, &[0], &[bus_block(1, 1, 1), idle(), looped(7, 10_000, 0, 1)], (10_000, 10_000), &[(0, 10_000)]);
    // fetched once: 1 and then a hit of 9. Published: 9 each.
    task(&one, &[0], &[fetch(3, 1, 1, 9), sequence(&[0, 0])], (10, 18), &[(0, 10)]);
    // 256 cycles each time, and 254 more for the first from {129}
    let long = [bus_block(2, 255, 255), idle(), looped(10_000, 10_000, 0, 1)];
    task(&all_but_one, &[127], &long, (2_560_000, 2_560_000), &[(127, 2_560_000)]);
    task(&all_but_one, &[129], &long, (2_560_254, 2_560_254), &[(127, 2_560_254)]);
}

/// Every period of up to 5 cycles of which a core owns some, and every access that fits, from every offset. A slot has one cycle, or as
/// many as can be.
pub fn small_schedules(cases: &mut Cases) {
    for period in 1..=5u8 {
        for owned in 1..1u8 << period {
            let cycles: Vec<(u8, u8)> = (0..period).map(|cycle| (owned >> cycle & 1, 1)).collect();
            let slots: Vec<(u8, u8)> = cycles.chunk_by(|a, b| a.0 == b.0).map(|slot| (slot[0].0, slot.len() as u8)).collect();
            let longest = bus_of(9, &schedule(1, &cycles)[3..]).longest_access() as u8;
            for e in 1..=longest {
                for offset in 0..period {
                    let field_1 = schedule(1, if (e + offset) % 2 == 0 { &cycles } else { &slots });
                    let image = [field_1, starts(&[offset]), bus_block(2, e, e)].concat();
                    cases.add("small schedules", image, Accepted);
                }
            }
        }
    }
}

/// Core 0 owns 0 to 2, 5 and 6, core 1 the other cycles of ten.
pub fn two_slots(core: u8) -> Vec<u8> {
    schedule(core, &[(0, 3), (1, 2), (0, 2), (1, 3)])
}

/// "the analysed core, then 1 to 32 pairs of core (0 to 15) and slot length (1 to 128), a byte each, body length odd, 3 to 65. The period
/// is the sum, at most 256, and the analysed core has at least one pair." "A bus duration may not exceed the longest such stretch, nor
/// the period".
pub fn limits_of_schedules(cases: &mut Cases) {
    let mut add = |image: Vec<u8>, expected: Expected| cases.add("limits of schedules", image, expected);
    let with = |field_1: &[u8]| [field_1.to_vec(), starts(&[0]), plain(1, 1)].concat();
    // accepted, or refused with this number at this place
    let at = |good: bool, number: u64, place: usize| if good { Accepted } else { line(&format!("refused {number} {place}")) };

    // lengths with a body of that many bytes, all pairs of core 0 and length 1; and with none
    for length in (0..=70).chain([127, 128, 129, 255, 256, 257, 258, 259, 321, 323, 513, 515, 4_097]) {
        let body: Vec<u8> = (0..length).map(|place| u8::from(place > 0 && place % 2 == 0)).collect();
        let good = (3..=65).contains(&length) && length % 2 == 1;
        add(with(&field(9, &body)), at(good, 4, 0));
        add(field(9, &body)[..3].to_vec(), line(if good { "refused 1 0" } else { "refused 4 0" }));
    }
    add(vec![9, 255, 255], line("refused 4 0"));

    // every pair's core and length, in its place, beside pairs that are good; and with that core as the analysed one
    for which in 0..3 {
        for core in [0, 1, 3, 4, 14, 15, 16, 17, 20, 31, 32, 127, 128, 132, 144, 255] {
            let mut pairs = [(4, 2), (4, 3), (4, 1)];
            pairs[which].0 = core;
            add(with(&schedule(4, &pairs)), at(core <= 15, 5, 0));
            add(with(&schedule(core, &pairs)), at(core <= 15, 5, 0));
        }
        for length in [0, 1, 2, 63, 64, 65, 126, 127, 128, 129, 130, 192, 254, 255] {
            for core in [0, 1] {
                let mut pairs = [(0, 1), (1, 1), (0, 1)];
                pairs[which] = (core, length);
                add(with(&schedule(0, &pairs)), at((1..=128).contains(&length), 5, 0));
            }
        }
    }
    for (core, length) in [(0, 0), (0, 1), (0, 128), (0, 129), (0, 255), (15, 1), (16, 1), (255, 1)] {
        add(with(&schedule(core, &[(core, length)])), at(core <= 15 && (1..=128).contains(&length), 5, 0));
    }
    // sums, and what a byte would make of them
    let eights = |last: u8| [vec![8; 31], vec![last]].concat();
    for (lengths, good) in [
        (vec![128, 128], true),
        (vec![128, 127, 1], true),
        (vec![127, 128, 2], false),
        (vec![128, 128, 1], false),
        (vec![1, 128, 128], false),
        (vec![128, 128, 128], false),
        (vec![128; 4], false),
        (vec![128, 128, 128, 128, 1], false),
        (vec![128; 32], false),
        (vec![16; 32], false),
        (vec![16; 16], true),
        (vec![1; 32], true),
        (eights(7), true),
        (eights(8), true),
        (eights(9), false),
        (eights(128), false),
    ] {
        for cores in [1, 2, 16] {
            let pairs: Vec<(u8, u8)> = (0..).zip(&lengths).map(|(own, &length)| (own % cores, length)).collect();
            for core in 0..cores.min(lengths.len() as u8).min(3) {
                add(with(&schedule(core, &pairs)), at(good, 5, 0));
            }
        }
    }
    // "the analysed core has at least one pair"
    for core in (0..=33).chain([64, 127, 128, 130, 255]) {
        add(with(&schedule(core, &[(0, 2), (2, 3)])), at(core == 0 || core == 2, 5, 0));
        add(with(&schedule(core, &[(15, 4)])), at(core == 15, 5, 0));
        // nor is a pair's length a core
        add(with(&schedule(core, &[(1, 5), (3, 7), (1, 16)])), at(core == 1 || core == 3, 5, 0));
    }

    // "each below P", and field 2 "stands behind field 1, wherever that ends"
    let all: Vec<u8> = (0..=255).collect();
    for pairs in [
        vec![(0, 1)],
        vec![(0, 1), (1, 1)],
        vec![(0, 3), (1, 2), (0, 2), (1, 3)],
        vec![(0, 126), (1, 1)],
        vec![(0, 128)],
        vec![(0, 100), (1, 29)],
        vec![(0, 128), (1, 127)],
        vec![(0, 128), (1, 128)],
        vec![(0, 8); 32],
    ] {
        let period: usize = pairs.iter().map(|&(_, length)| usize::from(length)).sum();
        let field_1 = schedule(0, &pairs);
        let from = |starts: Vec<u8>| [field_1.clone(), starts, bus_block(1, 1, 1)].concat();
        let place = field_1.len();
        add(from(starts(&all[..period])), Accepted);
        add(from(starts(&all[period - 1..period])), Accepted);
        if period < 256 {
            add(from(starts(&all[..period + 1])), at(false, 5, place));
            add(from(starts(&all[period..period + 1])), at(false, 5, place));
            add(from(starts(&[255])), at(false, 5, place));
        }
        add(from(starts(&[0, 0])), at(false, 5, place));
        add(from(starts(&[])), at(false, 4, place));
        add([field_1.clone(), starts(&[0]), plain(1, 0)].concat(), at(false, 5, place + 4));
        add([field_1.clone(), starts(&[0]), sequence(&[0])].concat(), at(false, 6, place + 4));
        add([field_1, starts(&[0, 1])[..4].to_vec()].concat(), at(false, 1, place));
    }

    // durations on both sides of the longest stretch, also in a block that is not reached
    for (field_1, longest) in [
        (two_slots(0), 3),
        (two_slots(1), 3),
        (schedule(0, &[(0, 2), (1, 5), (0, 3)]), 5),
        (schedule(3, &[(1, 2), (3, 1), (3, 1), (3, 2), (1, 4)]), 4),
        (schedule(2, &[(2, 1), (2, 1), (0, 4), (2, 1), (2, 3)]), 6),
        (schedule(0, &[(0, 1), (1, 1), (0, 4), (1, 4)]), 4),
        (schedule(0, &[(0, 1), (1, 1), (0, 1), (1, 1)]), 1),
        // not the sum of the core's slots
        (schedule(0, &[(0, 6), (1, 1), (0, 5), (1, 1)]), 6),
        (schedule(1, &[(0, 100), (1, 60), (1, 60), (0, 20)]), 120),
        (schedule(0, &[(0, 128), (1, 128)]), 128),
        (schedule(0, &[(0, 127), (1, 2), (0, 127)]), 254),
        (schedule(0, &[(0, 127), (1, 1), (0, 128)]), 255),
        // every cycle is the core's
        (schedule(0, &[(0, 1)]), 1),
        (schedule(7, &[(7, 5)]), 5),
        (schedule(7, &[(7, 2), (7, 3)]), 5),
        (schedule(7, &[(7, 1); 32]), 32),
        (schedule(0, &[(0, 128)]), 128),
        (schedule(0, &[(0, 127), (0, 127)]), 254),
        (schedule(0, &[(0, 127), (0, 128)]), 255),
        (schedule(0, &[(0, 128), (0, 128)]), 255),
    ] {
        let above = if longest == 255 { 255 } else { longest + 1 };
        for (lowest, highest) in [(0, 1), (1, longest), (longest, longest), (1, above), (above, above), (1, 255), (longest, 1)] {
            let good = 1 <= lowest && lowest <= highest && highest <= longest;
            for block in [bus_block(1, lowest, highest), bus_block(2, lowest, highest), fetch(1, lowest, highest, 2)] {
                let place = field_1.len() + 4;
                let image = [field_1.clone(), starts(&[0]), block].concat();
                add(image.clone(), at(good, 5, place));
                if highest == longest || highest == above {
                    add([image, plain(1, 1)].concat(), at(good, 5, place));
                }
            }
        }
    }

    // "may stand first in place of tag 1": nowhere else, and nothing else there
    let (two, small) = (two_slots(0), small_bus());
    let (begun, node) = ([two.clone(), starts(&[0])].concat(), plain(1, 1));
    for later in
        [two.clone(), schedule(0, &[(0, 1)]), small.clone(), starts(&[0]), field(9, &[]), field(1, &[]), vec![9, 255, 255]]
    {
        let twice = later != starts(&[0]);
        for first in [&two, &small] {
            if twice {
                add([first.clone(), later.clone(), starts(&[0]), node.clone()].concat(), at(false, 2, first.len()));
            }
            let begun = [first.clone(), starts(&[0])].concat();
            add([begun.clone(), later.clone()].concat(), at(false, 2, begun.len()));
            add([begun.clone(), node.clone(), later.clone()].concat(), at(false, 2, begun.len() + 7));
            add([begun.clone(), blank_nodes(256), later.clone()].concat(), at(false, 2, begun.len() + 256 * 7));
        }
    }
    add([two.clone(), node.clone()].concat(), at(false, 2, two.len()));
    add([starts(&[0]), two.clone(), node.clone()].concat(), at(false, 2, 0));
    for tag in (0..=30).chain([73, 128, 137, 201, 255]) {
        let mut image = [begun.clone(), node.clone()].concat();
        image[0] = tag;
        add(
            image,
            match tag {
                9 => Accepted,
                1 => at(false, 4, 0),
                _ => at(false, 2, 0),
            },
        );
    }

    // cuts in the longest field 1; then it stands alone, and with its starts
    let longest = longest_schedule();
    let bad = schedule(16, &[(16, 129); 32]);
    for length in 1..longest.len() {
        add(longest[..length].to_vec(), at(false, 1, 0));
        add(bad[..length].to_vec(), at(false, 1, 0));
    }
    for field_1 in [longest, two.clone(), schedule(0, &[(0, 1)])] {
        add(field_1.clone(), at(false, 7, field_1.len()));
        add([field_1.clone(), starts(&[0])].concat(), at(false, 7, field_1.len() + 4));
        add([field_1.clone(), vec![2]].concat(), at(false, 1, field_1.len()));
        add([field_1.clone(), starts(&[0]), vec![3, 0]].concat(), at(false, 1, field_1.len() + 4));
    }
    // what is wrong in it goes before all that follows
    for later in [Vec::new(), vec![2], starts(&[255]), field(11, &[]), starts(&[]), plain(1, 1), with(&two)] {
        add([bad.clone(), later.clone()].concat(), at(false, 5, 0));
        add([schedule(1, &[(0, 128), (1, 128), (0, 1)]), later.clone()].concat(), at(false, 5, 0));
        add([schedule(1, &[(0, 128)]), later.clone()].concat(), at(false, 5, 0));
        add([field(9, &[0, 0, 1, 0]), later].concat(), at(false, 4, 0));
    }
    // 8, 9 and 3 behind it
    let over = |levels: u16, level: &dyn Fn(u16) -> Vec<u8>| [begun.clone(), tower(a2(), levels, level).concat()].concat();
    for levels in [15, 16, 23, 24] {
        let image = over(levels, &|below| sequence(&[below]));
        add(image.clone(), at(levels <= 23, 8, image.len()));
        let image = over(levels, &|below| branch(&[below, below]));
        add(image.clone(), at(levels <= 15, if levels <= 23 { 9 } else { 8 }, image.len()));
    }
    for number in [256, 257] {
        add([begun.clone(), blank_nodes(number)].concat(), at(number <= 256, 3, begun.len() + 256 * 7));
    }
}

/// "18 lines, period × 2 to the number of lines exceeds 1,024, judged after 9 and before 10, with the image's length as place"
pub fn number_of_lines(cases: &mut Cases) {
    let mut add = |image: Vec<u8>, expected: Expected| cases.add("number of lines", image, expected);
    // cores and slot, and the number of lines that is still accepted
    let equal = [
        (16, 16, 2),
        (2, 128, 2),
        // 255, 254, 240, 130, 129
        (3, 85, 2),
        (2, 127, 2),
        (16, 15, 2),
        (2, 65, 2),
        (3, 43, 2),
        // 128, 126, 120, 66, 65
        (2, 64, 3),
        (16, 8, 3),
        (2, 63, 3),
        (8, 15, 3),
        (2, 33, 3),
        (3, 22, 3),
        (5, 13, 3),
        (13, 5, 3),
        // 64, 63, 32, 2
        (4, 16, 4),
        (16, 4, 4),
        (2, 32, 4),
        (3, 21, 4),
        (2, 16, 4),
        (2, 1, 4),
    ];
    // pairs with tag 9: 256, 255, 129, 128, 65, 64, 10, 1
    let unequal = [
        (vec![(1, 128), (1, 128)], 2),
        (vec![(1, 8); 32], 2),
        (vec![(0, 127), (1, 1), (0, 127)], 2),
        (vec![(1, 2), (0, 100), (1, 27)], 2),
        (vec![(0, 60), (1, 8), (5, 60)], 3),
        (vec![(1, 30), (1, 30), (0, 5)], 3),
        (vec![(1, 31), (0, 33)], 4),
        (vec![(0, 3), (1, 2), (0, 2), (1, 3)], 4),
        (vec![(1, 1)], 4),
    ];
    let with_1 = equal.into_iter().map(|(cores, slot, most)| (bus(cores, slot, 1), most));
    let with_9 = unequal.into_iter().map(|(pairs, most)| (schedule(1, &pairs), most));
    for (field_1, most) in with_1.chain(with_9) {
        let opening = [field_1, starts(&[0])].concat();
        for number in 0..4u8 {
            let block = || fetch(number, 1, 1, 2);
            let lower = || fetch(0, 1, 1, 3);
            // alone; behind and before a lower line; not reached; not executed; as a test alone; in an arm; in every node; above the entry
            let all = [
                block(),
                [lower(), block(), sequence(&[0, 1])].concat(),
                [block(), lower(), sequence(&[0, 1])].concat(),
                [block(), plain(1, 1)].concat(),
                [block(), lower()].concat(),
                [block(), idle(), looped(0, 0, 0, 1)].concat(),
                [block(), idle(), looped(0, 0, 1, 0)].concat(),
                [block(), plain(1, 1), branch(&[0, 1]), sequence(&[2, 2])].concat(),
                [(0..=number).flat_map(|line| fetch(line, 1, 1, 2)).collect(), looped(1, 2, number.into(), 0)].concat(),
                [block().repeat(5), sequence(&[4, 3, 2, 1, 0])].concat(),
                [lower(), block(), sequence(&[0, 1]), entry(0)].concat(),
            ];
            for nodes in all {
                let image = [opening.clone(), nodes].concat();
                let refused = line(&format!("refused 18 {}", image.len()));
                add(image, if u32::from(number) < most { Accepted } else { refused });
            }
        }
        // "or 0"
        add([opening, bus_block(2, 1, 1)].concat(), Accepted);
    }
    // 1 to 6, 8 and 9 come before 18
    let wide = [bus(16, 16, 0), starts(&[0]), fetch(3, 1, 1, 1)].concat();
    let with = |more: Vec<u8>| [wide.clone(), more].concat();
    for (number, more) in [
        (1, vec![10]),
        (1, vec![10, 0]),
        (1, vec![10, 0, 5, 3, 1]),
        (2, field(9, &[3, 1, 1, 0, 1])),
        (11, entry(1)),
        (3, blank_nodes(256)),
        (4, field(10, &[3, 1, 1, 0])),
        (5, fetch(4, 1, 1, 1)),
        (5, plain(1, 0)),
        (6, sequence(&[1])),
    ] {
        let place = if number == 3 { 18 + 255 * 7 } else { 18 };
        add(with(more), line(&format!("refused {number} {place}")));
    }
    let over = |levels: u16, level: &dyn Fn(u16) -> Vec<u8>| with((0..levels).flat_map(level).collect());
    let placed = |number: u64, image: Vec<u8>| {
        let refused = line(&format!("refused {number} {}", image.len()));
        (image, refused)
    };
    for (image, expected) in [
        placed(18, over(23, &|below| sequence(&[below]))),
        placed(8, over(24, &|below| sequence(&[below]))),
        placed(18, over(23, &|below| looped(1, 1, below, 0))),
        placed(8, over(24, &|below| looped(1, 1, below, 0))),
        placed(18, over(23, &|below| looped(0, 0, 0, below))),
        placed(8, over(24, &|below| looped(0, 0, 0, below))),
        placed(18, over(15, &|below| sequence(&[below, below]))),
        placed(9, over(16, &|below| sequence(&[below, below]))),
        placed(9, over(23, &|below| sequence(&[below, below]))),
        placed(8, over(24, &|below| sequence(&[below, below]))),
        placed(18, with([looped(0, 10_000, 0, 0), looped(0, 4, 1, 0)].concat())),
        placed(9, with([looped(0, 10_000, 0, 0), looped(0, 5, 1, 0)].concat())),
        // deep and long nodes that are not reached do not count, their lines do
        placed(18, [over(24, &|below| sequence(&[below])), plain(1, 1)].concat()),
        placed(18, with([looped(0, 10_000, 0, 0), looped(0, 10_000, 1, 0), plain(1, 1)].concat())),
        // depth and visits are those of the node named
        placed(18, [over(24, &|below| sequence(&[below])), entry(23)].concat()),
        placed(8, [over(24, &|below| sequence(&[below])), entry(24)].concat()),
        placed(8, [over(24, &|below| sequence(&[below])), plain(1, 1), entry(24)].concat()),
        placed(18, with([looped(0, 10_000, 0, 0), looped(0, 5, 1, 0), entry(1)].concat())),
        placed(9, with([looped(0, 10_000, 0, 0), looped(0, 5, 1, 0), entry(2)].concat())),
        placed(9, with([looped(0, 10_000, 0, 0), looped(0, 5, 1, 0), plain(1, 1), entry(2)].concat())),
        placed(18, with(entry(0))),
    ] {
        add(image, expected);
    }
}

/// "The entry's depth is at most 24 and its visits at most 100,000."
pub fn depth_and_visits(cases: &mut Cases) {
    let mut add = |nodes: &[Vec<u8>], expected: Expected| {
        cases.add("depth and visits", [small_bus(), starts(&[1, 4]), nodes.concat()].concat(), expected);
    };
    let tower = |levels: u16, level: &dyn Fn(u16) -> Vec<u8>| tower(a2(), levels, level);
    for levels in [1, 5, 22, 23, 24, 25, 26, 100, 254, 255] {
        let expected = || either(levels <= 23, 8);
        add(&tower(levels, &|below| sequence(&[below])), expected());
        add(&tower(levels, &|below| sequence(&[0, below])), expected());
        add(&tower(levels, &|below| branch(&[below, 0])), expected());
        add(&tower(levels, &|below| branch(&[0, below])), expected());
        add(&tower(levels, &|below| looped(1, 1, below, 0)), expected());
        add(&tower(levels, &|below| looped(0, 1, below, 0)), expected());
        // "Depth counts the body of a loop" that executes none; and its test
        add(&tower(levels, &|below| looped(0, 0, below, 0)), expected());
        add(&tower(levels, &|below| looped(0, 0, 0, below)), expected());
        add(&tower(levels, &|below| looped(0, 0, below, below)), expected());
        add(&tower(levels, &|below| if below % 2 == 0 { looped(0, 0, 0, below) } else { looped(0, 0, below, 0) }), expected());
        add(
            &tower(levels, &|below| match below % 3 {
                0 => sequence(&[below]),
                1 => branch(&[0, below]),
                _ => looped(0, 1, below, 0),
            }),
            expected(),
        );
        // a deep node that the entry does not reach, or reaches only in a loop of no iterations, or as a test
        if levels < 255 {
            let mut nodes = tower(levels, &|below| sequence(&[below]));
            nodes.push(plain(3, 4));
            add(&nodes, Accepted);
            for above in [looped(0, 0, levels, 0), looped(0, 0, 0, levels), looped(3, 3, 0, levels)] {
                nodes.pop();
                nodes.push(above);
                add(&nodes, either(levels <= 22, 8));
            }
        }
        // 8 comes before 9
        let doubled = tower(levels, &|below| sequence(&[below, below]));
        let visits_fit = levels <= 15;
        add(&doubled, if levels > 23 { Refused(8) } else { either(visits_fit, 9) });
        let doubled = tower(levels, &|below| branch(&[below, below]));
        add(&doubled, if levels > 23 { Refused(8) } else { either(visits_fit, 9) });
        let repeated = tower(levels, &|below| looped(0, 10_000, below, 0));
        add(&repeated, if levels > 23 { Refused(8) } else { either(levels == 1, 9) });
        // a test of one iteration counts twice: 3 × 2^levels − 2; body and test: three times
        let tested = tower(levels, &|below| looped(0, 1, 0, below));
        add(&tested, if levels > 23 { Refused(8) } else { either(visits_fit, 9) });
        let tested = tower(levels, &|below| looped(0, 1, below, below));
        add(&tested, if levels > 23 { Refused(8) } else { either(levels <= 10, 9) });
    }
    for levels in [14, 15, 16, 17] {
        add(&tower(levels, &|below| sequence(&[below, below])), either(levels <= 15, 9));
        add(&tower(levels, &|below| branch(&[below, below])), either(levels <= 15, 9));
        add(&tower(levels, &|below| looped(0, 1, 0, below)), either(levels <= 15, 9));
    }
    for levels in [9, 10, 11, 12] {
        add(&tower(levels, &|below| looped(0, 1, below, below)), either(levels <= 10, 9));
    }

    // sequences of 10,000-fold loops, the last with fewer: 1 + 4 × 20,002 + (2 × last + 2) + more blocks
    for (last, more) in [(9_993, 2), (9_993, 3), (9_993, 4), (9_994, 0), (9_994, 1), (9_994, 2), (9_995, 0), (10_000, 0)] {
        let mut named = vec![1, 1, 1, 1, 2];
        named.resize(5 + more, 0);
        let visits = 1 + 4 * 20_002 + (2 * last as u64 + 2) + more as u64;
        add(&[plain(1, 2), looped(0, 10_000, 0, 0), looped(3, last, 0, 0), sequence(&named)], either(visits <= 100_000, 9));
    }
    // a branch adds all its arms, though one is executed: 1 + 8 × arm, where an arm has 1 + count × 3 + 1
    for (count, more) in [(4_165, 0), (4_166, 0), (4_165, 1)] {
        // with one more the last arm is a sequence of that and two blocks
        let arms = [2u16, 2, 2, 2, 2, 2, 2, if more == 1 { 3 } else { 2 }];
        let body = [plain(0, 0), sequence(&[0]), looped(count, count, 1, 0), sequence(&[2, 0, 0])];
        let arm = 1 + u64::from(count) * 3 + 1;
        let visits = 1 + 8 * arm + if more == 1 { 3 } else { 0 };
        let mut nodes = body.to_vec();
        nodes.push(branch(&arms));
        add(&nodes, either(visits <= 100_000, 9));
    }
    // 1 + 12,498 + 1 = 12,500; eight arms and the branch: 100,001; with one arm of one visit less: 100,000
    let twelve = [plain(0, 1), looped(0, 6_248, 0, 0), sequence(&[1, 0])];
    let mut nodes = twelve.to_vec();
    nodes.push(branch(&[2, 2, 2, 2, 2, 2, 2, 2]));
    add(&nodes, Refused(9));
    let mut nodes = twelve.to_vec();
    nodes.extend([sequence(&[1]), branch(&[2, 2, 2, 2, 2, 2, 2, 3])]);
    add(&nodes, Accepted);
    // loops in loops, with a block as test: 1 + outer × (1 + inner × 2 + 1 + 1) + 1
    for (outer, inner, expected) in [
        (4, 10_000, Accepted),
        (5, 10_000, Refused(9)),
        (5, 9_998, Accepted),
        (5, 9_999, Refused(9)),
        (10_000, 3, Accepted),
        (10_000, 4, Refused(9)),
        (9_090, 4, Accepted),
        (9_091, 4, Refused(9)),
        (1, 10_000, Accepted),
        (0, 10_000, Accepted),
        (10_000, 0, Accepted),
    ] {
        add(&[a2(), looped(inner, inner, 0, 0), looped(outer, outer, 1, 0)], expected.clone());
        add(&[plain(1, 1), looped(0, inner, 0, 0), looped(0, outer, 1, 0)], expected);
    }
    // "0 × huge = 0": visits far above 64 bits below a loop of no iterations, reached and unreached
    for levels in [2u16, 3, 5, 10, 20] {
        let mut nodes = vec![plain(5, 5)];
        nodes.extend((0..levels).map(|below| looped(10_000, 10_000, below, 0)));
        add(&nodes, Refused(9));
        nodes.push(looped(0, 0, levels, 0));
        add(&nodes, Accepted);
        nodes.push(sequence(&[0, levels + 1, 0]));
        add(&nodes, Accepted);
        nodes.push(sequence(&[0, levels]));
        add(&nodes, Refused(9));
        nodes.push(plain(2, 9));
        add(&nodes, Accepted);
    }
    // visits that 16, 32 and 64 bits would lose
    for power in [16, 17, 31, 32, 33, 40, 63, 64, 65] {
        for more in [0u128, 1, 2, 7, 30_000, 99_999] {
            let visits = (1u128 << power) + more;
            let mut nodes = with_visits(visits);
            add(&nodes, either(visits <= 100_000, 9));
            nodes.push(looped(0, 0, nodes.len() as u16 - 1, 0));
            add(&nodes, Accepted);
        }
    }
    for visits in [99_998, 99_999, 100_000, 100_001, 100_002] {
        add(&with_visits(visits), either(visits <= 100_000, 9));
    }
    // all 255 loops over each other, none reached
    let mut nodes = vec![plain(1, 1)];
    nodes.extend((0..254).map(|below| looped(10_000, 10_000, below, below)));
    nodes.push(a2());
    add(&nodes, Accepted);
}

/// Nodes of which the last has exactly so many visits, about 2 deep for each factor of 10,000.
fn with_visits(visits: u128) -> Vec<Vec<u8>> {
    let mut nodes = vec![plain(0, 1)];
    add_visits(&mut nodes, visits);
    nodes
}

/// Adds nodes to these, of which the first is a block. The number of one that has exactly so many visits: the last, or the block.
fn add_visits(nodes: &mut Vec<Vec<u8>>, visits: u128) -> u16 {
    if visits == 1 {
        return 0;
    }
    // a loop over the block, which is its test too, has 1 + count × 2 + 1 visits; a sequence of it 1 more
    if visits <= 20_003 {
        nodes.push(looped(0, (visits as u16 - 2) / 2, 0, 0));
        if visits % 2 == 1 {
            nodes.push(sequence(&[nodes.len() as u16 - 1]));
        }
        return nodes.len() as u16 - 1;
    }
    // 1 + (1 + 10,000 × (body + 1) + 1) + rest
    let body = (visits - 4) / 10_000 - 1;
    let rest = visits - 3 - 10_000 * (body + 1);
    let body = add_visits(nodes, body);
    let rest = add_visits(nodes, rest);
    nodes.push(looped(1, 10_000, body, 0));
    nodes.push(sequence(&[nodes.len() as u16 - 1, rest]));
    nodes.len() as u16 - 1
}

/// The entry named in the image, change request W1: tasks with what `figure` writes for them, worked out here. Cores 2, slot 5, core 0,
/// P = 10, unless said.
pub fn worked_entries(cases: &mut Cases) {
    let mut task =
        |field_1: Vec<u8>, from: &[u8], (nodes, named): (&[Vec<u8>], u16), figures: (u64, u64), exits: &[(u64, u64)]| {
            let image = [field_1, starts(from), nodes.concat(), entry(named)].concat();
            cases.add("worked entries", image, listing(figures, exits));
        };
    // each node of one image, from {4}. A2: a wait of 6, 2 after 8. Plain 3: 7 after 3. A branch of both. "Loop over A2, counts 1 to 3,
    // from {4}: 2 after 18, 4 after 10". A2 and then plain 3: 5 after 11. Plain 3 and then the loop: from 7 a wait of 3, 2 after 8, 4 after
    // 10, 2 after 18. The loop's test, plain 0: 4 after 0.
    let nodes =
        [a2(), plain(3, 3), branch(&[0, 1]), idle(), looped(1, 3, 0, 3), sequence(&[0, 1]), sequence(&[1, 4]), plain(7, 7)];
    task(small_bus(), &[4], (&nodes, 0), (8, 8), &[(2, 8)]);
    task(small_bus(), &[4], (&nodes, 1), (3, 3), &[(7, 3)]);
    task(small_bus(), &[4], (&nodes, 2), (8, 8), &[(2, 8), (7, 3)]);
    task(small_bus(), &[4], (&nodes, 3), (0, 0), &[(4, 0)]);
    task(small_bus(), &[4], (&nodes, 4), (18, 18), &[(2, 18), (4, 10)]);
    task(small_bus(), &[4], (&nodes, 5), (11, 11), &[(5, 11)]);
    task(small_bus(), &[4], (&nodes, 6), (18, 18), &[(2, 18), (4, 10)]);
    task(small_bus(), &[4], (&nodes, 7), (7, 7), &[(1, 7)]);
    // "A2 twice from {3, 5}", its entry below others that use it
    let twice = [a2(), sequence(&[0, 0]), sequence(&[1, 1]), looped(1, 10_000, 2, 1)];
    task(small_bus(), &[3, 5], (&twice, 1), (9, 14), &[(2, 9), (4, 9)]);
    task(small_bus(), &[3, 5], (&twice, 0), (7, 7), &[(2, 7), (5, 2)]);
    // one node, which is the first and the last
    task(small_bus(), &[4], (&[a2()], 0), (8, 8), &[(2, 8)]);
    // "Loop, counts 0 to 0, from {4}: exit 4, both figures 0."
    task(small_bus(), &[4], (&[a2(), idle(), looped(0, 0, 0, 1), looped(1, 1, 0, 1)], 2), (0, 0), &[(4, 0)]);
    // the number's low byte: each node k of 256 is plain k, from {0}
    let each: Vec<Vec<u8>> = (0..256).map(|own| plain(own, own)).collect();
    for number in (0..=255).step_by(17).chain([1, 127, 128, 129, 254]) {
        let time = u64::from(number);
        task(small_bus(), &[0], (&each, number), (time, time), &[(time % 10, time)]);
    }
    // fetched once, 2 cycles and a hit of 1: two in a row from {4}, below a node that executes more: 2 after 8, 3 after 9. Published: {4}
    // costs 8 and ends at {2, 5}, from 5 an access takes 7.
    let fetched = [fetch(0, 2, 2, 1), sequence(&[0, 0]), sequence(&[1, 1])];
    task(small_bus(), &[4], (&fetched, 1), (9, 15), &[(3, 9)]);
    // a line of a node above the entry counts, and is not fetched: 64 × 16 = 1,024
    let above = [plain(1, 1), fetch(3, 2, 2, 1), sequence(&[1, 0])];
    task(bus(4, 16, 0), &[0], (&above, 0), (1, 1), &[(1, 1)]);
    task(bus(4, 16, 0), &[0], (&above, 1), (2, 2), &[(2, 2)]);
    // slots of unequal length: core 0 owns 0 to 2, and 5 and 6 of ten. 2 cycles from {6}: a wait of 4, 2 after 6; 3 cycles: 3 after 7.
    let blocks = [a2(), bus_block(2, 3, 3), sequence(&[0, 1])];
    task(two_slots(0), &[6], (&blocks, 0), (6, 6), &[(2, 6)]);
    task(two_slots(0), &[6], (&blocks, 1), (7, 7), &[(3, 7)]);

    let mut add = |field_1: Vec<u8>, nodes: &[Vec<u8>], named: u16, expected: Expected| {
        cases.add("worked entries", [field_1, starts(&[0]), nodes.concat(), entry(named)].concat(), expected);
    };
    // "A block under 23 nested one-child sequences is accepted, under 24 gives 8."
    for (levels, named) in [(23, 23), (24, 23), (24, 0), (30, 23), (255, 23), (255, 22), (255, 1)] {
        add(small_bus(), &tower(a2(), levels, &|below| sequence(&[below])), named, line("tight 2\npublished 2\nexits 1\n2 2"));
    }
    for (levels, named) in [(24, 24), (25, 24), (255, 24), (255, 255)] {
        let refused = line(&format!("refused 8 {}", 6 + 4 + 6 + u64::from(levels) * 5 + 5));
        add(small_bus(), &tower(a2(), levels, &|below| sequence(&[below])), named, refused);
    }
    // the one named is too deep, and the last is not
    let deep = [tower(a2(), 24, &|below| sequence(&[below])), vec![plain(1, 1)]].concat();
    add(small_bus(), &deep, 24, line(&format!("refused 8 {}", 6 + 4 + 6 + 24 * 5 + 7 + 5)));
    add(small_bus(), &deep, 25, line("tight 1\npublished 1\nexits 1\n1 1"));
    // a loop of 10,000 over a block: 20,002 visits, inside a loop of 4: 80,014, inside a loop of 5: 100,017
    let inside = [
        plain(10, 10),
        idle(),
        looped(10_000, 10_000, 0, 1),
        looped(4, 4, 2, 1),
        looped(5, 5, 2, 1),
        looped(2, 2, 4, 1),
        plain(1, 1),
    ];
    let (refused, length) = (|length: usize| line(&format!("refused 9 {length}")), 6 + 4 + 7 + 7 + 4 * 11 + 5);
    add(small_bus(), &inside[..6], 2, line("tight 100000\npublished 100000\nexits 1\n0 100000"));
    add(small_bus(), &inside[..6], 3, line("tight 400000\npublished 400000\nexits 1\n0 400000"));
    add(small_bus(), &inside[..6], 4, refused(length));
    add(small_bus(), &inside[..6], 5, refused(length));
    // the one named is too long, and the last is not
    add(small_bus(), &inside, 4, refused(length + 7));
    add(small_bus(), &inside, 6, line("tight 1\npublished 1\nexits 1\n1 1"));
    // 65 × 16 = 1,040
    add(bus(5, 13, 0), &above, 0, line("refused 18 37"));
    add(bus(5, 13, 0), &above, 1, line("refused 18 37"));
}

/// "A field with tag 8 and body length 2 may close the image after at least one node field and holds the entry's node number". "11 entry,
/// the number in tag 8 is not that of a node, judged and placed in that field as 5 is."
pub fn limits_of_entries(cases: &mut Cases) {
    let mut add = |image: Vec<u8>, expected: Expected| cases.add("limits of entries", image, expected);
    let at = |number: u64, place: usize| line(&format!("refused {number} {place}"));
    let openings = [[small_bus(), starts(&[0, 4])].concat(), [two_slots(0), starts(&[0, 4])].concat()];

    // every number on both sides, and what a byte would make of it; a node's own duration shows which it is
    for (opening, count) in openings.iter().flat_map(|opening| [1, 2, 3, 10, 255, 256].map(|count| (opening, count))) {
        let nodes: Vec<u8> = (0..count).flat_map(|own| plain(own, own)).collect();
        let place = opening.len() + nodes.len();
        for number in
            [0, 1, 2, count / 2, count - 1, count, count + 1, 9, 10, 11, 254, 255, 256, 257, 511, 512, count + 255, count + 256]
                .into_iter()
                .chain([4_096, 32_767, 32_768, 65_280, 65_281, 65_534, 65_535])
        {
            let image = [opening.clone(), nodes.clone(), entry(number)].concat();
            add(image, if number < count { Accepted } else { at(11, place) });
        }
    }
    let opening = &openings[0];
    let with = |nodes: &[u8], more: Vec<u8>| [&opening[..], nodes, &more[..]].concat();
    let (one, full) = (plain(1, 1), blank_nodes(256));
    for nodes in [&one, &full] {
        let place = opening.len() + nodes.len();
        // "body length 2", with a body of that many bytes, and with none
        for length in (0..=9).chain([32, 65, 255, 256, 257, 258, 512, 514]) {
            let expected = || if length == 2 { Accepted } else { at(4, place) };
            add(with(nodes, field(8, &vec![0; length])), expected());
            add(
                with(nodes, [field(8, &vec![0; length]), plain(1, 1)].concat()),
                at(if length == 2 { 2 } else { 4 }, place + usize::from(length == 2) * 5),
            );
            add(with(nodes, field(8, &vec![9; length])[..3].to_vec()), at(if length == 2 { 1 } else { 4 }, place));
        }
        add(with(nodes, vec![8, 255, 255]), at(4, place));
        // cut at each byte, with a good number and with one that is none
        for number in [0, 256, 65_535] {
            for left in 1..5 {
                add(with(nodes, entry(number)[..left].to_vec()), at(1, place));
            }
        }
        // "A field after it has the wrong tag": any, whatever its length, body and number, a second tag 8 too
        let behind = with(nodes, entry(0));
        for tag in (0..=12).chain([16, 136, 255]) {
            for rest in [vec![0, 0], vec![255, 255], vec![0, 2, 0, 0], vec![0, 4, 0, 1, 0, 1], vec![0, 4, 0, 1]] {
                add([behind.clone(), vec![tag], rest].concat(), at(2, place + 5));
            }
            // 1 or 2 bytes are a head that is cut
            add([behind.clone(), vec![tag]].concat(), at(1, place + 5));
            add([behind.clone(), vec![tag, 0]].concat(), at(1, place + 5));
        }
        for field in [a2(), fetch(0, 1, 1, 1), sequence(&[0]), branch(&[0, 0]), looped(1, 1, 0, 0), small_bus(), starts(&[0])] {
            add([behind.clone(), field.clone()].concat(), at(2, place + 5));
            add([behind.clone(), field, entry(0)].concat(), at(2, place + 5));
        }
        for number in [0, 1, 255, 256, 65_535] {
            add([behind.clone(), entry(number)].concat(), at(2, place + 5));
        }
        // what is wrong in it goes before what stands behind
        for later in [vec![3], vec![3, 0], plain(1, 1), entry(0), field(11, &[]), blank_nodes(300)] {
            add(with(nodes, [entry(256), later.clone()].concat()), at(11, place));
            add(with(nodes, [field(8, &[0]), later].concat()), at(4, place));
        }
    }
    // two different ones
    let pair = with(&[], [plain(1, 1), plain(2, 2), entry(0)].concat());
    add([pair.clone(), entry(1)].concat(), at(2, pair.len()));
    // a 257th node field before it is one too many
    for (opening, number) in openings.iter().flat_map(|opening| [0, 1, 255, 256, 257, 65_535].map(|number| (opening, number))) {
        for nodes in [257, 258] {
            add([opening.clone(), blank_nodes(nodes), entry(number)].concat(), at(3, opening.len() + 256 * 7));
        }
    }
    add(with(&blank_nodes(255), [fetch(3, 1, 5, 2), entry(255)].concat()), Accepted);

    // "Before the first node field it has the wrong tag": cut or whole, whatever its length and number, and whatever follows
    for opening in &openings {
        let first = opening.len() - 5;
        for (before, place) in [(Vec::new(), 0), (opening[..first].to_vec(), first), (opening.clone(), opening.len())] {
            for tag_8 in [entry(0), entry(1), entry(65_535), vec![8, 0, 2], vec![8, 0, 2, 0], vec![8, 0, 0], vec![8, 255, 255]] {
                add([before.clone(), tag_8.clone()].concat(), at(2, place));
                add([before.clone(), tag_8.clone(), plain(1, 1)].concat(), at(2, place));
                add([before.clone(), tag_8, plain(1, 1), entry(0)].concat(), at(2, place));
            }
            add([before.clone(), vec![8]].concat(), at(1, place));
            add([before, vec![8, 0]].concat(), at(1, place));
        }
        // between nodes: what follows is at fault
        let between = [&opening[..], &plain(1, 1), &entry(0)].concat();
        for node in [plain(1, 1), a2(), sequence(&[0]), looped(0, 1, 0, 0)] {
            add([between.clone(), node.clone()].concat(), at(2, between.len()));
            add([between.clone(), node, entry(1)].concat(), at(2, between.len()));
        }
    }

    // nodes above the entry are judged like all others
    let place = opening.len() + 7;
    for (number, node) in [
        (2, field(9, &[])),
        (2, field(0, &[0, 0])),
        (4, field(3, &[0, 1, 0])),
        (4, field(10, &[0, 1, 1, 0])),
        (5, plain(1, 0)),
        (5, plain(0, 64)),
        (5, bus_block(2, 1, 6)),
        (5, bus_block(3, 1, 1)),
        (5, fetch(4, 1, 1, 1)),
        (4, field(7, &[0, 0, 0, 1, 0, 0])),
        (5, looped(2, 1, 0, 0)),
        (6, sequence(&[1])),
        (6, branch(&[0, 1])),
        (6, looped(0, 0, 1, 0)),
        (6, looped(0, 0, 0, 1)),
        (6, sequence(&[0, 65_535])),
    ] {
        for named in [0, 1, 2] {
            add(with(&one, [node.clone(), entry(named)].concat()), at(number, place));
        }
    }
    add(with(&one, vec![3, 0, 4, 0, 0, 8]), at(1, place));

    // every kind of node is an entry, first, in the middle and last; all of them stand above each other
    let kinds =
        [a2(), plain(2, 5), bus_block(1, 1, 3), fetch(2, 1, 2, 9), sequence(&[0, 1]), branch(&[2, 3]), looped(0, 2, 5, 1)];
    for opening in &openings {
        for number in 0..8 {
            let expected = if number < 7 { Accepted } else { at(11, opening.len() + 6 + 7 + 6 + 8 + 7 + 7 + 11) };
            add([opening.clone(), kinds.concat(), entry(number)].concat(), expected);
        }
    }

    // "Depth and visits are those of the node named": on both sides, below and above nodes with more and with fewer
    let mut add = |nodes: &[Vec<u8>], named: u16, expected: Expected| {
        add([opening.clone(), nodes.concat(), entry(named)].concat(), expected);
    };
    for levels in [23, 24, 25, 26, 60, 255] {
        // 11 goes before 8 and 9
        for nodes in [tower(a2(), levels, &|below| sequence(&[below])), tower(a2(), levels, &|below| branch(&[below, below]))] {
            add(&nodes, levels + 1, at(11, opening.len() + nodes.concat().len()));
        }
        for named in [0, 1, 14, 15, 16, 17, 22, 23, 24, 25, 128, 254, 255] {
            if named > levels {
                continue;
            }
            let placed = |number: u64, nodes: &[Vec<u8>]| at(number, opening.len() + nodes.concat().len() + 5);
            let deep = tower(a2(), levels, &|below| sequence(&[below]));
            add(&deep, named, if named <= 23 { Accepted } else { placed(8, &deep) });
            let deep = tower(a2(), levels, &|below| looped(0, 1, below, 0));
            add(&deep, named, if named <= 23 { Accepted } else { placed(8, &deep) });
            let deep = tower(a2(), levels, &|below| looped(0, 0, 0, below));
            add(&deep, named, if named <= 23 { Accepted } else { placed(8, &deep) });
            let long = tower(a2(), levels, &|below| branch(&[below, below]));
            let expected = match named {
                0..=15 => Accepted,
                16..=23 => placed(9, &long),
                _ => placed(8, &long),
            };
            add(&long, named, expected);
            // the last one is a block
            let mut deep = tower(a2(), levels - 1, &|below| sequence(&[below]));
            deep.push(plain(1, 1));
            add(&deep, named, if named <= 23 || named == levels { Accepted } else { placed(8, &deep) });
        }
    }
    for visits in [99_997, 99_999, 100_000, 100_001, 1 << 32, 1 << 64] {
        let mut nodes = with_visits(visits);
        let last = nodes.len() as u16 - 1;
        for named in [0, 1, last] {
            add(&nodes, named, if named < last || visits <= 100_000 { Accepted } else { Refused(9) });
        }
        // 2, visits + 3 and visits + 1
        nodes.extend([looped(0, 0, last, 0), looped(1, 1, last, 0), looped(0, 0, 0, last)]);
        add(&nodes, last, either(visits <= 100_000, 9));
        add(&nodes, last + 1, Accepted);
        add(&nodes, last + 2, either(visits + 3 <= 100_000, 9));
        add(&nodes, last + 3, either(visits < 100_000, 9));
    }
}

/// Loops tested at the head, change request W3: tasks with what `figure` writes for them, worked out here. Cores 2, slot 5, core 0, P = 10,
/// unless said; A1 and A2 are always-access blocks of durations 1 and 2. An access of 2 waits 0 from 0 to 3, and 10 − o from an offset o
/// above.
pub fn worked_tests(cases: &mut Cases) {
    let mut add = |image: Vec<u8>, figures: (u64, u64), exits: &[(u64, u64)]| {
        cases.add("worked tests", image, listing(figures, exits));
    };
    let mut task = |field_1: Vec<u8>, from: &[u8], nodes: &[Vec<u8>], figures: (u64, u64), exits: &[(u64, u64)]| {
        add([field_1, starts(from), nodes.concat()].concat(), figures, exits);
    };
    let mut small =
        |from: &[u8], nodes: &[Vec<u8>], times: (u64, u64), exits: &[(u64, u64)]| task(small_bus(), from, nodes, times, exits);
    let one = || plain(1, 1);

    // a test that accesses: A2, with plain 1 as body, from {4}. The test: 2 after 8. Then plain 1 and the test: 3 after 9, 5 after 11. Again:
    // 6 after 12, 2 after 18. "a count of 0 still executes it once". Published: 8, and 1 + 2, and 1 + 6.
    let accesses = |least, greatest| [a2(), one(), looped(least, greatest, 1, 0)];
    small(&[4], &accesses(0, 0), (8, 8), &[(2, 8)]);
    small(&[4], &accesses(0, 1), (11, 11), &[(2, 8), (5, 11)]);
    small(&[4], &accesses(1, 1), (11, 11), &[(5, 11)]);
    small(&[4], &accesses(0, 2), (18, 18), &[(2, 18), (5, 11)]);
    small(&[4], &accesses(2, 2), (18, 18), &[(2, 18)]);
    // the other way round, A2 as body and plain 1 as test, from {4}: 5 after 1; 2 after 8, 3 after 9; 5 after 11, 6 after 12. Published: 1,
    // and 7 + 1, and 2 + 1.
    let other = |least, greatest| [a2(), one(), looped(least, greatest, 0, 1)];
    small(&[4], &other(0, 0), (1, 1), &[(5, 1)]);
    small(&[4], &other(0, 1), (9, 9), &[(3, 9), (5, 1)]);
    small(&[4], &other(0, 2), (12, 12), &[(3, 9), (5, 1), (6, 12)]);
    small(&[4], &other(1, 2), (12, 12), &[(3, 9), (6, 12)]);
    // A1 as test, plain 1 as body, from {0}: 1 after 1, 3 after 3, 5 after 5; then from 6 a wait of 4: 1 after 11
    let steps = |least, greatest| [bus_block(2, 1, 1), one(), looped(least, greatest, 1, 0)];
    small(&[0], &steps(0, 2), (5, 5), &[(1, 1), (3, 3), (5, 5)]);
    small(&[0], &steps(1, 2), (5, 5), &[(3, 3), (5, 5)]);
    small(&[0], &steps(2, 2), (5, 5), &[(5, 5)]);
    small(&[0], &steps(0, 3), (11, 11), &[(1, 11), (3, 3), (5, 5)]);
    small(&[0], &steps(1, 3), (11, 11), &[(1, 11), (3, 3), (5, 5)]);
    small(&[0], &steps(3, 3), (11, 11), &[(1, 11)]);
    // "A2 twice from {3, 5}": as the test before and after a body of no cycles
    small(&[3, 5], &[a2(), idle(), looped(1, 1, 1, 0)], (9, 14), &[(2, 9), (4, 9)]);
    // "May access, duration 2, from {4}: exits 6 after 2, 2 after 8.": the test of a loop of no iterations
    small(&[4], &[bus_block(1, 2, 2), one(), looped(0, 0, 1, 0)], (8, 8), &[(2, 8), (6, 2)]);

    // a test of two durations, plain 0 to 1, with plain 2 as body, from {0}: 0 after 0, 1 after 1. Then 2 after 2 and 3 after 3, and with the
    // test 2 to 4 after 2 to 4: "Every choice is open again at each execution". Published: 1 + 2 + 1.
    let durations = |least, greatest| [plain(0, 1), plain(2, 2), looped(least, greatest, 1, 0)];
    small(&[0], &durations(0, 0), (1, 1), &[(0, 0), (1, 1)]);
    small(&[0], &durations(1, 1), (4, 4), &[(2, 2), (3, 3), (4, 4)]);
    small(&[0], &durations(0, 1), (4, 4), &[(0, 0), (1, 1), (2, 2), (3, 3), (4, 4)]);
    // an access of 1 to 2 cycles, with a body of no cycles, from {3}: 4 after 1, 5 after 2. Again, from 4: 5 after 2, 2 after 9; from 5: 1
    // after 8, 2 after 9. Published: 2, and from {4, 5} 8.
    let ranged = |count| [bus_block(2, 1, 2), idle(), looped(count, count, 1, 0)];
    small(&[3], &ranged(0), (2, 2), &[(4, 1), (5, 2)]);
    small(&[3], &ranged(1), (9, 10), &[(1, 8), (2, 9), (5, 2)]);

    // a test that is the body: A2 once, 3 times, 5 times, from {4}: 2 after 8, 4 after 10, 2 after 18, 4 after 20, 2 after 28
    let same = |least, greatest| [a2(), looped(least, greatest, 0, 0)];
    small(&[4], &same(0, 0), (8, 8), &[(2, 8)]);
    small(&[4], &same(1, 1), (18, 18), &[(2, 18)]);
    small(&[4], &same(0, 2), (28, 28), &[(2, 28)]);
    // plain 3, from {0}: 3, 9, 15
    small(&[0], &[plain(3, 3), looped(0, 2, 0, 0)], (15, 15), &[(3, 3), (5, 15), (9, 9)]);
    // and around that a loop with another test
    small(&[0], &[one(), plain(3, 3), looped(0, 1, 1, 1), looped(1, 1, 2, 0)], (11, 11), &[(1, 11), (5, 5)]);

    // a test that fetches a line, of 2 cycles and with a hit of 1, and plain 3 as body, from {4}: 2 after 8; 5 after 11, a hit: 6 after 12;
    // 9 after 15, a hit: 0 after 16. Published: 8, ends at {2, 5}; 3, {5, 8}; 7, ends at {2, 6, 9}; 3, {2, 5, 9}; 7.
    let fetched = |least, greatest| [fetch(0, 2, 2, 1), plain(3, 3), looped(least, greatest, 1, 0)];
    small(&[4], &fetched(0, 0), (8, 8), &[(2, 8)]);
    small(&[4], &fetched(1, 1), (12, 18), &[(6, 12)]);
    small(&[4], &fetched(0, 2), (16, 28), &[(0, 16), (2, 8), (6, 12)]);
    // the body has the line too, of 3 cycles and with a hit of 5, from {0}: the test accesses, 2 after 2; then hits: 7 after 7, 8 after 8.
    // Published: 2, ends at {1, 2}; 5, ends at {4, 5, 6, 7}; from 4 8.
    small(&[0], &[fetch(0, 2, 2, 1), fetch(0, 3, 3, 5), looped(1, 1, 1, 0)], (8, 15), &[(8, 8)]);
    // another line: 2 after 2, 5 after 5, and a hit: 6 after 6. Published the same.
    small(&[0], &[fetch(0, 2, 2, 1), fetch(1, 3, 3, 5), looped(1, 1, 1, 0)], (6, 15), &[(6, 6)]);
    // what the test of a loop of no iterations fetches is known behind it, from {4}: 2 after 8, 3 after 9. Published: 8, and from {2, 5} 7.
    let behind = [fetch(0, 2, 2, 1), idle(), looped(0, 0, 1, 0), sequence(&[2, 0])];
    small(&[4], &behind, (9, 15), &[(3, 9)]);
    // what is fetched before it is known in the test: 2 after 8, 3 after 9
    small(&[4], &[fetch(0, 2, 2, 1), idle(), looped(0, 0, 1, 0), sequence(&[0, 2])], (9, 15), &[(3, 9)]);
    // the test is a branch of plain 0 and a block of the line with a hit of 9, so that the body may be the first to fetch it, from {0}: 0
    // after 0 without it, 2 after 2 with it; then 2 after 2, or a hit: 3 after 3; then nothing, or a hit: 1 after 11, 2 after 12.
    // Published: 9, ends at {0, 2, 9}; 3, from 9, ends at {0, 1, 2, 3, 4}; 9.
    let in_body = [fetch(0, 2, 2, 1), fetch(0, 2, 2, 9), idle(), branch(&[2, 1]), looped(1, 1, 0, 3)];
    small(&[0], &in_body, (12, 21), &[(1, 11), (2, 12), (3, 3)]);

    // a test that is a branch of A2 and plain 1, and plain 1 as body, from {3}: 5 after 2, 4 after 1. Then 6 after 3, 5 after 2; the test
    // again, from 6: 2 after 9, 7 after 4; from 5: 2 after 9, 6 after 3. Published: 2 + 1 + 7.
    let branched = |least| [a2(), one(), branch(&[0, 1]), looped(least, 1, 1, 2)];
    small(&[3], &branched(0), (9, 10), &[(2, 9), (4, 1), (5, 2), (6, 3), (7, 4)]);
    small(&[3], &branched(1), (9, 10), &[(2, 9), (6, 3), (7, 4)]);
    // a sequence of A2 and plain 2, twice around plain 4, from {3}: 7 after 4; 1 after 8; 3 after 10, 5 after 12
    small(&[3], &[a2(), plain(2, 2), sequence(&[0, 1]), plain(4, 4), looped(1, 1, 3, 2)], (12, 12), &[(5, 12)]);
    // a loop of plain 1, 1 or 2 times, twice around plain 3, from {0}: 1 or 2, 3, and 1 or 2
    small(&[0], &[one(), idle(), looped(1, 2, 0, 1), plain(3, 3), looped(1, 1, 3, 2)], (7, 7), &[(5, 5), (6, 6), (7, 7)]);
    // a loop of A2, none or once, which has plain 1 as test, and is the test around plain 2, from {3}. The inner one: 4 after 1, or then 2
    // after 9 and 3 after 10. Plain 2: 6 after 3, or 5 after 12. The inner one from 6: 7 after 4, or then 2 after 9, 3 after 10; from 5: 6
    // after 13, or then 2 after 19, 3 after 20. Published: 1 + 8 + 1; 2; from {5, 6} 1 + 6 + 1.
    let inner = [a2(), one(), looped(0, 1, 0, 1), plain(2, 2), looped(0, 1, 3, 2)];
    small(&[3], &inner, (20, 20), &[(3, 20), (4, 1), (6, 13), (7, 4)]);

    // tests of nested loops: the inner one twice a body of no cycles and 3 times plain 1, the outer one twice that and 3 times plain 10
    let nested = [idle(), one(), plain(10, 10), looped(2, 2, 0, 1), looped(2, 2, 3, 2)];
    small(&[0], &nested, (36, 36), &[(6, 36)]);
    // both have the same test: 2 × 3 + 3; each has the other's: 2 × 3 × 10 + 3 × 1
    small(&[0], &[idle(), one(), looped(2, 2, 0, 1), looped(2, 2, 2, 1)], (9, 9), &[(9, 9)]);
    small(&[0], &[idle(), one(), plain(10, 10), looped(2, 2, 0, 2), looped(2, 2, 3, 1)], (63, 63), &[(3, 63)]);
    // three of them, 0 or 1 time each, with plain 1 as test: the innermost takes 1 or 2 + 4, the next 1 or 2 more than that, the outermost 1
    // or 2 more than that: 1, 3, 5, 10
    let three = [plain(4, 4), one(), looped(0, 1, 0, 1), looped(0, 1, 2, 1), looped(0, 1, 3, 1)];
    small(&[0], &three, (10, 10), &[(0, 10), (1, 1), (3, 3), (5, 5)]);
    // no iteration outside: the inner one is not executed, nor its tests
    small(&[4], &[a2(), one(), looped(3, 3, 0, 1), looped(0, 0, 2, 1)], (1, 1), &[(5, 1)]);

    // the exits lead on: plain 4 as test, plain 1 as body, none or once, then A2, from {0}: 4 after 4 or 9 after 9; from both 2 after 12.
    // Published: 9, and from {4, 9} 8.
    small(&[0], &[a2(), one(), plain(4, 4), looped(0, 1, 1, 2), sequence(&[3, 0])], (12, 17), &[(2, 12)]);
    // plain 2 as test, from {2}: 4 after 2 or 7 after 5; from both 2 after 10. Published: 5, and from {4, 7} 8.
    small(&[2], &[a2(), one(), plain(2, 2), looped(0, 1, 1, 2), sequence(&[3, 0])], (10, 13), &[(2, 10)]);
    // a loop of no iterations with plain 1 as test, and A2, twice, from {3}: 4 after 1, 2 after 9, 3 after 10, 5 after 12
    let twice = [a2(), one(), idle(), looped(0, 0, 0, 1), sequence(&[3, 0]), looped(2, 2, 4, 2)];
    small(&[3], &twice, (12, 12), &[(5, 12)]);
    // plain 1 as test, from {3}, then A2: 4 after 1, 2 after 9. Published: 1, and from 4 8.
    small(&[3], &[a2(), one(), looped(0, 0, 0, 1), sequence(&[2, 0])], (9, 9), &[(2, 9)]);
    // the whole exit set goes on: plain 0 to 1, then A2 as test around plain 1, from {3}: 3 after 0 and 4 after 1; 5 after 2 and 2 after 9; 6
    // after 3 and 3 after 10; 2 after 9 and 5 after 12. Published: 1; 8, ends at {2, 5}; 1; from {3, 6} 6.
    let whole = [a2(), one(), plain(0, 1), looped(1, 1, 1, 0), sequence(&[2, 3])];
    small(&[3], &whole, (12, 16), &[(2, 9), (5, 12)]);

    // long ones: 10,000 × 1 + 10,001 × 2, and with the numbers exchanged 10,000 × 2 + 10,001 × 1; a test of 65,535 alone
    small(&[0], &[one(), plain(2, 2), looped(10_000, 10_000, 0, 1)], (30_002, 30_002), &[(2, 30_002)]);
    small(&[0], &[one(), plain(2, 2), looped(10_000, 10_000, 1, 0)], (30_001, 30_001), &[(1, 30_001)]);
    small(&[0], &[plain(65_535, 65_535), one(), looped(0, 0, 1, 0)], (65_535, 65_535), &[(5, 65_535)]);

    // core 1, A2 as test around plain 1, from {9}: a wait of 6, 7 after 8; 8 after 9; 0 after 11
    task(bus(2, 5, 1), &[9], &accesses(1, 1), (11, 11), &[(0, 11)]);
    // slots of unequal length, core 0 owns 0 to 2, and 5 and 6: from {4} 7 after 3; 8 after 4, and with a wait of 2: 2 after 8
    task(two_slots(0), &[4], &accesses(0, 1), (8, 8), &[(2, 8), (7, 3)]);
    // fetched once, 3 cycles, a hit of 2, around plain 1, from {5}: a wait of 5, 3 after 8; 4 after 9; 6 after 11. Published: 8, ends at {3,
    // 7}; 1; from 4 a wait of 6 and 3.
    task(two_slots(0), &[5], &[fetch(0, 3, 3, 2), one(), looped(1, 1, 1, 0)], (11, 18), &[(6, 11)]);
    // a period of 1
    task(schedule(0, &[(0, 1)]), &[0], &[bus_block(2, 1, 1), looped(0, 7, 0, 0)], (15, 15), &[(0, 15)]);
    // 4 lines and 64 × 16 = 1,024, the highest of them in a test alone: from {0} 2 after 2
    task(bus(4, 16, 0), &[0], &[fetch(3, 2, 2, 1), idle(), looped(0, 0, 1, 0)], (2, 2), &[(2, 2)]);

    // the entry named: the loop with a test that accesses, below one of which it is the body, and one of which it is the test
    let mut named = |nodes: &[Vec<u8>], number: u16, times: (u64, u64), exits: &[(u64, u64)]| {
        add([small_bus(), starts(&[4]), nodes.concat(), entry(number)].concat(), times, exits);
    };
    let above = [&accesses(0, 1)[..], &[looped(5, 5, 2, 1), looped(0, 0, 1, 2), looped(1, 1, 2, 2)]].concat();
    named(&above, 2, (11, 11), &[(2, 8), (5, 11)]);
    named(&above, 4, (11, 11), &[(2, 8), (5, 11)]);
    named(&above, 0, (8, 8), &[(2, 8)]);
    named(&above, 1, (1, 1), &[(5, 1)]);
}

/// "Tag 7 now has body length 8: least, greatest, body, and the child number of a test node." 5 before 6, for both child numbers.
pub fn limits_of_tests(cases: &mut Cases) {
    let mut add = |image: Vec<u8>, expected: Expected| cases.add("limits of tests", image, expected);
    let at = |number: u64, place: usize| line(&format!("refused {number} {place}"));
    let openings = [[small_bus(), starts(&[0, 4])].concat(), [two_slots(0), starts(&[0, 4])].concat()];

    for opening in &openings {
        let begun = [&opening[..], &plain(3, 3), &a2()].concat();
        let place = begun.len();
        // lengths, with a body of that many bytes, which begins like that of a good loop, alone and before another node; and with none
        for length in (0..=12).chain([14, 16, 255, 256, 262, 264, 520, 2_048]) {
            let mut body = vec![0, 0, 0, 1, 0, 0, 0, 1];
            body.resize(length, 0);
            let image = [begun.clone(), field(7, &body)].concat();
            let expected = || if length == 8 { Accepted } else { at(4, place) };
            add(image.clone(), expected());
            add([image.clone(), plain(1, 1)].concat(), expected());
            add([image, sequence(&[2])].concat(), expected());
            add([begun.clone(), field(7, &body)[..3].to_vec()].concat(), at(if length == 8 { 1 } else { 4 }, place));
        }
        add([&begun[..], &[7, 255, 255]].concat(), at(4, place));
        // a length of 6 with 8 bytes, of 8 with 6, and of 8 with two bytes of the next field
        add([&begun[..], &[7, 0, 6, 0, 0, 0, 1, 0, 0, 0, 1]].concat(), at(4, place));
        add([&begun[..], &[7, 0, 8, 0, 0, 0, 1, 0, 0]].concat(), at(1, place));
        add([&begun[..], &[7, 0, 8, 0, 0, 0, 1, 0, 0], &plain(1, 1)].concat(), at(6, place));
        // cut at each byte, with good numbers, with a 5 and with a 6
        for node in [looped(0, 1, 0, 1), looped(1, 0, 0, 1), looped(0, 1, 2, 1), looped(0, 1, 0, 2), looped(9, 8, 9, 9)] {
            for left in 1..node.len() {
                add([&begun[..], &node[..left]].concat(), at(1, place));
            }
        }
        // 5 before 6: least and greatest, then body and test
        for (least, greatest) in [(0, 0), (0, 2), (1, 1), (1, 0), (10_000, 10_000), (0, 10_001), (65_535, 65_535)] {
            for (body, test) in [0, 1, 2, 3].into_iter().flat_map(|body| [0, 1, 2, 257, 65_535].map(|test| (body, test))) {
                let expected = if least > greatest || greatest > 10_000 {
                    at(5, place)
                } else if body >= 2 || test >= 2 {
                    at(6, place)
                } else {
                    Accepted
                };
                add([&begun[..], &looped(least, greatest, body, test)].concat(), expected);
            }
        }
        // a loop is no first node
        for node in [looped(0, 0, 0, 0), looped(0, 1, 0, 1), looped(0, 0, 65_535, 0)] {
            add([opening.clone(), node].concat(), at(6, opening.len()));
        }
        add([opening.clone(), looped(1, 0, 0, 0)].concat(), at(5, opening.len()));
        // one that the entry does not reach, and one above the entry
        for (number, node) in [
            (4, field(7, &[0, 0, 0, 1, 0, 0])),
            (5, looped(1, 0, 0, 0)),
            (6, looped(0, 0, 0, 2)),
            (6, looped(0, 0, 2, 0)),
            (6, looped(0, 1, 0, 256)),
        ] {
            add([&begun[..], &node, &plain(1, 1)].concat(), at(number, place));
            add([&begun[..], &node, &entry(0)].concat(), at(number, place));
            // what is wrong in it goes before what is wrong behind it
            for later in [vec![3], field(9, &[]), field(7, &[0; 6]), plain(1, 0), sequence(&[9])] {
                add([&begun[..], &node, &later].concat(), at(number, place));
            }
        }
        // a test that stands behind it
        add([&begun[..], &looped(0, 1, 0, 3), &plain(1, 1)].concat(), at(6, place));
        add([&begun[..], &looped(0, 1, 3, 0), &plain(1, 1), &entry(2)].concat(), at(6, place));
    }

    // both numbers on both sides of the own one, and what a byte would make of them
    for own in [1u16, 2, 3, 128, 254, 255] {
        let before = [&openings[0][..], &blank_nodes(own.into())].concat();
        let numbers = [0, own / 2, own - 1, own, own + 1, 255, 256, 256 + own - 1, 512, 32_768, 65_280, 65_535];
        for number in numbers {
            for node in
                [looped(0, 1, number, 0), looped(0, 1, 0, number), looped(0, 0, own - 1, number), looped(0, 0, number, own - 1)]
            {
                add([&before[..], &node].concat(), if number < own { Accepted } else { at(6, before.len()) });
            }
        }
    }
    // a node's own duration shows which is the test, and which the body: node k is plain k, and from {0} the test is executed 3 times
    let each: Vec<u8> = (0..255).flat_map(|own| plain(own, own)).collect();
    for (body, test) in
        [(0, 0), (0, 1), (1, 0), (3, 200), (200, 3), (127, 128), (128, 127), (254, 0), (0, 254), (254, 253), (16, 254)]
    {
        let time = 2 * u64::from(body) + 3 * u64::from(test);
        let image = [small_bus(), starts(&[0]), each.clone(), looped(2, 2, body, test)].concat();
        add(image, listing((time, time), &[(time % 10, time)]));
    }
    // every kind of node is a test, and every kind a body; all of them stand above each other
    let kinds =
        [a2(), plain(2, 5), bus_block(1, 1, 3), fetch(2, 1, 2, 9), sequence(&[0, 1]), branch(&[2, 3]), looped(0, 1, 0, 1)];
    for opening in &openings {
        for (kind, other) in (0..7).flat_map(|kind| [1, 3].map(|other| (kind, other))) {
            for (least, greatest) in [(0, 0), (0, 1), (2, 2)] {
                add([opening.clone(), kinds.concat(), looped(least, greatest, other, kind)].concat(), Accepted);
                add([opening.clone(), kinds.concat(), looped(least, greatest, kind, other)].concat(), Accepted);
            }
        }
    }
}

/// "Visits become 1 + greatest × (body + test) + test; depth counts the test as a child."
pub fn visits_of_tests(cases: &mut Cases) {
    let mut add = |nodes: &[Vec<u8>], expected: Expected| {
        cases.add("visits of tests", [small_bus(), starts(&[4]), nodes.concat()].concat(), expected);
    };
    // a loop whose body and test have so many visits; it is the last node
    let with = |greatest: u16, body: u128, test: u128| {
        let mut nodes = vec![plain(1, 1)];
        let body = add_visits(&mut nodes, body);
        let test = add_visits(&mut nodes, test);
        nodes.push(looped(greatest / 2, greatest, body, test));
        nodes
    };
    let formula = |greatest: u16, body: u128, test: u128| 1 + u128::from(greatest) * (body + test) + test;
    // on both sides of 100,000, by the body and by the test, and with both exchanged
    for greatest in [1, 3, 100, 10_000] {
        for few in [1, 5] {
            let times = u128::from(greatest);
            // the body: few are the visits of the test; and the other way round
            let body = (99_999 - few) / times - few;
            let test = (99_999 - times * few) / (times + 1);
            for (body, test) in [(body, few), (body + 1, few), (few, test), (few, test + 1), (test, few)] {
                add(&with(greatest, body, test), either(formula(greatest, body, test) <= 100_000, 9));
            }
        }
    }
    // exactly 100,000, one less and one more; a sequence of it has one more
    for (greatest, body, test) in
        [(3, 1, 24_999), (3, 2, 24_998), (3, 33_329, 3), (3, 33_328, 4), (9, 1, 9_999), (9, 11_101, 9), (9, 11_011, 90)]
    {
        let visits = formula(greatest, body, test);
        add(&with(greatest, body, test), either(visits <= 100_000, 9));
        let mut nodes = with(greatest, body, test);
        nodes.push(sequence(&[nodes.len() as u16 - 1]));
        add(&nodes, either(visits < 100_000, 9));
    }
    for test in [99_997, 99_998, 99_999, 100_000, 100_001] {
        add(&with(0, 1, test), either(test < 100_000, 9));
        add(&with(0, 1 << 70, test), either(test < 100_000, 9));
    }
    // with a greatest count of 0 an enormous body counts nothing, an enormous test does; nor does that body in loops around it
    for enormous in
        [100_000, 100_001, 1 << 16, 1 << 32, (1 << 32) + 1, 1 << 40, 1 << 63, (1 << 64) - 2, (1 << 64) - 1, 1 << 64, 1 << 80]
    {
        add(&with(0, enormous, 1), Accepted);
        add(&with(0, enormous, 500), Accepted);
        add(&with(0, 1, enormous), either(enormous < 100_000, 9));
        add(&with(0, enormous, enormous), either(enormous < 100_000, 9));
        add(&with(1, enormous, 1), either(enormous + 3 <= 100_000, 9));
        let mut nodes = with(0, enormous, 1);
        let last = nodes.len() as u16 - 1;
        // 1 + 100 × (2 + 1) + 1, and 1 + 100 × (1 + 2) + 2
        nodes.extend([looped(0, 100, last, 0), looped(0, 100, 0, last)]);
        add(&nodes, Accepted);
        nodes.push(looped(1, 1, last + 1, last + 2));
        add(&nodes, Accepted);
    }
    // what 16, 32 and 64 bits would lose: of the test twice, of the sum, of the product, of the last test
    for bits in [16, 32, 64] {
        let whole = 1u128 << bits;
        for more in [0, 5] {
            for (greatest, body, test) in [
                (1, 1 + more, whole / 2),
                (1, whole - 3 + more, 1),
                (5, whole - 1 + more, 3),
                (7, 3, whole - 3 + more),
                (10_000, whole / 16 - 1, 1),
                (10_000, whole / 16 + more, 1),
                (2, whole / 4, whole / 4),
                (3, whole / 4, whole / 4 + more),
                (0, 7, whole - 1 + more),
            ] {
                add(&with(greatest, body, test), either(formula(greatest, body, test) <= 100_000, 9));
            }
        }
    }
    // a tower of loops that are each other's tests, 10,000 times each, reached and not
    for levels in [2u16, 5, 20] {
        let mut nodes = tower(plain(5, 5), levels, &|below| looped(0, 10_000, 0, below));
        add(&nodes, Refused(9));
        nodes.push(looped(0, 0, levels, 0));
        add(&nodes, Accepted);
        nodes.push(looped(0, 0, 0, levels));
        add(&nodes, Refused(9));
        nodes.push(plain(2, 9));
        add(&nodes, Accepted);
    }
    // depth: a deep test beside a block, a deep body beside a block, and both
    for levels in [21, 22, 23, 24] {
        let deep = || tower(a2(), levels, &|below| sequence(&[below]));
        for (body, test) in [(0, levels), (levels, 0), (levels, levels), (levels - 1, levels), (levels, levels - 1)] {
            for greatest in [0, 1, 3] {
                let mut nodes = deep();
                nodes.push(looped(0, greatest, body, test));
                add(&nodes, either(levels <= 22, 8));
            }
        }
        // one node more above it
        for above in [sequence(&[levels + 1]), looped(0, 0, levels + 1, 0), looped(0, 0, 0, levels + 1)] {
            let mut nodes = deep();
            nodes.extend([looped(0, 0, 0, levels), above]);
            add(&nodes, either(levels <= 21, 8));
        }
        // 8 before 9
        let mut nodes = deep();
        nodes.extend([looped(0, 10_000, levels, 0), looped(0, 10_000, 0, levels + 1)]);
        add(&nodes, Refused(if levels <= 21 { 9 } else { 8 }));
    }
}

/// Several refusals hold; the order decides.
pub fn order(cases: &mut Cases) {
    let opening = [small_bus(), starts(&[3, 5])].concat();
    let with_nodes = |number: usize| [opening.clone(), blank_nodes(number)].concat();

    // head cut comes first, whatever the bytes left
    for before in [Vec::new(), small_bus(), opening.clone(), with_nodes(1), with_nodes(7), with_nodes(255), with_nodes(256)] {
        for tag in [0u8, 1, 2, 3, 4, 5, 6, 7, 8, 9, 10, 11, 255] {
            cases.add("order", [before.clone(), vec![tag]].concat(), Refused(1));
            for second in [0u8, 255] {
                cases.add("order", [before.clone(), vec![tag, second]].concat(), Refused(1));
            }
        }
    }

    // one field with every mixture of faults, at every position where the answer differs
    for (position, before) in [Vec::new(), small_bus(), opening.clone(), with_nodes(1), with_nodes(256)].iter().enumerate() {
        for tag in [0u8, 1, 2, 3, 4, 5, 6, 7, 8, 9, 10, 11, 255] {
            for body in bodies(tag) {
                for length in [body.len(), 0, body.len() + 1, body.len() + 256] {
                    let head = [tag, (length / 256) as u8, (length % 256) as u8];
                    let whole = [before.clone(), head.to_vec(), body.clone()].concat();
                    for cut in [0, 1, body.len()] {
                        cases.add("order", whole[..whole.len() - cut].to_vec(), Open);
                    }
                    // a later fault does not count
                    if position == 3 {
                        cases.add("order", [whole.clone(), vec![9]].concat(), Open);
                        cases.add("order", [whole, field(9, &[])].concat(), Open);
                    }
                }
            }
        }
    }

    let own = 1;
    let one = with_nodes(1);
    let mut add = |bytes: Vec<u8>, number: u64| cases.add("order", [one.clone(), bytes].concat(), Refused(number));
    // 4 before a cut body; a cut body before 5 and 6
    add(vec![3, 255, 255], 4);
    add(vec![3, 0, 5, 0], 4);
    add(vec![3, 0, 4], 1);
    add(vec![3, 0, 4, 9, 0, 0], 1);
    add(vec![4, 0, 3, 9], 1);
    add(vec![5, 0, 4, 9, 9], 1);
    add(vec![7, 0, 8, 9, 9, 0, 0, 9], 1);
    add(vec![7, 0, 8, 9, 9, 0, 0, 9, 9, 9], 1);
    add(vec![7, 0, 6, 9, 9, 0, 0, 9], 4);
    // in a loop 5 before 6; an earlier field's 6 before a later field's 1, 2, 4 and 5
    for (body, test) in [(own, own), (own, 0), (0, own), (65_535, 0), (0, 65_535)] {
        add(looped(2, 1, body, test), 5);
        add(looped(0, 10_001, body, test), 5);
    }
    for later in [vec![3], field(9, &[]), two_slots(0), field(3, &[0]), plain(1, 0)] {
        add([sequence(&[own]), later.clone()].concat(), 6);
        add([branch(&[0, own]), later.clone()].concat(), 6);
        add([looped(1, 1, own, 0), later.clone()].concat(), 6);
        add([looped(1, 1, 0, own), later].concat(), 6);
    }
    // an earlier 5 before a later 6
    add([bus_block(0, 1, 1), sequence(&[9])].concat(), 5);
    // 5 and 6 of nodes that the entry does not reach
    add([plain(9, 8), plain(1, 1)].concat(), 5);
    add([bus_block(2, 1, 6), plain(1, 1)].concat(), 5);
    add([sequence(&[own]), plain(1, 1)].concat(), 6);
    // "2 goes by position"
    add(small_bus(), 2);
    add(starts(&[0]), 2);
    // 2 before 3; 3 before 4, a cut body, 5 and 6
    let full = with_nodes(256);
    for tag in 0..=11u8 {
        for rest in [vec![0, 0], vec![255, 255], vec![0, 4], vec![0, 4, 1, 0, 0, 0], vec![0, 3, 9, 9, 9]] {
            let number = match tag {
                // none of these lengths is 2, and it is no node field
                8 => 4,
                _ if node_tag(tag) => 3,
                _ => 2,
            };
            cases.add("order", [full.clone(), vec![tag], rest].concat(), Refused(number));
        }
    }
    // before the nodes: values of the bus before all that follows
    for later in [Vec::new(), vec![1], starts(&[255]), field(9, &[]), starts(&[])] {
        cases.add("order", [bus(1, 1, 1), later.clone()].concat(), Refused(5));
        cases.add("order", [bus(16, 17, 0), later].concat(), Refused(5));
    }
    for later in [Vec::new(), vec![1], plain(1, 0), field(9, &[])] {
        cases.add("order", [small_bus(), starts(&[10]), later.clone()].concat(), Refused(5));
        cases.add("order", [small_bus(), starts(&[1, 1]), later].concat(), Refused(5));
    }
}

/// The tags of node fields.
fn node_tag(tag: u8) -> bool {
    matches!(tag, 3 | 4 | 5 | 6 | 7 | 10)
}

/// Bodies for a tag: good, with a wrong value, with a wrong child number, with both.
fn bodies(tag: u8) -> Vec<Vec<u8>> {
    match tag {
        1 => vec![vec![2, 5, 0], vec![1, 5, 0], vec![16, 17, 0], vec![2, 5, 2]],
        2 => vec![vec![3, 5], vec![5, 3], vec![10]],
        3 => vec![vec![0, 1, 0, 2], vec![0, 2, 0, 1], vec![0, 0, 0, 64]],
        4 => vec![vec![1, 1, 5], vec![0, 1, 5], vec![2, 1, 6]],
        5 => vec![vec![0, 0], vec![1, 0], vec![0, 0, 255, 255]],
        6 => vec![vec![0, 0, 0, 0], vec![0, 0, 1, 0], vec![255, 255, 0, 0]],
        7 => vec![
            vec![0, 0, 0, 2, 0, 0, 0, 0],
            vec![0, 3, 0, 2, 0, 0, 0, 0],
            vec![0, 0, 0, 2, 1, 0, 0, 0],
            vec![0, 0, 0, 2, 0, 0, 1, 0],
            vec![0, 3, 0, 2, 1, 0, 1, 0],
            // document 01's
            vec![0, 0, 0, 2, 0, 0],
        ],
        8 => vec![vec![0, 0], vec![0, 1], vec![1, 0], vec![255, 255]],
        9 => vec![vec![0, 0, 5, 1, 5], vec![0, 16, 5], vec![1, 0, 5], vec![0, 0, 129], vec![0, 0, 128, 1, 128, 0, 1]],
        10 => vec![vec![0, 1, 5, 0, 1], vec![3, 5, 5, 255, 255], vec![4, 1, 5, 0, 1], vec![0, 0, 5, 0, 1], vec![0, 1, 6, 0, 1]],
        _ => vec![vec![0, 0, 0, 0]],
    }
}

/// The longest block, of 8 bytes. A period of 256 permits two lines.
pub fn longest_block() -> Vec<u8> {
    fetch(1, 1, 3, 7)
}

/// The longest field 1, of 68 bytes: 32 pairs, two slots for each core, of 12 and of 4 cycles, and a period of 256.
pub fn longest_schedule() -> Vec<u8> {
    let pairs: Vec<(u8, u8)> = (0..32).map(|own| (own % 16, if own < 16 { 12 } else { 4 })).collect();
    schedule(5, &pairs)
}

/// A bus with a period of 256, all starts, a block, 255 sequences of 16 children, the last of this child: 9,260 bytes with the longest
/// field 1 and the longest block; with tag 1 it has 9,198, with a plain block one less. "document 01's longest valid image" has 5 more,
/// those of tag 8.
pub fn longest_image(field_1: Vec<u8>, block: Vec<u8>, child: u16) -> Vec<u8> {
    let all: Vec<u8> = (0..=255).collect();
    let mut image = [field_1, starts(&all), block].concat();
    for own in 1..256 {
        image.extend(sequence(&[if own == 255 { child } else { 0 }; 16]));
    }
    image
}

/// Inputs up to and beyond what a valid image can be long.
pub fn sizes(cases: &mut Cases) {
    let (with_1, with_9) = (|| bus(16, 16, 5), longest_schedule);
    for (field_1, block, child, length) in [
        (with_9(), longest_block(), 0, 9_260),
        (with_9(), longest_block(), 254, 9_260),
        (with_9(), fetch(0, 12, 12, 65_535), 1, 9_260),
        (with_9(), plain(1, 3), 254, 9_259),
        (with_9(), bus_block(2, 1, 3), 254, 9_258),
        (with_1(), longest_block(), 254, 9_198),
        (with_1(), fetch(0, 16, 16, 65_535), 1, 9_198),
        (with_1(), plain(1, 3), 254, 9_197),
    ] {
        let longest = longest_image(field_1, block, child);
        assert!(longest.len() == length, "the longest valid image");
        cases.add("sizes", longest.clone(), Accepted);
        for tag in [0u8, 3, 5, 8, 10] {
            for size in [length + 1, length + 2, length + 3, length + 4, 9_300, 16_383, 16_384, 16_385, 16_386, 20_000] {
                let mut image = longest.clone();
                image.resize(size, tag);
                let expected = match size - length {
                    1 | 2 => Refused(1),
                    _ if node_tag(tag) => Refused(3),
                    // a length of 2,056
                    _ if tag == 8 => Refused(4),
                    _ => Refused(2),
                };
                cases.add("sizes", image, expected);
            }
        }
        // closed with tag 8, by a node of few visits or of all; with bytes and fields behind; cut there; not that of a node
        for named in [0, 1, 254, 255] {
            let closed = [longest.clone(), entry(named)].concat();
            assert!(closed.len() == length + 5, "the longest valid image with tag 8");
            cases.add("sizes", closed, Accepted);
        }
        for tag in [3u8, 8] {
            for size in [length + 6, length + 7, length + 8, 16_385] {
                let mut image = [longest.clone(), entry(1)].concat();
                image.resize(size, tag);
                cases.add("sizes", image, Refused(if size - length <= 7 { 1 } else { 2 }));
            }
        }
        for cut in 1..5 {
            cases.add("sizes", [&longest[..], &entry(255)[..5 - cut]].concat(), line(&format!("refused 1 {length}")));
        }
        for number in [256, 257, 511, 65_535] {
            cases.add("sizes", [longest.clone(), entry(number)].concat(), line(&format!("refused 11 {length}")));
        }
        for cut in 1..40 {
            let expected = if cut == 35 { Accepted } else { Refused(1) };
            cases.add("sizes", longest[..length - cut].to_vec(), expected);
        }
        cases.add("sizes", [longest.clone(), plain(1, 1)].concat(), Refused(3));
        cases.add("sizes", [longest.clone(), longest_block()].concat(), Refused(3));
        cases.add("sizes", [longest.clone(), longest.clone()].concat(), Refused(2));
        // 8,192 and the powers of two below: cut inside a sequence
        for size in [255, 256, 257, 512, 1_023, 1_024, 2_048, 4_095, 4_096, 4_097, 8_191, 8_192, 8_193] {
            cases.add("sizes", longest[..size].to_vec(), Open);
        }
        // the last child number of the last node: 255 is the entry itself
        let mut image = longest.clone();
        image[length - 1] = 255;
        cases.add("sizes", image, Refused(6));
    }
    // a third line is too many for the period, and the longest image has room for its number
    for line_number in [2, 3] {
        let block = || fetch(line_number, 1, 3, 7);
        cases.add("sizes", longest_image(with_1(), block(), 254), line("refused 18 9198"));
        cases.add("sizes", longest_image(with_9(), block(), 254), line("refused 18 9260"));
        cases.add("sizes", [longest_image(with_9(), block(), 254), entry(1)].concat(), line("refused 18 9265"));
    }
    // with one pair more field 1 has a wrong length
    let pairs: Vec<(u8, u8)> = (0..33).map(|own| (own % 16, 7)).collect();
    cases.add("sizes", longest_image(schedule(5, &pairs), longest_block(), 254), line("refused 4 0"));
    // a bus field and nothing but junk; long inputs refused early
    for size in [9_197, 9_198, 9_200, 9_260, 9_265, 16_384, 16_385, 20_000] {
        for byte in [0u8, 1, 3, 8, 9, 255] {
            cases.add("sizes", vec![byte; size], Open);
            let mut image = small_bus();
            image.resize(size, byte);
            cases.add("sizes", image, Open);
            for mut image in [two_slots(0), with_a_node()] {
                image.resize(size, byte);
                cases.add("sizes", image, Open);
            }
        }
        // plain blocks to the end: the 257th is one too many
        let mut image = [small_bus(), starts(&[0])].concat();
        while image.len() < size {
            image.extend(plain(1, 1));
        }
        image.truncate(size);
        cases.add("sizes", image, Refused(3));
    }
}

fn with_a_node() -> Vec<u8> {
    [small_bus(), starts(&[0]), plain(1, 1)].concat()
}
