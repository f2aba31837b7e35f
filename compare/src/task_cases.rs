//! Task tables written by hand, with what has to be answered: change request W12, sentence by sentence.

use crate::task_generate::{Expected, Tables};
use crate::tasks::{MOST_TASKS, MOST_TIME, NUMBERS};
use Expected::{Finishes, Refused};

const LARGEST: u64 = u64::MAX;

/// An entry; the places that do not count hold 0.
pub fn entry(core: u64, time: u64, waits: &[u64]) -> [u64; NUMBERS] {
    let mut numbers = [0; NUMBERS];
    numbers[0] = core;
    numbers[1] = time;
    numbers[2] = waits.len() as u64;
    numbers[3..3 + waits.len()].copy_from_slice(waits);
    numbers
}

/// So many tasks, each of 1 cycle and after the one before it: the finishes are 1, 2, 3 ..
fn row_of(tasks: u64) -> Vec<u64> {
    let after = |own: u64| if own == 0 { vec![] } else { vec![own - 1] };
    (0..tasks).flat_map(|own| entry(own % 16, 1, &after(own))).collect()
}

fn up_to(last: u64) -> Vec<u64> {
    (1..=last).collect()
}

/// "A table of 1 to 64 tasks"; "a length that is no multiple of eleven has no size from 1 to 64: 21 at place 0"
pub fn sizes(tables: &mut Tables) {
    let mut add = |numbers: Vec<u64>, expected| tables.add("sizes", numbers, expected);
    add(vec![], Refused(0));
    add(row_of(1), Finishes(vec![1]));
    add(row_of(64), Finishes(up_to(64)));
    add(row_of(65), Refused(0));
    // the first numbers of a table, of every length that the program under test reads: 1, 10, 12, 64 * 11 - 1, 64 * 11 + 1, 65 * 11 ..
    let long = [row_of(93), vec![0]].concat();
    for length in 0..=long.len() {
        let tasks = (length / NUMBERS) as u64;
        let good = length % NUMBERS == 0 && tasks >= 1 && tasks <= 64;
        add(long[..length].to_vec(), if good { Finishes(up_to(tasks)) } else { Refused(0) });
    }
    // the same of numbers that are all 0: tasks without time on core 0
    for length in 0..=64 * NUMBERS + 30 {
        let good = length % NUMBERS == 0 && length > 0 && length <= 64 * NUMBERS;
        add(vec![0; length], if good { Finishes(vec![0]) } else { Refused(0) });
    }
}

/// "A task's finish is its time plus the largest finish among those it waits for and the previous task on its core, or 0."
pub fn worked(tables: &mut Tables) {
    let mut add = |tasks: &[[u64; NUMBERS]], finishes: &[u64]| tables.add("worked", tasks.concat(), Finishes(finishes.to_vec()));
    // one task, on the first core and on the last
    add(&[entry(0, 7, &[])], &[7]);
    add(&[entry(15, 7, &[])], &[7]);
    add(&[entry(0, 0, &[])], &[0]);
    add(&[entry(0, MOST_TIME, &[])], &[6_553_500_000]);
    // "A beacon may start only after the position fix."
    add(&[entry(0, 120, &[]), entry(1, 30, &[0])], &[120, 150]);
    add(&[entry(0, 120, &[]), entry(1, 30, &[])], &[120, 30]);
    // chains: on cores of their own, on two in turn, on one core with and without waits
    add(&[entry(0, 1, &[]), entry(1, 10, &[0]), entry(2, 100, &[1]), entry(3, 1_000, &[2])], &[1, 11, 111, 1_111]);
    add(&[entry(4, 1, &[]), entry(9, 10, &[0]), entry(4, 100, &[1]), entry(9, 1_000, &[2])], &[1, 11, 111, 1_111]);
    add(&[entry(4, 1, &[]), entry(4, 10, &[0]), entry(4, 100, &[1]), entry(4, 1_000, &[2])], &[1, 11, 111, 1_111]);
    add(&[entry(4, 1, &[]), entry(4, 10, &[]), entry(4, 100, &[]), entry(4, 1_000, &[])], &[1, 11, 111, 1_111]);
    // a chain that goes past one in between, and one that waits for the first only
    add(&[entry(0, 1, &[]), entry(1, 10, &[]), entry(2, 100, &[0]), entry(3, 1_000, &[2])], &[1, 10, 101, 1_101]);
    add(&[entry(0, 1, &[]), entry(1, 10, &[0]), entry(2, 100, &[1]), entry(3, 1_000, &[0])], &[1, 11, 111, 1_001]);
    // a fan: one task that three wait for, on cores of their own and on one
    add(&[entry(0, 5, &[]), entry(1, 1, &[0]), entry(2, 2, &[0]), entry(3, 3, &[0])], &[5, 6, 7, 8]);
    add(&[entry(0, 5, &[]), entry(1, 1, &[0]), entry(1, 2, &[0]), entry(1, 3, &[0])], &[5, 6, 8, 11]);
    // a diamond: the largest counts and not the last named
    add(&[entry(0, 10, &[]), entry(1, 50, &[0]), entry(2, 20, &[0]), entry(3, 5, &[1, 2])], &[10, 60, 30, 65]);
    add(&[entry(0, 10, &[]), entry(1, 50, &[0]), entry(2, 20, &[0]), entry(3, 5, &[2, 1])], &[10, 60, 30, 65]);
    add(&[entry(0, 10, &[]), entry(1, 20, &[0]), entry(2, 50, &[0]), entry(3, 5, &[1, 2])], &[10, 30, 60, 65]);
    add(&[entry(0, 10, &[]), entry(1, 20, &[0]), entry(2, 50, &[0]), entry(3, 5, &[1, 0, 2, 0])], &[10, 30, 60, 65]);
    // the largest finish and not the largest time
    add(&[entry(0, 40, &[]), entry(1, 1, &[0]), entry(2, 40, &[]), entry(3, 1, &[1, 2])], &[40, 41, 40, 42]);
    // the previous task on the core ends later than the one waited for, and the other way
    add(&[entry(0, 10, &[]), entry(1, 100, &[]), entry(1, 5, &[0])], &[10, 100, 105]);
    add(&[entry(0, 100, &[]), entry(1, 10, &[]), entry(1, 5, &[0])], &[100, 10, 105]);
    add(&[entry(0, 100, &[]), entry(1, 100, &[]), entry(1, 5, &[0])], &[100, 100, 105]);
    // the previous task on the core is not the entry before, nor the first on the core, nor one that comes later
    add(&[entry(0, 10, &[]), entry(1, 1, &[]), entry(0, 1, &[])], &[10, 1, 11]);
    add(&[entry(0, 1, &[]), entry(1, 10, &[]), entry(0, 1, &[])], &[1, 10, 2]);
    add(&[entry(0, 10, &[]), entry(0, 10, &[]), entry(1, 50, &[]), entry(0, 10, &[])], &[10, 20, 50, 30]);
    add(&[entry(0, 10, &[]), entry(1, 1, &[]), entry(1, 40, &[])], &[10, 1, 41]);
    // "Tasks on one core run in table order": one that could start at 0 comes after one that waits
    add(&[entry(0, 100, &[]), entry(1, 1, &[0]), entry(1, 1, &[])], &[100, 101, 102]);
    add(&[entry(0, 100, &[]), entry(1, 1, &[0]), entry(1, 1, &[]), entry(2, 1, &[2])], &[100, 101, 102, 103]);
    // a task named twice
    add(&[entry(0, 10, &[]), entry(1, 5, &[0, 0])], &[10, 15]);
    add(&[entry(0, 10, &[]), entry(1, 5, &[0, 0, 0, 0, 0, 0, 0, 0])], &[10, 15]);
    add(&[entry(0, 10, &[]), entry(1, 30, &[]), entry(2, 5, &[0, 1, 0])], &[10, 30, 35]);
    // one that waits for the previous task on its core
    add(&[entry(3, 10, &[]), entry(3, 5, &[0])], &[10, 15]);
    // a time of 0: at the begin, between, at the end, and throughout
    add(&[entry(0, 0, &[]), entry(1, 5, &[0])], &[0, 5]);
    add(&[entry(0, 10, &[]), entry(0, 0, &[]), entry(0, 3, &[])], &[10, 10, 13]);
    add(&[entry(0, 10, &[]), entry(1, 0, &[0]), entry(2, 0, &[1]), entry(3, 3, &[2])], &[10, 10, 10, 13]);
    add(&[entry(0, 0, &[]), entry(1, 0, &[0]), entry(1, 0, &[0, 0])], &[0, 0, 0]);
    // finishes above 32 bits
    add(&[entry(0, 1 << 32, &[]), entry(1, 1, &[0])], &[4_294_967_296, 4_294_967_297]);
    add(&[entry(0, (1 << 32) - 1, &[]), entry(0, 1, &[])], &[4_294_967_295, 4_294_967_296]);
    add(&[entry(0, MOST_TIME, &[]), entry(1, 4, &[]), entry(2, 1, &[1, 0])], &[6_553_500_000, 4, 6_553_500_001]);

    // one that waits for 8, named in every turn; the longest of them takes 9
    let eight = [3, 1, 4, 1, 5, 9, 2, 6];
    for turn in 0..8 {
        let named: Vec<u64> = (0..8).map(|place| (place + turn) % 8).collect();
        let mut tasks: Vec<[u64; NUMBERS]> = (0..8).map(|own| entry(own, eight[own as usize], &[])).collect();
        tasks.push(entry(8, 10, &named));
        add(&tasks, &[3, 1, 4, 1, 5, 9, 2, 6, 19]);
        // the longest is not among the four that are named
        tasks[8] = entry(8, 10, &[0, 1, 2, 3]);
        add(&tasks, &[3, 1, 4, 1, 5, 9, 2, 6, 14]);
    }
    // a task on each of 16 cores, then one more on each
    let on_each: Vec<[u64; NUMBERS]> = (0..32).map(|own| entry(own % 16, 1 + own % 16, &[])).collect();
    let once: Vec<u64> = (1..=16).collect();
    let twice: Vec<u64> = (1..=16).map(|core| 2 * core).collect();
    add(&on_each, &[once, twice].concat());
    // one task that 63 wait for, each on a core of 15 others
    let mut fan = vec![entry(0, 50, &[])];
    fan.extend((0..63).map(|later| entry(1 + later % 15, 1, &[0])));
    let finishes: Vec<u64> = (0..63).map(|later| 51 + later / 15).collect();
    add(&fan, &[vec![50], finishes].concat());
    // the most that a finish can be: 64 tasks of the largest time on one core, and one after the other on 16
    let most: Vec<u64> = (1..=64).map(|tasks| tasks * 6_553_500_000).collect();
    assert!(most[63] == 419_424_000_000, "64 times the largest time");
    add(&[entry(7, 6_553_500_000, &[]); 64], &most);
    let mut chain: Vec<[u64; NUMBERS]> = (1..64).map(|own| entry(own % 16, 6_553_500_000, &[own - 1])).collect();
    chain.insert(0, entry(0, 6_553_500_000, &[]));
    add(&chain, &most);
    // 64 tasks without time
    add(&[entry(0, 0, &[]); 64], &[0]);
}

/// A valid table of so many tasks of 2 cycles on cores in turn, in which one has these numbers.
fn with(tasks: usize, at: usize, numbers: [u64; NUMBERS]) -> Vec<u64> {
    let mut table: Vec<[u64; NUMBERS]> = (0..tasks as u64).map(|own| entry(own % 16, 2, &[])).collect();
    table[at] = numbers;
    table.concat()
}

/// Both sides of every number's range: "a core (0 to 15), a time of at most 6,553,500,000 cycles and up to 8 earlier tasks".
pub fn limits(tables: &mut Tables) {
    let mut add = |numbers: Vec<u64>, expected| tables.add("limits", numbers, expected);
    let large =
        [255, 256, 65_535, 65_536, 1 << 31, 1 << 32, (1 << 32) + 1, 1 << 48, 1 << 63, (1 << 63) + 1, LARGEST - 1, LARGEST];

    for core in 0..=15 {
        add(entry(core, 3, &[]).to_vec(), Finishes(vec![3]));
        add([entry(1, 5, &[]), entry(core, 3, &[0])].concat(), Finishes(vec![5, 8]));
        add([entry(1, 5, &[]), entry(core, 3, &[])].concat(), Finishes(vec![5, if core == 1 { 8 } else { 3 }]));
        add([entry(9, 5, &[]), entry(core, 3, &[])].concat(), Finishes(vec![5, if core == 9 { 8 } else { 3 }]));
    }
    for core in [16, 17, 18, 31, 32].iter().chain(&large) {
        add(entry(*core, 3, &[]).to_vec(), Refused(0));
        add([entry(1, 5, &[]), entry(*core, 3, &[0])].concat(), Refused(1));
        add(with(64, 63, entry(*core, 3, &[])), Refused(63));
    }

    for time in [0, 1, 2, 6_553_499_999, 6_553_500_000, (1 << 32) - 1, 1 << 32, (1 << 32) + 1, 1 << 31] {
        add(entry(0, time, &[]).to_vec(), Finishes(vec![time]));
        add([entry(0, time, &[]), entry(0, time, &[])].concat(), Finishes(vec![time, 2 * time]));
        add([entry(0, 5, &[]), entry(1, time, &[0])].concat(), Finishes(vec![5, 5 + time]));
    }
    for time in
        [6_553_500_001, 6_553_500_002, 1 << 33, 6_553_500_000 + (1 << 32), 1 << 40, 1 << 63, (1 << 63) + 1, LARGEST - 1, LARGEST]
    {
        add(entry(0, time, &[]).to_vec(), Refused(0));
        add([entry(0, 5, &[]), entry(1, time, &[0])].concat(), Refused(1));
        add(with(64, 63, entry(0, time, &[])), Refused(63));
    }

    // the ninth task and those before it: how many are waited for, in a table in which all eight places name an earlier one
    for own in [0, 1, 8, 62] {
        for count in (0..=8).chain([9, 10, 11, 16, 64]).chain(large) {
            let mut numbers = entry(15, 1, &[0; 8]);
            numbers[2] = count;
            let waits = own > 0 && (1..=8).contains(&count);
            let good = count <= 8 && (own > 0 || count == 0);
            // tasks of 2 cycles on cores in turn: that of index own finishes 2 later for each round of 16
            let mut finishes: Vec<u64> = (0..own as u64).map(|earlier| 2 + earlier / 16 * 2).collect();
            let previous = own as u64 / 16 * 2;
            finishes.push(1 + if waits { previous.max(2) } else { previous });
            add(with(own + 1, own, numbers), if good { Finishes(finishes) } else { Refused(own) });
        }
    }

    // "up to 8 earlier tasks": just before, itself, later, beyond the table, in each of the places that count
    for own in [1usize, 2, 5, 9, 15] {
        for count in 1..=8 {
            for place in 0..count {
                let named = |index: u64| {
                    let mut waits = vec![0; count];
                    waits[place] = index;
                    with(own + 1, own, entry(15, 1, &waits))
                };
                let good: Vec<u64> = vec![2; own];
                add(named(own as u64 - 1), Finishes([good, vec![3]].concat()));
                for index in [own as u64, own as u64 + 1, own as u64 + 2, 63, 64].iter().chain(&large) {
                    add(named(*index), Refused(own));
                }
            }
        }
    }
    // the last task that can be waited for is the 63rd: its index is 62
    let early: Vec<u64> = (0..63).map(|earlier| 2 + earlier / 16 * 2).collect();
    add(with(64, 63, entry(15, 1, &[62])), Finishes([early, vec![9]].concat()));
    add(with(64, 63, entry(15, 1, &[63])), Refused(63));
    add(with(64, 63, entry(15, 1, &[64])), Refused(63));
    // in a table that goes on, a predecessor is there but not earlier
    add(with(64, 20, entry(15, 1, &[20])), Refused(20));
    add(with(64, 20, entry(15, 1, &[21])), Refused(20));
    add(with(64, 20, entry(15, 1, &[63])), Refused(20));
    // the first task waits for nobody
    for index in [0, 1, LARGEST] {
        add(entry(0, 1, &[index]).to_vec(), Refused(0));
        add(with(3, 0, entry(0, 1, &[index])), Refused(0));
    }

    // numbers of 2^64 - 1 everywhere: in whole tables, in whole entries, in each place by itself
    for tasks in [1, 2, 63, 64, 65, 93] {
        add(vec![LARGEST; tasks * NUMBERS], Refused(0));
    }
    for at in [0, 1, 31, 63] {
        add(with(64, at, [LARGEST; NUMBERS]), Refused(at));
        for count in 0..=8 {
            for place in 0..NUMBERS {
                let mut numbers = entry(15, 0, &vec![0; count]);
                numbers[place] = LARGEST;
                let counts = place < 3 + count;
                if counts || at == 0 && count > 0 {
                    add(with(64, at, numbers), Refused(at));
                }
            }
        }
    }
}

/// "eight places of which the first that many count and the rest are ignored"
pub fn ignored(tables: &mut Tables) {
    let mut add = |numbers: Vec<u64>, expected| tables.add("ignored places", numbers, expected);
    for count in 0..=8 {
        for ignored in [0, 1, 2, 3, 4, 15, 16, 63, 64, 1 << 32, 1 << 63, LARGEST - 1, LARGEST] {
            let mut third = entry(2, 1, &vec![1; count]);
            third[3 + count..].fill(ignored);
            let end = if count == 0 { 1 } else { 9 };
            add([entry(0, 50, &[]), entry(1, 8, &[]), third].concat(), Finishes(vec![50, 8, end]));
            // in the middle of a table, and in its first entry
            if count == 0 {
                third[0] = 3;
                add([third, entry(0, 7, &[0])].concat(), Finishes(vec![1, 8]));
            }
        }
        // one place by itself
        for place in count..8 {
            let mut third = entry(2, 1, &vec![1; count]);
            third[3 + place] = LARGEST;
            let end = if count == 0 { 1 } else { 9 };
            add([entry(0, 50, &[]), entry(1, 8, &[]), third].concat(), Finishes(vec![50, 8, end]));
        }
    }
}

/// "a table size outside 1 to 64, place 0, or else the first entry with a number out of range or a predecessor not earlier"
pub fn order(tables: &mut Tables) {
    let mut add = |numbers: Vec<u64>, expected| tables.add("order of refusals", numbers, expected);
    let faulty = |own: u64, kind: usize| match kind {
        0 => entry(16, 2, &[]),
        1 => entry(1, MOST_TIME + 1, &[]),
        2 => {
            let mut numbers = entry(1, 2, &[]);
            numbers[2] = 9;
            numbers
        }
        3 => entry(1, 2, &[own]),
        _ => [LARGEST; NUMBERS],
    };
    let table = |tasks: usize, at: &[(usize, usize)]| {
        let mut numbers = with(tasks, at[0].0, faulty(at[0].0 as u64, at[0].1));
        for &(own, kind) in at {
            numbers[own * NUMBERS..(own + 1) * NUMBERS].copy_from_slice(&faulty(own as u64, kind));
        }
        numbers
    };
    // one faulty entry at each index, in a table of 64 and as its last
    for at in 0..MOST_TASKS {
        for kind in 0..5 {
            add(table(64, &[(at, kind)]), Refused(at));
            add(table(at + 1, &[(at, kind)]), Refused(at));
        }
    }
    // two of them, and three: the first index counts, whatever is wrong there
    for first in 0..5 {
        for second in 0..5 {
            for (one, other) in [(0, 1), (0, 3), (1, 2), (2, 3), (1, 3)] {
                add(table(4, &[(one, first), (other, second)]), Refused(one));
            }
            add(table(64, &[(5, first), (63, second)]), Refused(5));
            add(table(64, &[(62, first), (63, second)]), Refused(62));
            add(table(10, &[(4, first), (6, second), (9, 4)]), Refused(4));
        }
    }
    // a wrong size together with a faulty entry: place 0
    for kind in 0..5 {
        for at in [1, 3, 63, 64] {
            add(table(65, &[(at, kind)]), Refused(0));
            add(table(93, &[(at, kind)]), Refused(0));
            let mut cut = table(at + 2, &[(at, kind)]);
            cut.pop();
            add(cut.clone(), Refused(0));
            cut.truncate((at + 1) * NUMBERS + 1);
            add(cut.clone(), Refused(0));
            cut.truncate((at + 1) * NUMBERS - 1);
            add(cut, Refused(0));
        }
        let mut long = table(64, &[(3, kind)]);
        long.push(0);
        add(long, Refused(0));
    }
}
