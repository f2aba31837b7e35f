//! Task tables for `wrong --tables`: a line for each, as tests/linked/tables.c writes them, by the formula of change request W12.
//! It shares no code with the second reading either.

use crate::{answer_lines, Fault, Said};

/// Reads tables and writes answers until the input ends.
pub fn run(fault: &Fault) {
    let at_end = [fault.is("tasks-no-last-line-feed"), fault.is("tasks-line-too-many"), fault.is("tasks-status-at-end")];
    answer_lines(at_end, &|line| {
        let numbers: Option<Vec<u64>> = line.split_whitespace().map(|number| number.parse().ok()).collect();
        let Some(numbers) = numbers else { return Said::Wrong };
        match numbers.len() {
            0 if fault.is("tasks-empty-unanswered") => Said::Nothing,
            704 if fault.is("tasks-killed-at-64") => Said::Killed,
            _ => Said::Line(answer(fault, &numbers).iter().map(u64::to_string).collect::<Vec<_>>().join(" ")),
        }
    });
}

/// The status, both places of the answer and the 64 finishes.
fn answer(fault: &Fault, numbers: &[u64]) -> Vec<u64> {
    let mut finishes = Vec::new();
    let mut faulty = Vec::new();
    let size_good = size_good(fault, numbers.len());
    for (own, entry) in numbers.chunks_exact(11).enumerate() {
        let entry = kept(fault, entry);
        if !entry_good(fault, own as u64, &entry, numbers.len() as u64 / 11) {
            faulty.push(own as u64);
        }
        finishes.push(0);
        if faulty.is_empty() {
            finishes[own] = finish(fault, own, &entry, numbers, &finishes);
        }
    }
    let refused = match fault.0.as_str() {
        "tasks-entries-before-size" => faulty.first().copied().or(if size_good { None } else { Some(0) }),
        _ if !size_good => Some(if fault.is("tasks-place-of-size") { numbers.len() as u64 / 11 } else { 0 }),
        "tasks-last-faulty" => faulty.last().copied(),
        _ => faulty.first().copied(),
    };

    let size = finishes.len();
    match refused {
        Some(_) if fault.is("tasks-kept-when-refused") => {}
        Some(_) => finishes.clear(),
        None if fault.is("tasks-last-repeated") => finishes.resize(64, finishes.last().copied().unwrap_or(0)),
        None if fault.is("tasks-64th-lost") && size == 64 => finishes[63] = 0,
        None => {}
    }
    finishes.resize(64, 0);
    let (status, number, place) = match refused {
        None => (0, 0, if fault.is("tasks-size-answered") { size as u64 } else { 0 }),
        Some(place) => (1, 21, place),
    };
    let mut answer = vec![status, number, place];
    if let Some(place) = refused {
        match fault.0.as_str() {
            "tasks-place-from-1" => answer[2] = place + 1,
            "tasks-place-of-number" => answer[2] = place * 11,
            "tasks-place-0" => answer[2] = 0,
            "tasks-number-20" => answer[1] = 20,
            "tasks-answer-swapped" => answer.swap(1, 2),
            "tasks-status-0" => answer[0] = 0,
            "tasks-status-2" => answer[0] = 2,
            _ => {}
        }
    }
    answer.extend(finishes);
    answer
}

fn size_good(fault: &Fault, length: usize) -> bool {
    let most = match fault.0.as_str() {
        "tasks-65-accepted" => 65,
        "tasks-64-refused" => 63,
        _ => 64,
    };
    let cut = length % 11 != 0 && !fault.is("tasks-cut-row");
    !cut && length / 11 <= most && (length / 11 > 0 || fault.is("tasks-empty") && length == 0)
}

/// The numbers of an entry as they are held.
fn kept(fault: &Fault, entry: &[u64]) -> Vec<u64> {
    let mut entry = entry.to_vec();
    match fault.0.as_str() {
        "tasks-core-in-a-byte" => entry[0] %= 256,
        "tasks-core-in-3-bits" if entry[0] < 16 => entry[0] %= 8,
        "tasks-time-32-bit" => entry[1] %= 1 << 32,
        "tasks-count-in-a-byte" => entry[2] %= 256,
        "tasks-waits-in-a-byte" => entry[3..].iter_mut().for_each(|index| *index %= 256),
        "tasks-waits-32-bit" => entry[3..].iter_mut().for_each(|index| *index %= 1 << 32),
        _ => {}
    }
    entry
}

fn entry_good(fault: &Fault, own: u64, entry: &[u64], tasks: u64) -> bool {
    if fault.is("tasks-first-unjudged") && own == 0 || fault.is("tasks-last-unjudged") && own + 1 == tasks {
        return true;
    }
    let most_core = match fault.0.as_str() {
        "tasks-core-16" => 16,
        "tasks-core-15-refused" => 14,
        _ => 15,
    };
    let most_time = match fault.0.as_str() {
        "tasks-time-over" => 6_553_500_001,
        "tasks-largest-time-refused" => 6_553_499_999,
        _ => 6_553_500_000,
    };
    let most_count = match fault.0.as_str() {
        "tasks-count-9" => 9,
        "tasks-count-8-refused" => 7,
        _ => 8,
    };
    let judged = match fault.0.as_str() {
        "tasks-ignored-judged" => 8,
        "tasks-first-wait-judged" => entry[2].min(1),
        _ => entry[2].min(8),
    };
    let earlier = |index: u64| match fault.0.as_str() {
        "tasks-own-index" => index <= own,
        "tasks-later-accepted" => index != own,
        "tasks-any-of-table" => index < tasks,
        "tasks-first-refused" => index > 0 && index < own,
        _ => index < own,
    };
    entry[0] <= most_core
        && entry[1] <= most_time
        && !(fault.is("tasks-zero-refused") && entry[1] == 0)
        && entry[2] <= most_count
        && entry[3..].iter().take(judged as usize).all(|&index| earlier(index))
        && !(fault.is("tasks-twice-refused") && (1..judged as usize).any(|place| entry[3..3 + place].contains(&entry[3 + place])))
}

/// "its time plus the largest finish among those it waits for and the previous task on its core, or 0". A task that a fault let
/// through and that is not there has a finish of 0.
fn finish(fault: &Fault, own: usize, entry: &[u64], numbers: &[u64], finishes: &[u64]) -> u64 {
    let of = |index: usize| finishes.get(index).copied().unwrap_or(0);
    let core = |index: usize| kept(fault, &numbers[index * 11..index * 11 + 11])[0];
    let previous = match fault.0.as_str() {
        "tasks-previous-ignored" => None,
        "tasks-entry-before" => own.checked_sub(1),
        "tasks-first-on-core" => (0..own).find(|&index| core(index) == entry[0]),
        "tasks-last-on-core" => (0..numbers.len() / 11).rfind(|&index| core(index) == entry[0] && index != own),
        _ => (0..own).rfind(|&index| core(index) == entry[0]),
    };
    let previous = previous.map_or(0, of);
    let mut named: Vec<usize> = entry[3..].iter().take(entry[2].min(8) as usize).map(|&index| index as usize).collect();
    match fault.0.as_str() {
        "tasks-first-waited-only" => named.truncate(1),
        "tasks-8th-wait-lost" => named.truncate(7),
        "tasks-wait-0-is-none" => named.retain(|&index| index > 0),
        "tasks-ignored-counted" => named = entry[3..].iter().map(|&index| index as usize).filter(|&index| index < own).collect(),
        _ => {}
    }
    let time_of = |index: usize| numbers.get(index * 11 + 1).copied().unwrap_or(0);
    let each = named.iter().map(|&index| match fault.0.as_str() {
        "tasks-only-times" => time_of(index),
        "tasks-starts-waited" => of(index).saturating_sub(time_of(index)),
        "tasks-named-twice" => of(index) * named.iter().filter(|&&other| other == index).count() as u64,
        _ => of(index),
    });
    let waited = match fault.0.as_str() {
        "tasks-last-for-largest" => each.last().unwrap_or(0),
        "tasks-least-for-largest" => each.min().unwrap_or(0),
        "tasks-waits-added" => each.sum(),
        _ => each.max().unwrap_or(0),
    };
    let ready = match fault.0.as_str() {
        "tasks-previous-replaces" if previous > 0 => previous,
        "tasks-waits-replace" if !named.is_empty() => waited,
        "tasks-previous-added" => waited + previous,
        _ => waited.max(previous),
    };
    match fault.0.as_str() {
        "tasks-zero-is-1" => ready + entry[1].max(1),
        "tasks-start-for-finish" => ready,
        "tasks-one-late" if ready > 0 => ready + entry[1] + 1,
        "tasks-finishes-32-bit" => (ready + entry[1]) % (1 << 32),
        _ => ready.wrapping_add(entry[1]),
    }
}
