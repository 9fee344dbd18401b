//! The entries beside the fast unverified version of the same design: same inputs, same process, ratios printed.
//!
//! `bench [PART ..] [--limit RATIO]` times the cases whose name has one of the parts in it, or all; with a limit it fails where a ratio is above it.
//! In the groups that show how the cost grows, the last column has the time by that of the case before it in its series; in those that set one thing beside another,
//! by that of the other.

mod cases;
mod clock;

use std::collections::HashMap;
use std::process::ExitCode;
use std::time::Duration;

use difftest::entries::{chosen, Entries, Fast};

use cases::{all, Case};

/// Each turn times one batch of each, one after the other, and the best batch counts: other work on the machine only adds time.
const TURNS: std::ops::Range<usize> = 9..200;
const BATCH: Duration = Duration::from_millis(1);
/// The time after which no further turn begins, once there were enough.
const ENOUGH: Duration = Duration::from_millis(500);

/// How often a case runs in one batch.
fn batch_size(entries: &dyn Entries, case: &Case) -> u32 {
    let mut count = 1;
    loop {
        let took = batch(entries, case, count);
        if took >= BATCH || count >= 1 << 20 {
            return count;
        }
        count *= 2;
    }
}

fn batch(entries: &dyn Entries, case: &Case, count: u32) -> Duration {
    let began = clock::spent();
    for _ in 0..count {
        std::hint::black_box((case.run)(std::hint::black_box(entries)));
    }
    clock::spent() - began
}

/// The best time of one run, for the fast version and for what is tried.
fn timed(fast: &dyn Entries, entries: &dyn Entries, case: &Case) -> (f64, f64) {
    let count = batch_size(fast, case);
    let (mut best_fast, mut best_tried) = (Duration::MAX, Duration::MAX);
    let began = clock::spent();
    for turn in 0..TURNS.end {
        if turn >= TURNS.start && clock::spent() - began > ENOUGH {
            break;
        }
        best_fast = best_fast.min(batch(fast, case, count));
        best_tried = best_tried.min(batch(entries, case, count));
    }
    (best_fast.as_secs_f64() / count as f64, best_tried.as_secs_f64() / count as f64)
}

fn shown(seconds: f64) -> String {
    match seconds {
        s if s < 1e-6 => format!("{:.0} ns", s * 1e9),
        s if s < 1e-3 => format!("{:.2} µs", s * 1e6),
        s => format!("{:.3} ms", s * 1e3),
    }
}

/// The series of a case: in a group that shows how the cost grows, of those whose names differ in numbers alone; in one that sets one thing beside another, of those
/// whose names are the same behind their first word.
fn series(case: &Case) -> Option<String> {
    if case.group.contains(", by ") {
        return Some(case.name.chars().filter(|letter| !letter.is_ascii_digit()).collect());
    }
    let (_, name) = case.name.split_once(": ").filter(|_| case.group.contains(", beside "))?;
    Some(name.to_string())
}

/// The time of a case by that of the one before it in its series.
fn growth(before: &mut HashMap<String, f64>, case: &Case, seconds: f64) -> String {
    match series(case).and_then(|series| before.insert(series, seconds)) {
        Some(earlier) => format!("x {:.2}", seconds / earlier),
        None => String::new(),
    }
}

fn main() -> ExitCode {
    let (mut parts, mut limit) = (Vec::new(), f64::INFINITY);
    let mut arguments = std::env::args().skip(1);
    while let Some(argument) = arguments.next() {
        if argument == "--limit" {
            limit = arguments.next().and_then(|text| text.parse().ok()).expect("--limit RATIO");
        } else {
            parts.push(argument);
        }
    }
    let (fast, entries) = (Fast, chosen());
    println!("{:<66} {:>12} {:>12} {:>7} {:>8}", "case", fast.name(), entries.name(), "ratio", "growth");
    let (mut group, mut worst, mut before) = ("", 0.0f64, HashMap::new());
    for case in all() {
        if !parts.is_empty() && !parts.iter().any(|part| case.group.contains(&part[..]) || case.name.contains(&part[..])) {
            continue;
        }
        if case.group != group {
            group = case.group;
            println!("{group}");
        }
        assert_eq!((case.run)(&fast), (case.run)(&entries), "the two answer differently: {}", case.name);
        let (of_fast, of_tried) = timed(&fast, &entries, &case);
        let ratio = of_tried / of_fast;
        worst = worst.max(ratio);
        let grown = growth(&mut before, &case, of_tried);
        println!("  {:<64} {:>12} {:>12} {:>7.2} {:>8}", case.name, shown(of_fast), shown(of_tried), ratio, grown);
    }
    println!("worst ratio {worst:.2}");
    if worst > limit {
        println!("above the limit of {limit:.2}");
        return ExitCode::FAILURE;
    }
    ExitCode::SUCCESS
}
