//! Times several ways to do the same work, in turn in one process, and prints tables of the medians, or of the least times.
// a driver takes what it needs of it
#![allow(dead_code)]

use std::time::Instant;

/// One way to do the work. Its answer is the same for all.
pub type Side<'a> = &'a dyn Fn() -> u64;

/// The nanoseconds of one operation in each of so many rounds, in which each side runs once.
fn rounds_of<const N: usize>(rounds: usize, operations: u64, sides: [Side; N]) -> [Vec<f64>; N] {
    let wanted = sides[0]();
    let mut times = sides.map(|_| Vec::with_capacity(rounds));
    for _ in 0..rounds {
        for (side, times) in sides.iter().zip(&mut times) {
            let start = Instant::now();
            let found = side();
            let nanoseconds = start.elapsed().as_nanos() as f64;
            assert_eq!(found, wanted, "all sides do the same work");
            times.push(nanoseconds / operations as f64);
        }
    }
    times
}

/// The median nanoseconds of one operation for each side.
pub fn medians<const N: usize>(rounds: usize, operations: u64, sides: [Side; N]) -> [f64; N] {
    rounds_of(rounds, operations, sides).map(|mut times| median(&mut times))
}

/// The least nanoseconds of one operation for each side. On a shared machine it tells less of what other guests do than the median, but
/// a row may have no round in which none does.
pub fn least<const N: usize>(rounds: usize, operations: u64, sides: [Side; N]) -> [f64; N] {
    rounds_of(rounds, operations, sides)
        .map(|times| times.into_iter().fold(f64::INFINITY, f64::min))
}

pub fn median(times: &mut [f64]) -> f64 {
    times.sort_by(f64::total_cmp);
    times[times.len() / 2]
}

/// A title, and the head of a table: what the rows are, and the columns, all of numbers.
pub fn head(title: &str, what: &str, columns: &[&str]) {
    println!("{title}:\n");
    println!("| {what} | {} |", columns.join(" | "));
    println!("|--|{}", "--:|".repeat(columns.len()));
}

/// A row of a table: nanoseconds, and then the ratio of two of them.
pub fn row(what: &str, nanoseconds: &[f64], ratio: f64) {
    let columns: Vec<String> = nanoseconds.iter().map(|n| format!("{n:.1}")).collect();
    println!("| {what} | {} | {ratio:.2} |", columns.join(" | "));
}
