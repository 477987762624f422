//! Times `cyclic replay` (the program, whose path is the argument) on scripts of 65,536 steps: one whose advances make millions
//! of expirations, each called by a soft interrupt, and one of as many steps in which nothing expires. The second is what
//! reading the script, running its steps and writing the lines cost alone. Then the same over 16 CPUs, with as many cyclics
//! on each as on the one, and as many expirations at each of its fires.

#[allow(dead_code)]
mod timing;

use std::fs::{self, File};
use std::path::Path;
use std::process::{Command, Stdio};
use std::time::Instant;

const STEPS: usize = 65_536;
const ROUNDS: usize = 15;

/// The nanoseconds between two expirations, of whatever cyclic, and between two advances.
const APART: u64 = 1_000;
const STEP: u64 = 100_000;

/// The sizes of the CPU.
const CYCLICS: [u64; 3] = [1, 16, 256];

/// The CPUs of the second table, the sizes of each of them, and the nanoseconds between two advances there.
const CPUS: u64 = 16;
const EACH: [u64; 3] = [4, 16, 256];
const LONG_STEP: u64 = 250_000;

/// The steps that add so many low cyclics to each CPU, the first of which begins at `start`, or where that is 0 after `APART`.
/// An add goes to the CPU with the fewest. Where their sizes have grown, both soft interrupts of each follow before they can
/// grow again.
fn adds(cpus: u64, cyclics: u64, start: u64) -> Vec<String> {
    let interval = cyclics * APART;
    let mut steps = Vec::new();
    for cyclic in 1..=cyclics {
        if cyclic > 2 && (cyclic - 1).is_power_of_two() {
            for cpu in 0..cpus {
                steps.push(format!(r#"["softint",{cpu},"low",1]"#));
                steps.push(format!(r#"["softint",{cpu},"lock",1]"#));
            }
        }
        let first = start + cyclic * APART;
        for cpu in 0..cpus {
            steps.push(format!(
                r#"["add","c{cyclic}-{cpu}","low",{first},{interval}]"#
            ));
        }
    }
    steps
}

/// A script with so many cyclics on each CPU: after their adds an `advance` and a `softint` of each CPU in turn.
fn script(cpus: u64, cyclics: u64, start: u64, step: u64) -> String {
    let mut steps = adds(cpus, cyclics, start);
    let mut moment = 0;
    while steps.len() < STEPS {
        moment += step;
        steps.push(format!(r#"["advance",{moment}]"#));
        for cpu in 0..cpus {
            steps.push(format!(r#"["softint",{cpu},"low",4294967295]"#));
        }
    }
    steps.truncate(STEPS);
    format!(r#"{{"cpus":{cpus},"steps":[{}]}}"#, steps.join(","))
}

/// The program on a script.
fn replay(program: &str, script: &Path) -> Command {
    let mut command = Command::new(program);
    let script = File::open(script).expect("a script");
    command.arg("replay").stdin(Stdio::from(script));
    command
}

/// The expirations that the report of a replay of so many cyclics has.
fn expirations(program: &str, script: &Path, cyclics: u64) -> u64 {
    let done = replay(program, script).output().expect("the program");
    let text = String::from_utf8(done.stdout).expect("text");
    let report = text.lines().rev().take(cyclics as usize);
    let expired = report.map(|line| line.split(' ').nth(2).expect("the expirations"));
    expired
        .map(|text| text.parse::<u64>().expect("a number"))
        .sum()
}

/// The nanoseconds of a replay whose lines nobody reads.
fn time(program: &str, script: &Path) -> f64 {
    let mut command = replay(program, script);
    let start = Instant::now();
    let status = command.stdout(Stdio::null()).status().expect("the program");
    assert!(status.success());
    start.elapsed().as_nanos() as f64
}

/// What the replays of a script with expirations and of the same with none took: the medians in milliseconds, and the
/// nanoseconds of an expiration and its call.
struct Measured {
    expired: u64,
    whole: f64,
    alone: f64,
    each: f64,
}

fn measure(program: &str, folder: &Path, cpus: u64, cyclics: u64, step: u64) -> Measured {
    let firing = folder.join("firing.json");
    let still = folder.join("still.json");
    fs::write(&firing, script(cpus, cyclics, 0, step)).expect("a script");
    fs::write(&still, script(cpus, cyclics, 1 << 62, step)).expect("a script");
    let expired = expirations(program, &firing, cpus * cyclics);
    assert!(expired > 3_000_000);
    assert_eq!(expirations(program, &still, cpus * cyclics), 0);

    let (mut whole, mut alone, mut each) = (Vec::new(), Vec::new(), Vec::new());
    for _ in 0..ROUNDS {
        let firing = time(program, &firing);
        let still = time(program, &still);
        whole.push(firing / 1e6);
        alone.push(still / 1e6);
        each.push((firing - still) / expired as f64);
    }
    let [whole, alone, each] = [whole, alone, each].map(|mut times| timing::median(&mut times));
    Measured {
        expired,
        whole,
        alone,
        each,
    }
}

/// The row of the table for so many cyclics on one CPU.
fn row(program: &str, folder: &Path, cyclics: u64) {
    let Measured {
        expired,
        whole,
        alone,
        each,
    } = measure(program, folder, 1, cyclics, STEP);
    println!(
        "| {cyclics} | {expired} | {whole:.0} | {alone:.0} | {:.2} | {each:.1} |",
        alone / whole
    );
}

/// The row of the table for so many cyclics on each CPU.
fn row_of_several(program: &str, folder: &Path, cyclics: u64) {
    let one = measure(program, folder, 1, cyclics, LONG_STEP);
    let all = measure(program, folder, CPUS, cyclics, LONG_STEP);
    println!(
        "| {cyclics} | {} | {:.1} | {} | {:.1} | {:.2} |",
        one.expired,
        one.each,
        all.expired,
        all.each,
        all.each / one.each
    );
}

fn main() {
    let mut arguments = std::env::args().skip(1);
    let program = arguments.next().expect("the path of the program");
    let folder = arguments.next().expect("a folder for the scripts");
    let folder = Path::new(&folder);
    println!("`cyclic replay` of {STEPS} steps, with each expiration called:\n");
    println!(
        "| Cyclics | Expirations | Whole, ms | With no expiration, ms | Its share | An expiration and its call, ns |"
    );
    println!("|--:|--:|--:|--:|--:|--:|");
    for cyclics in CYCLICS {
        row(&program, folder, cyclics);
    }
    println!("\nThe same over {CPUS} CPUs, against one with as many cyclics:\n");
    println!(
        "| Cyclics on each | Expirations on one CPU | Each, ns | On {CPUS} CPUs | Each, ns | Ratio |"
    );
    println!("|--:|--:|--:|--:|--:|--:|");
    for cyclics in EACH {
        row_of_several(&program, folder, cyclics);
    }
}
