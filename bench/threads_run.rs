//! Times `cyclic run` (the program, whose path is the argument) on scripts of its own making, with few long advances and with many
//! short ones, against the same machine in plain Rust (`machine.rs`) over the same shared words, over a locked queue and over a
//! channel. Each side is a process of its own: the plain Rust is this program, called with `twin`. What a process takes on a
//! script of adds alone is subtracted. A third argument says how many rounds to take.

mod machine;
#[allow(dead_code)]
mod timing;
#[allow(dead_code)]
mod words;

use machine::{Level, Starts, Work};
use std::fs::{self, File};
use std::path::{Path, PathBuf};
use std::process::{Command, Stdio};
use std::time::Instant;

/// The rounds of each row, where the words say nothing else.
const ROUNDS: usize = 9;

/// The cyclics on each CPU, and the nanoseconds between two expirations there, of whatever cyclic.
const CYCLICS: u16 = 16;
const APART: u64 = 1_000;

/// The CPUs of the rows.
const CPUS: [u64; 3] = [1, 2, 4];

/// So many advances, and the expirations of each CPU in one of them.
type Advances = (u64, u64);

/// Few long advances.
fn long(_cpus: u64) -> Advances {
    (4, 500_000)
}

/// Many short advances.
fn short(_cpus: u64) -> Advances {
    (4_000, 16)
}

const LEVELS: [(Level, &str); 2] = [(Level::High, "high"), (Level::Low, "low")];

/// The plain Rust over each buffer, and with and without a thread for each CPU.
const BUFFERS: [&str; 3] = ["words", "lock", "channel"];
const STARTS: [&str; 2] = ["none", "words"];

/// The program, a folder for its scripts, and how many rounds a row takes.
struct Bench<'a> {
    program: &'a str,
    folder: &'a Path,
    rounds: usize,
}

fn script(work: Work, level: &str) -> String {
    let interval = u64::from(work.cyclics) * work.apart;
    let mut steps = Vec::new();
    for cyclic in 1..=u64::from(work.cyclics) {
        let first = cyclic * work.apart;
        for cpu in 0..work.cpus {
            steps.push(format!(
                r#"["add","c{cyclic}-{cpu}","{level}",{first},{interval}]"#
            ));
        }
    }
    for advance in 1..=work.advances {
        steps.push(format!(r#"["advance",{}]"#, advance * work.step));
    }
    format!(r#"{{"cpus":{},"steps":[{}]}}"#, work.cpus, steps.join(","))
}

/// The number after this word in each line of a report, summed.
fn summed(report: &str, word: &str) -> u64 {
    let after = |line: &str| {
        let mut words = line.split(' ').skip_while(|other| *other != word);
        words.nth(1)?.parse::<u64>().ok()
    };
    report.lines().filter_map(after).sum()
}

/// What a process writes, and the nanoseconds that it takes.
fn timed(command: &mut Command) -> (String, f64) {
    let start = Instant::now();
    let done = command.output().expect("the program");
    let nanoseconds = start.elapsed().as_nanos() as f64;
    assert!(done.status.success());
    (String::from_utf8(done.stdout).expect("text"), nanoseconds)
}

/// One run of the program, which makes the calls that are wanted.
fn proved(program: &str, script: &Path, wanted: u64) -> f64 {
    let input = File::open(script).expect("a script");
    let (report, nanoseconds) = timed(Command::new(program).arg("run").stdin(Stdio::from(input)));
    assert_eq!(summed(&report, "called"), wanted);
    nanoseconds
}

/// One run of the plain Rust.
fn twin(kind: &str, work: Work, wanted: u64) -> f64 {
    let own = std::env::current_exe().expect("this program");
    let high = u64::from(work.level == Level::High);
    let numbers = [work.cpus, high, work.step, work.advances].map(|number| number.to_string());
    let (calls, nanoseconds) = timed(Command::new(own).arg("twin").arg(kind).args(numbers));
    assert_eq!(calls.trim(), wanted.to_string());
    nanoseconds
}

/// The process that `twin` starts: it writes how many calls were made.
fn run_twin(arguments: &[String]) {
    let numbers: Vec<u64> = arguments[1..]
        .iter()
        .map(|text| text.parse().expect("a number"))
        .collect();
    let work = Work {
        cpus: numbers[0],
        cyclics: CYCLICS,
        level: LEVELS[usize::from(numbers[1] == 0)].0,
        apart: APART,
        step: numbers[2],
        advances: numbers[3],
    };
    let calls = match arguments[0].as_str() {
        "words" => machine::run(work, Starts::Each, machine::over_words),
        "lock" => machine::run(work, Starts::Each, machine::over_lock),
        "channel" => machine::run(work, Starts::Each, machine::over_channel),
        _ => machine::run(work, Starts::None, machine::over_words),
    };
    println!("{calls}");
}

/// The work of a row.
fn work(cpus: u64, level: Level, (advances, each): Advances) -> Work {
    Work {
        cpus,
        cyclics: CYCLICS,
        level,
        apart: APART,
        step: each * APART,
        advances,
    }
}

impl Bench<'_> {
    fn write(&self, name: &str, script: String) -> PathBuf {
        let file = self.folder.join(name);
        fs::write(&file, script).expect("a script");
        file
    }

    /// The median nanoseconds of the program and of each of these twins, above what they take with no advance. All run in turn.
    fn measure(&self, work: Work, level: &str, twins: &[&str]) -> Vec<f64> {
        let still = Work {
            advances: 0,
            ..work
        };
        let whole = self.write("run.json", script(work, level));
        let adds = self.write("adds.json", script(still, level));
        let wanted = work.cpus * work.advances * work.step / work.apart;
        let mut times = vec![Vec::new(); twins.len() + 1];
        for _ in 0..self.rounds {
            times[0].push(proved(self.program, &whole, wanted) - proved(self.program, &adds, 0));
            for (times, kind) in times[1..].iter_mut().zip(twins) {
                times.push(twin(kind, work, wanted) - twin(kind, still, 0));
            }
        }
        times
            .iter_mut()
            .map(|times| timing::median(times))
            .collect()
    }

    /// Expirations a second over each buffer.
    fn buffers(&self, kind: &str, what: &str, advances: fn(u64) -> Advances) {
        let title = format!("A run in threads, {what}, millions of expirations a second");
        let proved = format!("Rattle, {kind} advances");
        let columns = [
            "Rust",
            "`Mutex<VecDeque>`",
            "`channel`",
            &proved,
            "Time of Rattle to Rust",
        ];
        timing::head(&title, "CPUs, level", &columns);
        for (level, name) in LEVELS {
            for cpus in CPUS {
                let (count, each) = advances(cpus);
                let times = self.measure(work(cpus, level, (count, each)), name, &BUFFERS);
                let expired = (cpus * count * each) as f64;
                let rates = [times[1], times[2], times[3], times[0]]
                    .map(|time| format!("{:.2}", expired * 1e3 / time));
                println!(
                    "| {cpus}, {name} | {} | {:.2} |",
                    rates.join(" | "),
                    times[0] / times[1]
                );
            }
        }
        println!();
    }

    /// What a short advance costs, and what of it is the start of threads.
    fn starts(&self) {
        let title = "An advance of 16 expirations of high level on each CPU, microseconds";
        let columns = [
            "Rust, no thread started",
            "Rust, a thread for each CPU",
            "Rattle",
            "Rattle to a thread for each CPU",
        ];
        timing::head(title, "CPUs", &columns);
        for cpus in CPUS {
            let (count, each) = short(cpus);
            let times = self.measure(work(cpus, Level::High, (count, each)), "high", &STARTS);
            let each = [times[1], times[2], times[0]].map(|time| time / count as f64 / 1e3);
            timing::row(&cpus.to_string(), &each, times[0] / times[2]);
        }
    }
}

fn main() {
    let arguments: Vec<String> = std::env::args().skip(1).collect();
    if arguments[0] == "twin" {
        return run_twin(&arguments[1..]);
    }
    let bench = Bench {
        program: &arguments[0],
        folder: Path::new(&arguments[1]),
        rounds: arguments
            .get(2)
            .map_or(ROUNDS, |text| text.parse().expect("a number")),
    };
    bench.buffers(
        "long",
        "4 advances of 500,000 expirations on each CPU",
        long,
    );
    bench.buffers("short", "advances of 16 expirations on each CPU", short);
    bench.starts();
}
