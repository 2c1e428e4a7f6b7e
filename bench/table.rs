//! Measuring in rounds and printing the table: what codec.rs and messages.rs have in common.
//!
//! The library's rounds and those of plain Rust alternate, so that a change of the clock meets both.
//!
//! On many processors the speed of a short loop depends on where its code happens to stand, and
//! any change of the program moves it. So the program is built several times, each time with all
//! code moved on by SHIFT bytes, and the table has the mean of them.

use std::arch::global_asm;
use std::env;
use std::hint::black_box;
use std::process::{self, Command, Stdio};
use std::time::Instant;

global_asm!(
    ".pushsection .text.shift, \"ax\"",
    ".globl code_shift",
    "code_shift:",
    concat!(".skip ", env!("SHIFT")),
    ".popsection",
);

extern "C" {
    fn code_shift();
}

pub const SEED: u64 = 0x444F_4E47_4C4F_5241;
/// How many bytes one round works through, about.
pub const ROUND: usize = 64 * 1024;
const ROUNDS: usize = 301;

/// What a table's numbers are.
pub struct Unit {
    /// The name, of four characters, and what it means.
    pub name: &'static str,
    pub meaning: &'static str,
    /// The number for a time in seconds.
    pub of: fn(f64) -> f64,
}

/// What is known of a row. The times are seconds for a byte or a call; by_round is their ratio.
pub struct Row {
    name: String,
    target: Option<f64>,
    proved: f64,
    plain: f64,
    by_round: f64,
}

impl Row {
    /// Measures two that work through so many bytes or calls.
    pub fn measure<T>(
        name: &str,
        target: Option<f64>,
        count: usize,
        proved: impl Fn() -> T,
        plain: impl Fn() -> T,
    ) -> Row {
        let rounds: Vec<(f64, f64)> = (0..ROUNDS)
            .map(|_| (seconds(&proved), seconds(&plain)))
            .collect();
        Row {
            name: name.to_string(),
            target,
            proved: median(rounds.iter().map(|round| round.0).collect()) / count as f64,
            plain: median(rounds.iter().map(|round| round.1).collect()) / count as f64,
            by_round: median(rounds.iter().map(|round| round.0 / round.1).collect()),
        }
    }

    /// The line that one build prints for another to read.
    fn line(&self) -> String {
        let target = self.target.unwrap_or(0.0);
        let (proved, plain, by_round) = (self.proved, self.plain, self.by_round);
        format!("{}\t{target}\t{proved}\t{plain}\t{by_round}", self.name)
    }

    fn read(line: &str) -> Option<Row> {
        let (name, numbers) = line.split_once('\t')?;
        let numbers: Result<Vec<f64>, _> = numbers.split('\t').map(str::parse).collect();
        match numbers.ok()?[..] {
            [target, proved, plain, by_round] => Some(Row {
                name: name.to_string(),
                target: Some(target).filter(|&target| target > 0.0),
                proved,
                plain,
                by_round,
            }),
            _ => None,
        }
    }
}

fn median(mut values: Vec<f64>) -> f64 {
    values.sort_by(f64::total_cmp);
    values[values.len() / 2]
}

fn seconds<T>(work: impl FnOnce() -> T) -> f64 {
    let start = Instant::now();
    black_box(work());
    start.elapsed().as_secs_f64()
}

/// Runs one build and reads its rows.
fn run(program: &str) -> Vec<Row> {
    let output = Command::new(program).stderr(Stdio::inherit()).output();
    let output = output.expect("a build of the benchmark can be run");
    if !output.status.success() {
        process::exit(1);
    }
    let text = String::from_utf8_lossy(&output.stdout);
    let read = |line| Row::read(line).expect("a build of the benchmark prints rows");
    text.lines().map(read).collect()
}

/// Prints the table of several builds.
fn print_table(unit: &Unit, programs: &[String]) {
    let builds: Vec<Vec<Row>> = programs.iter().map(|program| run(program)).collect();
    let count = builds.len() as f64;
    let is_target = builds[0].iter().any(|row| row.target.is_some());
    let (name, target) = (unit.name, if is_target { "  target" } else { "" });
    println!("Proved: libdonglora.a. Plain: straightforward Rust. {count} places of the code.");
    println!(
        "{}, by the median of {ROUNDS} rounds of 64 KiB.",
        unit.meaning
    );
    println!("Ratio: proved to plain, of these. By round: the median of the ratios of all rounds.");
    println!();
    println!("                      proved    plain                      by round");
    println!("                        {name}     {name}   ratio    mean  lowest  highest{target}");
    for (index, row) in builds[0].iter().enumerate() {
        let same: Vec<&Row> = builds.iter().map(|rows| &rows[index]).collect();
        let a = (unit.of)(same.iter().map(|row| row.proved).sum::<f64>() / count);
        let b = (unit.of)(same.iter().map(|row| row.plain).sum::<f64>() / count);
        let by_round = |row: &&Row| (unit.of)(row.by_round) / (unit.of)(1.0);
        let ratios: Vec<f64> = same.iter().map(by_round).collect();
        let mean = ratios.iter().product::<f64>().powf(1.0 / count);
        let lowest = ratios.iter().copied().fold(f64::INFINITY, f64::min);
        let highest = ratios.iter().copied().fold(0.0, f64::max);
        let note = match row.target {
            None => String::new(),
            Some(target) if mean < target => format!("{target:8.2}  below target"),
            Some(target) => format!("{target:8.2}"),
        };
        print!("{:19} {a:8.1} {b:8.1} {:7.2} ", row.name, a / b);
        println!("{mean:7.2} {lowest:7.2} {highest:8.2}{note}");
    }
}

/// Without arguments measures, and prints a line for each row; with builds runs them and prints the
/// table.
pub fn run_or_print(unit: &Unit, measure: fn() -> Vec<Row>) {
    // Used, so that the linker keeps it.
    black_box(code_shift as unsafe extern "C" fn());
    let programs: Vec<String> = env::args().skip(1).collect();
    if programs.is_empty() {
        for row in measure() {
            println!("{}", row.line());
        }
    } else {
        print_table(unit, &programs);
    }
}
