//! One line of the table: two calls that do the same, run in turns.

use std::hint::black_box;
use std::time::Instant;

const BATCHES: usize = 201;
const BATCH_SECONDS: f64 = 0.002;

enum Task {
    /// Print the times of the lines that were asked for.
    Time,
    /// Print their names, each behind the number of things that one of its calls does.
    Names,
    /// Make so many calls on one side of one line, for a tool that counts.
    Run { line: String, ours: bool, calls: u64 },
}

pub struct Timing {
    task: Task,
    words: Vec<String>,
}

impl Timing {
    pub fn from_args() -> Timing {
        let args: Vec<String> = std::env::args().skip(1).collect();
        let rest = args.iter().skip(1).cloned().collect();
        match args.first().map(String::as_str) {
            Some("time") => {
                println!(
                    "{:26} {:>10} {:>10} {:>10} {:>10} {:>8} {:>8}",
                    "ns a call", "ours", "", "Rust", "", "ratio", ""
                );
                println!(
                    "{:26} {:>10} {:>10} {:>10} {:>10} {:>8} {:>8}",
                    "", "least", "median", "least", "median", "least", "median"
                );
                Timing {
                    task: Task::Time,
                    words: rest,
                }
            }
            Some("names") => Timing {
                task: Task::Names,
                words: rest,
            },
            Some("run") if args.len() == 4 => Timing {
                task: Task::Run {
                    line: args[1].clone(),
                    ours: args[2] == "ours",
                    calls: args[3].parse().expect("a number of calls"),
                },
                words: Vec::new(),
            },
            _ => panic!("time [WORD..], names [WORD..] or run LINE ours|rust CALLS"),
        }
    }

    pub fn times(&self) -> bool {
        matches!(self.task, Task::Time)
    }

    /// Is this line to be timed or run? Only then are its two sides compared first.
    pub fn asks(&self, name: &str) -> bool {
        match &self.task {
            Task::Run { line, .. } => line == name,
            Task::Names => false,
            Task::Time => self.has_word(name),
        }
    }

    fn has_word(&self, name: &str) -> bool {
        self.words.is_empty() || self.words.iter().any(|w| name.contains(w.as_str()))
    }

    pub fn line<A, B>(&mut self, name: &str, ours: impl FnMut() -> A, rust: impl FnMut() -> B) {
        self.line_of(name, 1, ours, rust);
    }

    /// A line whose calls do the same thing so many times each: what is told is one of them.
    pub fn line_of<A, B>(&mut self, name: &str, times: u64, mut ours: impl FnMut() -> A, mut rust: impl FnMut() -> B) {
        match &self.task {
            Task::Run { line, ours: is_ours, calls } => {
                if line == name && *is_ours {
                    batch(*calls, &mut ours);
                } else if line == name {
                    batch(*calls, &mut rust);
                }
            }
            _ if !self.has_word(name) => {}
            Task::Names => println!("{times} {name}"),
            Task::Time => {
                let o_calls = calls_in_a_batch(&mut ours);
                let r_calls = calls_in_a_batch(&mut rust);
                let (mut o, mut r) = (Vec::new(), Vec::new());
                for turn in 0..BATCHES {
                    // who goes first changes from turn to turn
                    if turn % 2 == 0 {
                        o.push(batch(o_calls, &mut ours));
                        r.push(batch(r_calls, &mut rust));
                    } else {
                        r.push(batch(r_calls, &mut rust));
                        o.push(batch(o_calls, &mut ours));
                    }
                }
                o.sort_by(f64::total_cmp);
                r.sort_by(f64::total_cmp);
                let one = |ns: f64| ns / times as f64;
                let (ol, om, rl, rm) = (one(o[0]), one(o[BATCHES / 2]), one(r[0]), one(r[BATCHES / 2]));
                println!(
                    "{name:26} {ol:10.1} {om:10.1} {rl:10.1} {rm:10.1} {:8.2} {:8.2}",
                    ol / rl,
                    om / rm
                );
            }
        }
    }
}

/// The nanoseconds of one call, from a batch of them.
fn batch<T>(calls: u64, call: &mut impl FnMut() -> T) -> f64 {
    let start = Instant::now();
    for _ in 0..calls {
        black_box(call());
    }
    start.elapsed().as_secs_f64() * 1e9 / calls as f64
}

fn calls_in_a_batch<T>(call: &mut impl FnMut() -> T) -> u64 {
    let start = Instant::now();
    let mut calls = 0;
    while start.elapsed().as_secs_f64() < BATCH_SECONDS {
        black_box(call());
        calls += 1;
    }
    calls
}

/// Ends the program unless the two numbers have the same bits.
pub fn same(what: &str, ours: f64, rust: f64) {
    if ours.to_bits() != rust.to_bits() {
        eprintln!(
            "timing: {what} differs: ours {ours:?} ({:016x}), the Rust's {rust:?} ({:016x})",
            ours.to_bits(),
            rust.to_bits()
        );
        std::process::exit(1);
    }
}
