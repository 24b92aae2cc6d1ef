//! Compares a bench with the naive implementation on long mixed lives.
//!
//! `lives BENCH [--calls N] [--seed S]` makes scripts, runs the program BENCH on each, and compares what it writes with what the naive
//! implementation answers. `lives --print S` writes the script of one seed.

mod contents;
mod counts;
mod deeds;
mod life;
mod random;
mod requests;

use counts::Counts;
use life::{make, Made};
use std::io::{Read, Write};
use std::process::{Child, Command, ExitCode, Stdio};
use std::thread::{sleep, spawn, JoinHandle};
use std::time::{Duration, Instant};

const USAGE: &str = "usage: lives BENCH [--calls N] [--seed S], or lives --print S";
const CALLS: u64 = 100_000;
const SEED: u64 = 1;
/// So many calls must be done in this time, or in as many times as much as more calls were wished for.
const MOST_TIME: Duration = Duration::from_secs(115);

const AGREES: u8 = 0;
const DIFFERS: u8 = 1;
const NOT_DONE: u8 = 2;

struct Wish {
    bench: String,
    calls: u64,
    seed: u64,
}

fn main() -> ExitCode {
    let words: Vec<String> = std::env::args().skip(1).collect();
    if let [option, seed] = &words[..] {
        if option == "--print" {
            return print_script(seed);
        }
    }
    match wish_of(&words) {
        Some(wish) => ExitCode::from(compare_lives(&wish)),
        None => {
            eprintln!("{USAGE}");
            ExitCode::from(NOT_DONE)
        }
    }
}

fn wish_of(words: &[String]) -> Option<Wish> {
    let (bench, options) = words.split_first()?;
    let mut wish = Wish { bench: bench.clone(), calls: CALLS, seed: SEED };
    for pair in options.chunks(2) {
        let [option, number] = pair else { return None };
        let number = number.parse().ok()?;
        match option.as_str() {
            "--calls" => wish.calls = number,
            "--seed" => wish.seed = number,
            _ => return None,
        }
    }
    Some(wish)
}

fn print_script(seed: &str) -> ExitCode {
    let Ok(seed) = seed.parse() else {
        eprintln!("{USAGE}");
        return ExitCode::from(NOT_DONE);
    };
    let is_written = std::io::stdout().write_all(&make(seed).script).is_ok();
    ExitCode::from(if is_written { AGREES } else { NOT_DONE })
}

/// Makes scripts until there are enough calls. While the bench works on one, the next is made.
fn compare_lives(wish: &Wish) -> u8 {
    let begin = Instant::now();
    let deadline = begin + MOST_TIME * wish.calls.div_ceil(CALLS).clamp(1, 1000) as u32;
    let mut counts = Counts::default();
    let mut calls = 0;
    let mut seed = wish.seed;
    let mut running: Option<Running> = None;
    loop {
        let next = if calls < wish.calls { Some(make(seed)) } else { None };
        if let Some(running) = running.take() {
            match running.finish(deadline) {
                Ok(agreed) => counts.add(&agreed),
                Err((status, why)) => {
                    println!("{why}");
                    return status;
                }
            }
        }
        let Some(made) = next else { break };
        calls += made.counts.calls;
        seed = seed.wrapping_add(1);
        match Running::begin(&wish.bench, made) {
            Ok(begun) => running = Some(begun),
            Err(why) => {
                println!("{}: {why}", wish.bench);
                return NOT_DONE;
            }
        }
    }
    counts.print();
    println!("seeds from {} on, {:.1} s", wish.seed, begin.elapsed().as_secs_f64());
    AGREES
}

/// The bench at work on a script.
struct Running {
    made: Made,
    child: Child,
    writer: JoinHandle<()>,
    reader: JoinHandle<Vec<u8>>,
}

impl Running {
    fn begin(bench: &str, made: Made) -> std::io::Result<Running> {
        let mut child = Command::new(bench).stdin(Stdio::piped()).stdout(Stdio::piped()).spawn()?;
        let mut input = child.stdin.take().expect("standard input is a pipe");
        let mut output = child.stdout.take().expect("standard output is a pipe");
        let script = made.script.clone();
        // A bench that ends early shows in what it wrote.
        let writer = spawn(move || drop(input.write_all(&script)));
        let reader = spawn(move || {
            let mut transcript = Vec::new();
            drop(output.read_to_end(&mut transcript));
            transcript
        });
        Ok(Running { made, child, writer, reader })
    }

    /// Waits for the bench and compares. The status and the words say what was wrong.
    fn finish(mut self, deadline: Instant) -> Result<Counts, (u8, String)> {
        let seed = self.made.seed;
        while !self.reader.is_finished() {
            if Instant::now() > deadline {
                drop(self.child.kill());
                drop(self.child.wait());
                return Err((NOT_DONE, format!("seed {seed}: the time was over before the bench was done")));
            }
            sleep(Duration::from_millis(1));
        }
        let transcript = self.reader.join().expect("the reader ends");
        let status = self.child.wait().map_err(|error| (NOT_DONE, format!("seed {seed}: {error}")))?;
        drop(self.writer.join());
        if let Some(difference) = first_difference(&self.made.transcript, &transcript) {
            return Err((DIFFERS, format!("seed {seed}: {difference}")));
        }
        if !status.success() {
            return Err((DIFFERS, format!("seed {seed}: the bench ended with {status}")));
        }
        Ok(self.made.counts)
    }
}

/// The first line that differs, with the command before it. The words after `? ` are free.
fn first_difference(naive: &[u8], bench: &[u8]) -> Option<String> {
    let newline = |byte: &u8| *byte == b'\n';
    let mut naive = naive.split(newline);
    let mut bench = bench.split(newline);
    let mut command: &[u8] = b"";
    for number in 1.. {
        let (ours, theirs) = (naive.next(), bench.next());
        if ours.is_none() && theirs.is_none() {
            break;
        }
        if ours.map(without_reason) != theirs.map(without_reason) {
            return Some(format!(
                "line {number} of the transcript differs\n  command: {}\n  naive:   {}\n  bench:   {}",
                shown(Some(command)),
                shown(ours),
                shown(theirs)
            ));
        }
        match ours {
            Some(line) if line.starts_with(b"> ") => command = line,
            _ => (),
        }
    }
    None
}

fn without_reason(line: &[u8]) -> &[u8] {
    if line.starts_with(b"? ") {
        b"? "
    } else {
        line
    }
}

fn shown(line: Option<&[u8]>) -> String {
    match line {
        Some(line) => String::from_utf8_lossy(line).into_owned(),
        None => "(the transcript is over)".to_string(),
    }
}
