//! A long run over random and damaged tickets: guard bytes around the buffer,
//! bytes that have to stay, the same answer twice, and the process's memory.
//!
//! `soak [--seconds N] [--seed N] [--valgrind]`; under valgrind, whose own memory
//! is most of the process's, memory is printed and not judged.
//!
//! `soak --stack [--count N] [--seed N]`: no long run, but the worst tickets and
//! as many random ones in a thread of just the stack that is stated.

mod lent;
mod stack;

use lent::{Lent, ROOM};
use std::{
    collections::BTreeMap,
    fs,
    process::ExitCode,
    time::{Duration, Instant},
};
use tickets::{Kind, Rng, Words};

/// Growth of memory behind the first minute or tenth of the run, in kB, that
/// is not taken for noise.
const NOISE: i64 = 4_096;

/// The process's memory in kB.
fn resident() -> i64 {
    fs::read_to_string("/proc/self/status")
        .unwrap_or_default()
        .lines()
        .find_map(|line| line.strip_prefix("VmRSS:"))
        .and_then(|rest| rest.split_whitespace().next()?.parse().ok())
        .unwrap_or(0)
}

fn some_ticket(rng: &mut Rng) -> Vec<u8> {
    match rng.below(100) {
        0 => {
            // Bytes of no sense at all.
            let length = rng.below(2_000);
            (0..length).map(|_| rng.draw() as u8).collect()
        }
        1..=50 => Kind::Damaged.ticket(rng),
        _ => {
            let kind = rng.pick(&Kind::ALL);
            kind.ticket(rng)
        }
    }
}

fn some_room(rng: &mut Rng) -> usize {
    match rng.below(4) {
        0 => ROOM,
        1 => rng.below(ROOM),
        _ => rng.below(2_000),
    }
}

/// What is counted.
#[derive(Default)]
struct Counts {
    tickets: u64,
    bytes: u64,
    faults: u64,
    /// Tickets by the refusal's number, 0 for accepted ones.
    outcomes: BTreeMap<u64, u64>,
}

/// Memory from the time on when the run is warm.
#[derive(Default)]
struct Memory {
    base: Option<i64>,
    peak: i64,
}

impl Counts {
    /// One ticket, over two buffers that held other bytes.
    fn try_ticket(&mut self, rng: &mut Rng, first: &mut Lent, second: &mut Lent) {
        let ticket = some_ticket(rng);
        let room = some_room(rng);
        let fill = rng.draw() as u8;
        self.tickets += 1;
        self.bytes += ticket.len() as u64;
        let once = first.lower(&ticket, room, fill);
        let twice = second.lower(&ticket, room, !fill);
        let fault = match (&once, &twice) {
            (Ok(Ok(length)), Ok(Ok(again))) if length == again => (first.listing(*length)
                != second.listing(*length))
            .then(|| "two listings of one ticket".to_string()),
            (Ok(a), Ok(b)) if a == b => None,
            (Err(fault), _) | (_, Err(fault)) => Some(fault.clone()),
            _ => Some(format!("two answers to one ticket: {once:?}, {twice:?}")),
        };
        if let Some(fault) = fault {
            self.faults += 1;
            println!("FAULT: {fault}\n{}", ticket.escape_ascii());
        }
        if let Ok(outcome) = once {
            let number = outcome.err().map_or(0, |refusal| refusal.number);
            *self.outcomes.entry(number).or_default() += 1;
        }
    }

    fn print(&self, took: Duration) {
        let rate = self.tickets as f64 / took.as_secs_f64();
        println!(
            "{} tickets, each twice; {} bytes; {rate:.0} tickets a second",
            self.tickets, self.bytes
        );
        for (number, count) in &self.outcomes {
            match number {
                0 => println!("  accepted: {count}"),
                _ => println!("  refused {number}: {count}"),
            }
        }
    }
}

impl Memory {
    fn look(&mut self, warm: bool) -> i64 {
        let now = resident();
        if warm {
            self.base.get_or_insert(now);
            self.peak = self.peak.max(now);
        }
        now
    }

    /// Says how it went, and whether it grew.
    fn grew(&self) -> bool {
        let last = resident();
        let base = self.base.unwrap_or(last);
        let peak = self.peak;
        println!("memory: {base} kB when warm, {peak} kB at most, {last} kB at the end");
        last - base > NOISE
    }
}

const USAGE: &str = "\
soak [--seconds N] [--seed N] [--valgrind]
soak --stack [--count N] [--seed N]";

struct Options {
    seconds: u64,
    seed: u64,
    valgrind: bool,
    stack: bool,
    /// Random tickets of `--stack`.
    count: usize,
}

fn read_options() -> Result<Options, String> {
    let mut options = Options {
        seconds: 60,
        seed: 1,
        valgrind: false,
        stack: false,
        count: 100_000,
    };
    let mut words = Words::of_program();
    while let Some(word) = words.option() {
        match word.as_str() {
            "--seconds" => options.seconds = words.number()?,
            "--seed" => options.seed = words.number()?,
            "--valgrind" => options.valgrind = true,
            "--stack" => options.stack = true,
            "--count" => options.count = words.number()?,
            _ => return Err(USAGE.into()),
        }
    }
    Ok(options)
}

/// Whether all went well.
fn run() -> Result<bool, String> {
    let options = read_options()?;
    match options.stack {
        true => stack::run(options.seed, options.count),
        false => run_long(&options),
    }
}

fn run_long(options: &Options) -> Result<bool, String> {
    let whole = Duration::from_secs(options.seconds);
    let warm = (whole / 10).min(Duration::from_secs(60));
    let step = (whole / 20).max(Duration::from_secs(1));
    let mut rng = Rng::new(options.seed);
    let (mut first, mut second) = (Lent::new(), Lent::new());
    let (mut counts, mut memory) = (Counts::default(), Memory::default());
    // What the generators keep is made before memory is watched.
    tickets::limits();

    let start = Instant::now();
    let mut next = step;
    while start.elapsed() < whole {
        for _ in 0..100 {
            counts.try_ticket(&mut rng, &mut first, &mut second);
        }
        let now = memory.look(start.elapsed() >= warm);
        if start.elapsed() >= next {
            next += step;
            let (time, tickets) = (start.elapsed().as_secs_f64(), counts.tickets);
            println!("{time:6.0} s {tickets:10} tickets, memory {now} kB");
        }
    }

    counts.print(start.elapsed());
    let grew = memory.grew() && !options.valgrind;
    println!("{} faults", counts.faults);
    if grew {
        println!("MEMORY GROWS");
    }
    Ok(counts.faults == 0 && !grew)
}

fn main() -> ExitCode {
    match run() {
        Ok(true) => ExitCode::SUCCESS,
        Ok(false) => ExitCode::FAILURE,
        Err(message) => {
            eprintln!("{message}");
            ExitCode::from(2)
        }
    }
}
