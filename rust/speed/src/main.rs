//! Times the proved lowering and the original side by side, in one run and on
//! the same tickets. Each time is the median of several rounds, in which the
//! sides take turns, and is the thread's time on a processor, so that other work
//! on the machine counts little. The tables are printed as README.md has them.
//!
//! `speed [--rounds N] [--seed N] [--quick] [--stack]`; with `--stack` it finds
//! the least stack of a thread in which ours answers each group, and no more.

mod clock;
mod groups;
mod stack;

use clock::processor_time;
use groups::{groups, random, Group, Growth, GROWTHS, ROOM};
use original::{ticket, Prepared};
use std::{hint::black_box, time::Duration};
use tickets::Words;
use wesknuft_lower::Lowerer;

/// Random tickets whose stack is measured.
const RANDOM: usize = 100_000;

struct Options {
    rounds: usize,
    seed: u64,
    /// How long one side works on a group in one round, at least.
    turn: Duration,
    /// Whether stacks are measured, and not times.
    stack: bool,
    /// The stack in which the tickets on standard input are answered: how
    /// this program calls itself to try one.
    within: Option<usize>,
}

/// Times of one ticket, in nanoseconds.
struct Times {
    /// One `Lowerer`, used again.
    ours: f64,
    /// The plain function, in the thread's room.
    plain: f64,
    /// With the reader and the printer written for it here.
    original: f64,
    /// `lower_expression` alone, without reading and printing, over those
    /// tickets of the group that it lowers.
    lowering: Option<f64>,
}

impl Times {
    fn of(group: &Group, options: &Options, buffer: &mut [u8]) -> Self {
        let read: Vec<_> = group
            .tickets
            .iter()
            .filter_map(|ticket| ticket::read(ticket).ok())
            .collect();
        let prepared: Vec<Prepared> = read
            .iter()
            .map(Prepared::new)
            .filter(Prepared::lowers)
            .collect();

        let mut lowerer = Lowerer::new();
        let mut second = vec![0; buffer.len()];
        let mut ours = || {
            for ticket in &group.tickets {
                let _ = black_box(lowerer.lower(black_box(ticket), buffer));
            }
        };
        let mut plain = || {
            for ticket in &group.tickets {
                let _ = black_box(wesknuft_lower::lower(black_box(ticket), &mut second));
            }
        };
        let mut original = || {
            for ticket in &group.tickets {
                black_box(original::answer(black_box(ticket), ROOM));
            }
        };
        let mut lowering = || {
            for prepared in &prepared {
                black_box(black_box(prepared).lowers());
            }
        };
        let sides: [&mut dyn FnMut(); 4] = [&mut ours, &mut plain, &mut original, &mut lowering];
        let [ours, plain, original, lowering] = medians(sides, options);
        let count = group.tickets.len() as f64;
        Self {
            ours: ours / count,
            plain: plain / count,
            original: original / count,
            lowering: (!prepared.is_empty()).then(|| lowering / prepared.len() as f64),
        }
    }
}

/// Nanoseconds of one run of each side, which take turns.
fn medians<const N: usize>(mut sides: [&mut dyn FnMut(); N], options: &Options) -> [f64; N] {
    let turns = sides.each_mut().map(|side| turns(side, options.turn));
    let mut rounds = [const { Vec::new() }; N];
    for _ in 0..options.rounds {
        for (index, side) in sides.iter_mut().enumerate() {
            rounds[index].push(timed(side, turns[index]));
        }
    }
    rounds.map(median)
}

/// How often a side has to run to fill its turn.
fn turns(side: &mut dyn FnMut(), turn: Duration) -> usize {
    // The first run fills the caches.
    side();
    let start = processor_time();
    side();
    let once = (processor_time() - start).max(Duration::from_nanos(50));
    (turn.as_nanos() / once.as_nanos()) as usize + 1
}

/// Nanoseconds of one run of a side.
fn timed(side: &mut dyn FnMut(), times: usize) -> f64 {
    let start = processor_time();
    for _ in 0..times {
        side();
    }
    (processor_time() - start).as_nanos() as f64 / times as f64
}

fn median(mut values: Vec<f64>) -> f64 {
    values.sort_by(f64::total_cmp);
    values[values.len() / 2]
}

fn micro(nanoseconds: f64) -> String {
    format!("{:.2}", nanoseconds / 1_000.0)
}

fn print(group: &Group, times: &Times, stack: usize) {
    println!(
        "| {} | {} | {:.0} | {} | {} | {} | {:.2} | {} | {} |",
        group.name,
        group.tickets.len(),
        group.bytes(),
        micro(times.ours),
        micro(times.plain),
        micro(times.original),
        times.ours / times.original,
        times.lowering.map_or("-".into(), micro),
        stack / 1_024,
    );
}

/// With a comma before the last three digits.
fn grouped(number: usize) -> String {
    match number / 1_000 {
        0 => number.to_string(),
        thousands => format!("{thousands},{:03}", number % 1_000),
    }
}

/// How the time of ours grows with a ticket's size.
fn print_growth(growth: &Growth, options: &Options, buffer: &mut [u8]) {
    let mut lowerer = Lowerer::new();
    let times = growth.sizes.iter().map(|&size| {
        let ticket = (growth.ticket)(size);
        let mut ours = || {
            let _ = black_box(lowerer.lower(black_box(&ticket), buffer));
        };
        let [ours] = medians([&mut ours], options);
        format!("{}: {}", grouped(size), micro(ours))
    });
    let times: Vec<String> = times.collect();
    println!("| {} | {} |", growth.what, times.join(", "));
}

fn read_options() -> Result<Options, String> {
    let mut options = Options {
        rounds: 9,
        seed: 1,
        turn: Duration::from_millis(15),
        stack: false,
        within: None,
    };
    let mut words = Words::of_program();
    while let Some(word) = words.option() {
        match word.as_str() {
            "--rounds" => options.rounds = words.number::<usize>()?.max(1),
            "--seed" => options.seed = words.number()?,
            "--quick" => options.turn = Duration::from_millis(2),
            "--stack" => options.stack = true,
            "--within" => options.within = Some(words.number()?),
            _ => return Err("speed [--rounds N] [--seed N] [--quick] [--stack]".into()),
        }
    }
    Ok(options)
}

fn print_all(options: &Options) -> Result<(), String> {
    println!(
        "| Group | Tickets | Bytes each | Ours, µs | Ours by the plain function, µs \
         | Original, µs | Ratio | Original's lower_expression alone, µs | Stack, KiB |"
    );
    println!("|---|---|---|---|---|---|---|---|---|");
    let mut buffer = vec![0; ROOM];
    for group in &groups(options.seed) {
        let times = Times::of(group, options, &mut buffer);
        print(group, &times, stack::least(group)?);
    }
    println!("\n| Growth of | size: µs of ours |\n|---|---|");
    for growth in &GROWTHS {
        print_growth(growth, options, &mut buffer);
    }
    Ok(())
}

fn print_stacks(options: &Options) -> Result<(), String> {
    let mut all = groups(options.seed);
    all.push(random(options.seed, RANDOM));
    stack::print_least(&all)
}

fn main() -> Result<(), String> {
    let options = read_options()?;
    match options.within {
        Some(size) => stack::answer_within(size),
        None if options.stack => print_stacks(&options),
        None => print_all(&options),
    }
}
