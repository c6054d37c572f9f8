//! Tickets answered in a thread of just the stack that is stated. A thread that
//! needs more ends the process.

use std::{
    hash::{DefaultHasher, Hash, Hasher},
    thread,
};
use tickets::{Kind, Rng};
use wesknuft_lower::{lower, Lowerer, Refusal, STACK};

/// Room for any listing.
const ROOM: usize = 1 << 20;

/// The listing's length and hash, or the refusal.
type Told = Result<(usize, u64), Refusal>;

fn told(answer: Result<usize, Refusal>, buffer: &[u8]) -> Told {
    let length = answer?;
    let mut hasher = DefaultHasher::new();
    buffer[..length].hash(&mut hasher);
    Ok((length, hasher.finish()))
}

/// The worst tickets, all at limits and random ones of every kind.
fn some_tickets(seed: u64, count: usize) -> Vec<Vec<u8>> {
    let mut rng = Rng::new(seed);
    let named = tickets::worst().iter().chain(tickets::limits());
    let mut all: Vec<_> = named.map(|(_, ticket)| ticket.clone()).collect();
    for _ in 0..count {
        let kind = rng.pick(&Kind::ALL);
        all.push(kind.ticket(&mut rng));
    }
    all
}

/// Answers in a small thread, and holds each answer to that of this one.
pub fn run(seed: u64, count: usize) -> Result<bool, String> {
    let tickets = some_tickets(seed, count);
    let mut buffer = vec![0; ROOM];
    let expected: Vec<Told> = tickets
        .iter()
        .map(|ticket| told(lower(ticket, &mut buffer), &buffer))
        .collect();

    let small = thread::Builder::new().stack_size(STACK);
    let all = thread::scope(|scope| {
        let work = || -> Vec<Told> {
            let mut lowerer = Lowerer::new();
            tickets
                .iter()
                .map(|ticket| told(lowerer.lower(ticket, &mut buffer), &buffer))
                .collect()
        };
        let thread = small.spawn_scoped(scope, work);
        let thread = thread.map_err(|error| format!("no thread: {error}"))?;
        thread.join().map_err(|_| "the thread panicked".to_string())
    })?;

    let other = all.iter().zip(&expected).filter(|(a, b)| a != b).count();
    let accepted = all.iter().filter(|told| told.is_ok()).count();
    println!(
        "{} tickets, {accepted} accepted, in a thread of {} KiB: {other} answered otherwise",
        all.len(),
        STACK / 1_024
    );
    Ok(other == 0)
}
