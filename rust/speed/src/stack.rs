//! The least stack of a thread in which ours answers, a room made there and the
//! thread's own start included. A thread that needs more ends its process, so
//! each size is tried in a process of its own.

use crate::groups::{Group, ROOM};
use std::{
    env,
    io::{self, Read, Write},
    process::{Command, Stdio},
    thread,
};
use wesknuft_lower::{Lowerer, STACK};

/// Sizes are told apart by so many bytes.
const STEP: usize = 4_096;
/// In steps: the least that a thread is given, and more than any ticket needs.
const SIZES: (usize, usize) = (4, 1_024);

/// Answers the tickets on standard input in a thread of such a stack.
pub fn answer_within(size: usize) -> Result<(), String> {
    let mut text = Vec::new();
    let read = io::stdin().read_to_end(&mut text);
    read.map_err(|error| format!("standard input: {error}"))?;
    let mut buffer = vec![0; ROOM];
    let work = move || {
        let mut lowerer = Lowerer::new();
        let mut rest = text.as_slice();
        while let Some((length, behind)) = rest.split_first_chunk() {
            let (ticket, behind) = behind.split_at(u64::from_le_bytes(*length) as usize);
            let _ = lowerer.lower(ticket, &mut buffer);
            rest = behind;
        }
    };
    let thread = thread::Builder::new().stack_size(size).spawn(work);
    let thread = thread.map_err(|error| format!("no thread: {error}"))?;
    thread.join().map_err(|_| "the thread panicked".to_string())
}

/// The tickets, each behind its length.
fn packed(group: &Group) -> Vec<u8> {
    let mut text = Vec::new();
    for ticket in &group.tickets {
        text.extend((ticket.len() as u64).to_le_bytes());
        text.extend(ticket);
    }
    text
}

fn fits(text: &[u8], size: usize) -> io::Result<bool> {
    let mut child = Command::new(env::current_exe()?)
        .args(["--within", &size.to_string()])
        .stdin(Stdio::piped())
        .stderr(Stdio::null())
        .spawn()?;
    if let Some(mut input) = child.stdin.take() {
        input.write_all(text)?;
    }
    Ok(child.wait()?.success())
}

/// In bytes.
pub fn least(group: &Group) -> Result<usize, String> {
    let text = packed(group);
    let (mut low, mut high) = SIZES;
    while low < high {
        let middle = (low + high) / 2;
        match fits(&text, middle * STEP).map_err(|error| error.to_string())? {
            true => high = middle,
            false => low = middle + 1,
        }
    }
    Ok(high * STEP)
}

pub fn print_least(groups: &[Group]) -> Result<(), String> {
    println!("| Group | Tickets | Stack, KiB |\n|---|---|---|");
    for group in groups {
        let (name, count) = (&group.name, group.tickets.len());
        println!("| {name} | {count} | {} |", least(group)? / 1_024);
    }
    println!("\nThe stack that is stated: {} KiB.", STACK / 1_024);
    Ok(())
}
