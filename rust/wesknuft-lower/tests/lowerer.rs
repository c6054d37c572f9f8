//! One room used again, rooms of threads, and the stack that is stated.

use std::thread;
use tickets::{limits, worst, Kind, Rng};
use wesknuft_lower::{lower, lower_to_vec, Lowerer, Refusal, STACK};

type Listed = Result<Vec<u8>, Refusal>;

/// The worst tickets, some at limits and some of each kind.
fn some() -> Vec<Vec<u8>> {
    let mut rng = Rng::new(11);
    let named = worst().iter().chain(limits().iter().step_by(50));
    let mut some: Vec<_> = named.map(|(_, ticket)| ticket.clone()).collect();
    for _ in 0..500 {
        let kind = rng.pick(&Kind::ALL);
        some.push(kind.ticket(&mut rng));
    }
    some
}

/// Each ticket in a room of its own.
fn alone(tickets: &[Vec<u8>]) -> Vec<Listed> {
    let listed = |ticket: &Vec<u8>| Lowerer::new().lower_to_vec(ticket);
    tickets.iter().map(listed).collect()
}

#[test]
fn a_room_used_again_answers_the_same() {
    let tickets = some();
    let expected = alone(&tickets);
    let mut lowerer = Lowerer::new();
    for (ticket, expected) in tickets.iter().zip(&expected) {
        assert_eq!(lowerer.lower_to_vec(ticket), *expected);
        assert_eq!(lower_to_vec(ticket), *expected);
    }
    // And from the last to the first, so that other tickets were there before.
    for (ticket, expected) in tickets.iter().zip(&expected).rev() {
        let mut buffer = vec![b'~'; expected.as_ref().map_or(100, Vec::len)];
        let answer = lowerer.lower(ticket, &mut buffer);
        match expected {
            Ok(listing) => assert_eq!((answer, &buffer), (Ok(listing.len()), listing)),
            Err(refusal) => assert_eq!((answer, buffer), (Err(*refusal), vec![b'~'; 100])),
        }
    }
}

/// That no ticket at a limit has too little room: it would panic.
#[test]
fn the_room_is_enough() {
    let mut lowerer = Lowerer::new();
    for (_, ticket) in worst().iter().chain(limits()) {
        let _ = lowerer.lower(ticket, &mut []);
    }
}

#[test]
fn threads_have_rooms_of_their_own() {
    let tickets = &some();
    let expected = &alone(tickets);
    thread::scope(|scope| {
        for start in 0..4 {
            scope.spawn(move || {
                for index in (0..tickets.len()).skip(start) {
                    assert_eq!(lower_to_vec(&tickets[index]), expected[index]);
                }
            });
        }
        // One that is handed on to another thread.
        let mut lowerer = Lowerer::new();
        assert_eq!(lowerer.lower_to_vec(&tickets[0]), expected[0]);
        scope.spawn(move || assert_eq!(lowerer.lower_to_vec(&tickets[1]), expected[1]));
    });
}

/// A thread's last words, when its own room may be gone.
#[test]
fn a_thread_that_ends() {
    struct Last;
    impl Drop for Last {
        fn drop(&mut self) {
            assert_eq!(lower(tickets::PRINTED, &mut [0; 200]), Ok(142));
        }
    }
    thread_local!(static LAST: Last = const { Last });
    for first in [true, false] {
        let work = move || {
            if first {
                let _ = lower(b"", &mut []);
            }
            LAST.with(|_| ());
            let _ = lower(b"", &mut []);
        };
        thread::spawn(work).join().unwrap();
    }
}

/// A thread with more to do than its stack allows ends the process.
#[test]
fn the_stated_stack() {
    let tickets = some();
    let expected = alone(&tickets);
    let work = move || -> Vec<Listed> {
        let mut lowerer = Lowerer::new();
        let both = |ticket: &Vec<u8>| {
            let listed = lowerer.lower_to_vec(ticket);
            assert_eq!(listed, lower_to_vec(ticket));
            listed
        };
        tickets.iter().map(both).collect()
    };
    let thread = thread::Builder::new().stack_size(STACK).spawn(work);
    assert!(thread.unwrap().join().unwrap() == expected);
}
