//! What the generators of crate `tickets` give, by the original's answers.

use original::{answer, Answer};
use std::collections::BTreeMap;
use tickets::{limits, Kind, Rng};

/// How often each refusal is met, 0 for acceptance.
fn tally(kind: Kind, count: usize) -> BTreeMap<u8, usize> {
    let mut rng = Rng::new(7);
    let mut tally = BTreeMap::new();
    for _ in 0..count {
        let number = match answer(&kind.ticket(&mut rng), usize::MAX) {
            Answer::Accepted(_) => 0,
            Answer::Refused(refusal) => refusal.number,
        };
        *tally.entry(number).or_default() += 1;
    }
    println!("{kind}: {tally:?}");
    tally
}

#[test]
fn single_operations_are_accepted() {
    for kind in [Kind::Single, Kind::SingleAny] {
        let tally = tally(kind, 500);
        assert_eq!(tally.keys().copied().collect::<Vec<_>>(), [0]);
    }
}

#[test]
fn typed_tickets_read() {
    for kind in [Kind::Typed, Kind::Deep] {
        let tally = tally(kind, 300);
        assert!(tally[&0] > 100, "{tally:?}");
        // Floats, records with bools in a select, a packed bool's address.
        assert!(
            tally.keys().all(|n| [0, 8, 10, 21, 23, 24].contains(n)),
            "{tally:?}"
        );
    }
}

#[test]
fn wild_tickets_meet_every_refusal_of_lowering() {
    let mut all = tally(Kind::Mixed, 2_000);
    for (number, count) in tally(Kind::Wild, 4_000) {
        *all.entry(number).or_default() += count;
    }
    for number in [0, 20, 21, 22, 23, 24, 25, 26, 27] {
        assert!(all.contains_key(&number), "no {number}: {all:?}");
    }
}

#[test]
fn damaged_tickets_meet_refusals_of_reading() {
    let tally = tally(Kind::Damaged, 3_000);
    for number in [0, 2, 3, 4, 5, 7] {
        assert!(tally.contains_key(&number), "no {number}: {tally:?}");
    }
}

#[test]
fn limits_meet_every_refusal() {
    let mut tally: BTreeMap<u8, usize> = BTreeMap::new();
    for (name, ticket) in limits() {
        let number = match answer(ticket, usize::MAX) {
            Answer::Accepted(_) => 0,
            Answer::Refused(refusal) => refusal.number,
        };
        let accepted =
            name.contains("accepted") && !name.contains("65537") && !name.contains("65538");
        assert!(!accepted || number == 0, "{name}: {number}");
        *tally.entry(number).or_default() += 1;
    }
    println!("limits: {tally:?}");
    for number in (0..=10).chain(20..=27) {
        assert!(tally.contains_key(&number), "no {number}: {tally:?}");
    }
}

#[test]
fn accepted_at_limits() {
    for (name, ticket) in tickets::accepted_at_limits() {
        assert!(
            matches!(answer(&ticket, usize::MAX), Answer::Accepted(_)),
            "{name}"
        );
    }
}

/// All that is nested stands at its limit, and not past it.
#[test]
fn worst_tickets_read() {
    let mut tally: BTreeMap<u8, usize> = BTreeMap::new();
    let (mut longest, mut past) = (0, Vec::new());
    for (name, ticket) in tickets::worst() {
        let number = match answer(ticket, usize::MAX) {
            Answer::Accepted(listing) => {
                longest = longest.max(listing.len());
                0
            }
            Answer::Refused(refusal) => refusal.number,
        };
        let reads = number == 0 || number >= 20;
        if !reads && !name.starts_with("text:") {
            past.push(format!("{name}: {number}"));
        }
        *tally.entry(number).or_default() += 1;
        if name.starts_with("64 ") {
            let lines = ticket.split(|&byte| byte == b'\n');
            let nodes = lines.filter(|line| line.starts_with(b"n,")).count();
            let deeper = [
                &ticket[..],
                format!("n,0,unary,0,{}\n", nodes - 1).as_bytes(),
            ]
            .concat();
            let refused = answer(&deeper, usize::MAX);
            let number = matches!(refused, Answer::Refused(refusal) if refusal.number == 9);
            assert!(number, "{name}, deeper: {refused:?}");
        }
    }
    println!("worst: {tally:?}, the longest listing has {longest} bytes");
    assert!(past.is_empty(), "{past:#?}");
    assert!(longest > 100_000);
}
