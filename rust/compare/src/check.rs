//! Ours against the original, ticket by ticket, in one room that is used again.

use crate::{generator, samples, shrink::shrink, Options};
use original::{Answer, Refusal};
use std::{
    collections::BTreeMap,
    fmt,
    panic::{catch_unwind, AssertUnwindSafe},
    time::Instant,
};
use tickets::{Kind, Rng};
use wesknuft_lower::Lowerer;

/// Bytes on either side of a lent buffer.
const GUARD: usize = 64;

/// What of ours is not as it should be.
#[derive(Debug, PartialEq, Eq)]
enum Difference {
    OriginalPanics,
    Sample,
    Answer {
        room: usize,
        ours: String,
        original: String,
    },
    Listing {
        room: usize,
        at: usize,
    },
    PastLength {
        room: usize,
        at: usize,
    },
    Refused {
        room: usize,
        at: usize,
    },
    Guard {
        room: usize,
    },
    Ticket {
        room: usize,
    },
    Refuses,
}

impl fmt::Display for Difference {
    fn fmt(&self, f: &mut fmt::Formatter<'_>) -> fmt::Result {
        match self {
            Self::OriginalPanics => write!(f, "the original panics"),
            Self::Sample => write!(f, "the sample has another answer than the original"),
            Self::Answer {
                room,
                ours,
                original,
            } => write!(
                f,
                "room {room}: ours answers {ours}, the original {original}"
            ),
            Self::Listing { room, at } => {
                write!(f, "room {room}: byte {at} of the listing is another")
            }
            Self::PastLength { room, at } => {
                write!(f, "room {room}: byte {at}, past the length, was written")
            }
            Self::Refused { room, at } => {
                write!(f, "room {room}: byte {at} was written by a refusal")
            }
            Self::Guard { room } => write!(f, "room {room}: a byte outside the buffer was written"),
            Self::Ticket { room } => write!(f, "room {room}: the ticket was written"),
            Self::Refuses => write!(f, "ours refuses a select of two bits for a byte"),
        }
    }
}

/// The original's answer with all the room that it needs.
fn original_answer(ticket: &[u8]) -> Result<Answer, Difference> {
    catch_unwind(AssertUnwindSafe(|| {
        original::answer_with_nodes(ticket, usize::MAX)
    }))
    .map_err(|_| Difference::OriginalPanics)
}

/// A ticket that has left the original's domain: ours does not refuse the
/// select that the original refuses.
fn try_changed(lowerer: &mut Lowerer, ticket: &[u8], was: Refusal) -> Result<(), Difference> {
    let mut listing = vec![0; 65_536];
    match lowerer.lower(ticket, &mut listing) {
        Err(refusal)
            if (refusal.number, refusal.line) == (u64::from(was.number), was.line as u64) =>
        {
            Err(Difference::Refuses)
        }
        _ => Ok(()),
    }
}

/// Tries one ticket, as the original answers it.
fn try_expected(
    lowerer: &mut Lowerer,
    ticket: &[u8],
    expected: &Answer,
    salt: u64,
) -> Result<(), Difference> {
    match expected {
        Answer::Refused(refusal) if original::chooses_bits(ticket, *refusal) => {
            try_changed(lowerer, ticket, *refusal)
        }
        _ => try_ticket(lowerer, ticket, expected, salt),
    }
}

/// Tries one ticket with buffers of several lengths.
fn try_ticket(
    lowerer: &mut Lowerer,
    ticket: &[u8],
    expected: &Answer,
    salt: u64,
) -> Result<(), Difference> {
    let mut rng = Rng::new(salt);
    let rooms = match expected {
        Answer::Accepted(listing) => {
            let exact = listing.len();
            vec![
                exact,
                exact - 1,
                exact + 1 + rng.below(100),
                rng.below(exact),
            ]
        }
        Answer::Refused(_) => vec![0, 1 + rng.below(300), 65_536],
    };
    rooms
        .into_iter()
        .try_for_each(|room| try_room(lowerer, ticket, expected, room, rng.draw()))
}

fn try_room(
    lowerer: &mut Lowerer,
    ticket: &[u8],
    expected: &Answer,
    room: usize,
    salt: u64,
) -> Result<(), Difference> {
    let before: Vec<u8> = (0..room + 2 * GUARD)
        .map(|at| (salt >> (at % 57)) as u8 ^ at as u8)
        .collect();
    let mut after = before.clone();
    let mut sent = ticket.to_vec();
    let answer = lowerer.lower(&sent, &mut after[GUARD..GUARD + room]);

    let kept = |part: std::ops::Range<usize>| {
        part.clone()
            .find(|&at| before[at] != after[at])
            .map(|at| at - GUARD)
    };
    let shown = |refusal: &Refusal| format!("refused,{},{}", refusal.number, refusal.line);
    let (expected_shown, listing) = match expected {
        Answer::Accepted(listing) if listing.len() <= room => {
            (format!("length {}", listing.len()), Some(listing))
        }
        Answer::Accepted(_) => (shown(&Refusal::new(28, 0)), None),
        Answer::Refused(refusal) => (shown(refusal), None),
    };
    let ours_shown = match answer {
        Ok(length) => format!("length {length}"),
        Err(refusal) => format!("refused,{},{}", refusal.number, refusal.line),
    };
    if ours_shown != expected_shown {
        return Err(Difference::Answer {
            room,
            ours: ours_shown,
            original: expected_shown,
        });
    }
    match listing {
        Some(listing) => {
            let ours = &after[GUARD..GUARD + listing.len()];
            if let Some(at) = (0..listing.len()).find(|&at| ours[at] != listing[at]) {
                return Err(Difference::Listing { room, at });
            }
            if let Some(at) = kept(GUARD + listing.len()..GUARD + room) {
                return Err(Difference::PastLength { room, at });
            }
        }
        None => {
            if let Some(at) = kept(GUARD..GUARD + room) {
                return Err(Difference::Refused { room, at });
            }
        }
    }
    if before[..GUARD] != after[..GUARD] || before[GUARD + room..] != after[GUARD + room..] {
        return Err(Difference::Guard { room });
    }
    if std::mem::take(&mut sent) != ticket {
        return Err(Difference::Ticket { room });
    }
    Ok(())
}

/// Counts of a kind of ticket.
#[derive(Default)]
struct Tally {
    lowerer: Lowerer,
    tickets: usize,
    bytes: usize,
    accepted: usize,
    refused: BTreeMap<u8, usize>,
    /// Those refused 24 whose answer is another one now.
    changed: usize,
    differences: usize,
}

impl Tally {
    fn take(&mut self, name: &str, ticket: &[u8], printed: Option<&[u8]>, show: usize, salt: u64) {
        self.tickets += 1;
        self.bytes += ticket.len();
        let outcome = original_answer(ticket).and_then(|expected| {
            match &expected {
                Answer::Accepted(_) => self.accepted += 1,
                Answer::Refused(refusal) => *self.refused.entry(refusal.number).or_default() += 1,
            }
            // The samples are document 01's, without nodes.
            let plain = || lower_prints(&original::answer(ticket, usize::MAX));
            if printed.is_some_and(|printed| *printed != plain()) {
                return Err(Difference::Sample);
            }
            if let Answer::Refused(refusal) = expected {
                self.changed += usize::from(original::chooses_bits(ticket, refusal));
            }
            try_expected(&mut self.lowerer, ticket, &expected, salt)
        });
        let Err(difference) = outcome else { return };
        self.differences += 1;
        if self.differences > show {
            return;
        }
        println!("DIFFERENCE in {name}: {difference}");
        let small = match difference {
            Difference::Sample => ticket.to_vec(),
            _ => shrink(ticket, |ticket| {
                original_answer(ticket)
                    .and_then(|expected| try_expected(&mut self.lowerer, ticket, &expected, salt))
                    .is_err()
            }),
        };
        let again = original_answer(&small)
            .and_then(|expected| try_expected(&mut self.lowerer, &small, &expected, salt));
        println!("  smallest ticket found ({} bytes):", small.len());
        for line in small.split_inclusive(|&byte| byte == b'\n') {
            println!("    {}", line.escape_ascii());
        }
        if let Err(difference) = again {
            println!("  there: {difference}");
        }
    }

    fn print(&self, name: &str, seconds: f64) {
        let refused: Vec<String> = self
            .refused
            .iter()
            .map(|(number, count)| format!("{number}: {count}"))
            .collect();
        println!(
            "{name:10} {:8} tickets, {:10} bytes, {:8} accepted, {:6} changed, {:6} differences, {seconds:6.1} s; refused {}",
            self.tickets,
            self.bytes,
            self.accepted,
            self.changed,
            self.differences,
            refused.join(", "),
        );
    }
}

/// What the program `lower`, with its buffer of 65,536 bytes, prints.
fn lower_prints(answer: &Answer) -> Vec<u8> {
    match answer {
        Answer::Accepted(listing) if listing.len() > 65_536 => {
            Answer::Refused(Refusal::new(28, 0)).printed()
        }
        answer => answer.printed(),
    }
}

/// Compares all that is asked for; how many tickets differ.
pub fn compare(options: &Options) -> Result<usize, String> {
    let mut kinds = options.kinds.clone();
    if kinds.is_empty() {
        kinds = Kind::ALL.iter().map(|kind| kind.to_string()).collect();
        kinds.push("worst".into());
        match options.samples {
            Some(_) => kinds.insert(0, "samples".into()),
            None => println!("samples    none: no folder of them is here"),
        }
    }
    let mut differences = 0;
    for name in kinds {
        let start = Instant::now();
        let mut tally = Tally::default();
        let show = options.show;
        match name.as_str() {
            "samples" => {
                for sample in samples::all(options)? {
                    let salt = tally.tickets as u64;
                    let known = !samples::raised(&sample.printed);
                    let printed = known.then_some(&sample.printed[..]);
                    tally.take(&sample.name, &sample.ticket, printed, show, salt);
                }
            }
            "limits" | "worst" => {
                let all = match name.as_str() {
                    "limits" => tickets::limits(),
                    _ => tickets::worst(),
                };
                for (limit, ticket) in all {
                    let salt = tally.tickets as u64;
                    tally.take(limit, ticket, None, show, salt);
                }
            }
            _ => {
                let kind: Kind = name.parse()?;
                for index in 0..options.count as u64 {
                    let mut rng = generator(kind, options.seed, index);
                    let ticket = kind.ticket(&mut rng);
                    let salt = rng.draw();
                    let name = format!("{kind} {index} of seed {}", options.seed);
                    tally.take(&name, &ticket, None, show, salt);
                }
            }
        }
        tally.print(&name, start.elapsed().as_secs_f64());
        differences += tally.differences;
    }
    println!("{differences} differences");
    Ok(differences)
}
