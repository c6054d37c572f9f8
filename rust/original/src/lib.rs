//! The unchanged Rust of wtetzner/waterbear behind document 01's ticket and
//! listing.
//!
//! The original lowers; reading, the line of a refusal and printing are
//! written here from document 01. What the original would panic or overflow
//! on (25, 26, 27) is decided before it is called, so no panic of it is ever
//! caught: see `lowering`.

mod listing;
mod lowering;
pub mod ticket;

/// The original and its stand-ins. The build script says where it is.
#[allow(dead_code)]
mod wasm {
    include!(concat!(env!("OUT_DIR"), "/modules.rs"));
    include!("stand_in.rs");
}

pub use lowering::Prepared;

/// A refusal's number and line.
#[derive(Clone, Copy, Debug, PartialEq, Eq, PartialOrd, Ord, Hash)]
pub struct Refusal {
    pub number: u8,
    pub line: usize,
}

impl Refusal {
    pub fn new(number: u8, line: usize) -> Self {
        Self { number, line }
    }
}

/// What a ticket is answered with.
#[derive(Clone, Debug, PartialEq, Eq)]
pub enum Answer {
    /// The listing.
    Accepted(Vec<u8>),
    Refused(Refusal),
}

impl Answer {
    /// The text that the program `lower` prints.
    pub fn printed(&self) -> Vec<u8> {
        match self {
            Self::Accepted(listing) => listing.clone(),
            Self::Refused(refusal) => {
                format!("refused,{},{}\n", refusal.number, refusal.line).into_bytes()
            }
        }
    }
}

/// Answers a ticket as document 01 has it, with a buffer of `room` bytes.
pub fn answer(ticket: &[u8], room: usize) -> Answer {
    answered(ticket::read(ticket).and_then(|ticket| Prepared::new(&ticket).listing(room)))
}

/// The same with each instruction's node (document 02, E7). The original
/// knows no nodes: each tree below the root is lowered alone, and counted.
pub fn answer_with_nodes(ticket: &[u8], room: usize) -> Answer {
    answered(
        ticket::read(ticket).and_then(|ticket| Prepared::new(&ticket).listing_with_nodes(room)),
    )
}

/// Whether a refusal that the ticket is answered with is one that document
/// 02's selects over bits (E3) no longer have: such a ticket has left the
/// original's domain.
pub fn chooses_bits(ticket: &[u8], refusal: Refusal) -> bool {
    refusal.number == 24
        && ticket::read(ticket).is_ok_and(|ticket| Prepared::new(&ticket).chooses_bits(refusal))
}

fn answered(listing: Result<Vec<u8>, Refusal>) -> Answer {
    match listing {
        Ok(listing) => Answer::Accepted(listing),
        Err(refusal) => Answer::Refused(refusal),
    }
}
