//! A buffer between guard bytes.

use wesknuft_lower::{Lowerer, Refusal};

/// Bytes on either side of the buffer, and the largest buffer.
const GUARD: usize = 4_096;
pub const ROOM: usize = 65_536;

pub type Outcome = Result<usize, Refusal>;

/// A buffer between guards, with what it held before.
pub struct Lent {
    lowerer: Lowerer,
    before: Vec<u8>,
    after: Vec<u8>,
}

impl Lent {
    pub fn new() -> Self {
        let before = vec![0; ROOM + 2 * GUARD];
        Self {
            lowerer: Lowerer::new(),
            after: before.clone(),
            before,
        }
    }

    /// Fills the room and the guards, lowers, and looks at every byte that
    /// has to stay as it was.
    pub fn lower(&mut self, ticket: &[u8], room: usize, fill: u8) -> Result<Outcome, String> {
        let all = room + 2 * GUARD;
        for (at, byte) in self.before[..all].iter_mut().enumerate() {
            *byte = fill ^ (at as u8).wrapping_mul(31);
        }
        self.after[..all].copy_from_slice(&self.before[..all]);
        let buffer = &mut self.after[GUARD..GUARD + room];
        let answer = self.lowerer.lower(ticket, buffer);
        let written = match answer {
            Ok(length) if length > room => return Err(format!("length {length} in room {room}")),
            Ok(length) => length,
            Err(refusal) => {
                let known = matches!(refusal.number, 1..=10 | 20..=28);
                if !known || refusal.line > 65_537 {
                    return Err(format!("an answer of no meaning: {refusal:?}"));
                }
                0
            }
        };
        let kept = [0..GUARD, GUARD + written..all]
            .into_iter()
            .all(|part| self.before[part.clone()] == self.after[part]);
        match kept {
            true => Ok(answer),
            false => Err(format!(
                "a byte outside the listing was written: {answer:?}"
            )),
        }
    }

    pub fn listing(&self, length: usize) -> &[u8] {
        &self.after[GUARD..GUARD + length]
    }
}
