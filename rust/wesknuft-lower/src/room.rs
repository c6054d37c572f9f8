//! The room that lowering works in.

/// Lengths that are enough for every ticket, as in the C header.
pub const ROWS_LEN: usize = 41_000;
pub const LISTS_LEN: usize = 32_768;
pub const STACK_LEN: usize = 65_536;
pub const NARROWED_LEN: usize = 256;
pub const CODE_LEN: usize = 524_288;
pub const STORE_LEN: usize = 262_144;

const WORDS: usize = ROWS_LEN + LISTS_LEN + STACK_LEN + NARROWED_LEN;
const BYTES: usize = CODE_LEN + STORE_LEN;

/// The room's bytes.
pub const SIZE: usize = 8 * WORDS + BYTES;

/// Room for every ticket, used again from ticket to ticket. What it holds is of
/// no account.
pub struct Room {
    words: Box<[u64]>,
    bytes: Box<[u8]>,
}

/// The room's parts, lent to one call.
pub struct Parts<'r> {
    pub rows: &'r mut [u64],
    pub lists: &'r mut [u64],
    pub stack: &'r mut [u64],
    pub narrowed: &'r mut [u64],
    pub code: &'r mut [u8],
    pub store: &'r mut [u8],
}

impl Room {
    /// Two pieces of the heap, which pass over no stack on their way.
    pub fn new() -> Self {
        Self {
            words: vec![0; WORDS].into(),
            bytes: vec![0; BYTES].into(),
        }
    }

    pub fn parts(&mut self) -> Parts<'_> {
        let (rows, rest) = self.words.split_at_mut(ROWS_LEN);
        let (lists, rest) = rest.split_at_mut(LISTS_LEN);
        let (stack, narrowed) = rest.split_at_mut(STACK_LEN);
        let (code, store) = self.bytes.split_at_mut(CODE_LEN);
        Parts {
            rows,
            lists,
            stack,
            narrowed,
            code,
            store,
        }
    }
}

#[cfg(test)]
mod tests {
    use super::*;
    use crate::sys::{lower_in, Answer};
    use tickets::Rng;

    /// Each number that the header names with `#define`.
    #[test]
    fn the_header_has_the_same_sizes() {
        let header = include_str!("../include/wesknuft_lower.h");
        for (name, value) in [
            ("ROWS_LEN", ROWS_LEN),
            ("LISTS_LEN", LISTS_LEN),
            ("STACK_LEN", STACK_LEN),
            ("NARROWED_LEN", NARROWED_LEN),
            ("CODE_LEN", CODE_LEN),
            ("STORE_LEN", STORE_LEN),
            ("THREAD_STACK", crate::STACK),
        ] {
            let line = format!("#define WESKNUFT_{name} {value}");
            assert!(header.lines().any(|known| known == line), "no {line}");
        }
    }

    #[test]
    fn the_parts_are_the_room() {
        let mut room = Room::new();
        let parts = room.parts();
        let words = parts.rows.len() + parts.lists.len() + parts.stack.len() + NARROWED_LEN;
        assert_eq!(parts.narrowed.len(), NARROWED_LEN);
        assert_eq!(parts.store.len(), STORE_LEN);
        assert_eq!(8 * words + parts.code.len() + parts.store.len(), SIZE);
    }

    /// What the room held before a ticket does not show.
    #[test]
    fn a_room_of_rubbish() {
        let mut rng = Rng::new(5);
        let (mut room, mut fresh) = (Room::new(), Room::new());
        let mut buffers = [vec![0; 1 << 20], vec![0; 1 << 20]];
        let [ours, expected] = &mut buffers;
        for (name, ticket) in tickets::worst().iter().step_by(3) {
            for fill in [u64::MAX, rng.draw()] {
                let word = |at: usize| fill.wrapping_mul(2 * at as u64 + 1);
                for (at, place) in room.words.iter_mut().enumerate() {
                    *place = word(at);
                }
                for (at, place) in room.bytes.iter_mut().enumerate() {
                    *place = (word(at) >> 9) as u8;
                }
                let answer = lower_in(ticket, ours, room.parts());
                assert_eq!(answer, lower_in(ticket, expected, fresh.parts()), "{name}");
                if let Answer::Accepted(length) = answer {
                    assert_eq!(ours[..length], expected[..length], "{name}");
                }
            }
        }
    }

    /// Parts that are too short are told, and nothing is written.
    #[test]
    fn short_parts() {
        type Shorten = fn(&mut Parts);
        let shorter: [(&str, Shorten); 4] = [
            ("rows", |parts| parts.rows = &mut []),
            ("lists", |parts| parts.lists = &mut []),
            ("stack", |parts| parts.stack = &mut []),
            ("narrowed", |parts| parts.narrowed = &mut []),
        ];
        let mut room = Room::new();
        for (name, shorten) in shorter {
            let mut buffer = [b'~'; 200];
            let mut parts = room.parts();
            shorten(&mut parts);
            let answer = lower_in(tickets::PRINTED, &mut buffer, parts);
            assert_eq!(answer, Answer::NoRoom, "{name}");
            assert_eq!(buffer, [b'~'; 200], "{name}");
        }
        // Code and store may be of any length.
        let mut buffer = [b'~'; 200];
        let mut parts = room.parts();
        (parts.code, parts.store) = (&mut [], &mut []);
        let answer = lower_in(tickets::PRINTED, &mut buffer, parts);
        assert_eq!(answer, Answer::Accepted(142));
    }
}
