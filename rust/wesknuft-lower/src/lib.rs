//! Lowers one typed expression to byte and bit instructions for an 8-bit
//! controller.
//!
//! A *ticket* is an expression with its types and places as lines of text. It
//! is either lowered to a *listing*, which is text too, or refused by a number
//! with the number of the line that is at fault. Any bytes at all may be sent.
//!
//! The work is done by a static library whose contracts are machine-checked:
//! the answer, and each byte of the buffer, are those of its definitions. This
//! crate is the safe Rust over it.
//!
//! A [`Lowerer`] owns the room that lowering works in and uses it again from
//! ticket to ticket. The plain functions [`lower`] and [`lower_to_vec`] lend a
//! room that the thread keeps.
//!
//! ```
//! let ticket = b"f,0,0
//! t,bool
//! t,pointer
//! t,bits,9
//! s,2,2,1,36
//! v,0,0,2,0
//! p,variable,0
//! n,2,read,0
//! n,2,int,12
//! n,2,binary,0,0,1
//! ";
//! let mut buffer = [0; 1024];
//! let length = wesknuft_lower::lower(ticket, &mut buffer)?;
//! assert_eq!(
//!     &buffer[..length],
//!     b"storage,1,2,2,0,0,36
//! storage,2,3,0,1,1,2
//! i,add,1.0,0.0,#12,-,2,2
//! i,add,1.1,0.1,#0,2,-,2
//! i,and,1.1,1.1,#1,2
//! value,2,bytes,2,1.0,1.1
//! done,3,2,2
//! "
//! );
//!
//! // A refusal names the line, and leaves the buffer as it was.
//! let refusal = wesknuft_lower::lower(b"f,0,0\nt,bits,8\n", &mut buffer).unwrap_err();
//! assert_eq!((refusal.number, refusal.line), (5, 2));
//! assert_eq!(
//!     refusal.to_string(),
//!     "line 2: types 0 and 1 must be bool and pointer, and no two types may be alike (refusal 5)"
//! );
//! # Ok::<(), wesknuft_lower::Refusal>(())
//! ```
//!
//! # Heap
//!
//! A room has [`ROOM_SIZE`] bytes. It is made with a [`Lowerer`], or when a
//! thread first calls a plain function, and given back with it. Lowering itself
//! asks for no heap; `lower_to_vec` asks for the listing's.
//!
//! # Stack
//!
//! A thread of [`STACK`] bytes answers every ticket at all.

mod room;
mod sys;

use room::Room;
use std::{cell::RefCell, error::Error, fmt};
use sys::Answer;

/// The heap, in bytes, of a [`Lowerer`], and of a thread that has called a plain
/// function.
pub const ROOM_SIZE: usize = room::SIZE;

/// The stack, in bytes, of a thread in which every ticket at all is answered,
/// what the thread needs to start included.
///
/// It is measured, not proved: the program `soak --stack` answers the worst
/// tickets that are known in a thread of just this stack.
///
/// ```
/// use std::thread;
/// use wesknuft_lower::{Lowerer, STACK};
///
/// let work = || Lowerer::new().lower_to_vec(b"f,0,0\nt,bool\nt,pointer\nn,1,null\n");
/// let thread = thread::Builder::new().stack_size(STACK).spawn(work)?;
/// assert!(thread.join().unwrap().is_ok());
/// # Ok::<(), std::io::Error>(())
/// ```
pub const STACK: usize = 262_144;

/// The number of the refusal of a buffer that is too short.
pub const BUFFER_TOO_SHORT: u64 = 28;

/// Why a ticket was not lowered.
#[derive(Clone, Copy, Debug, PartialEq, Eq, PartialOrd, Ord, Hash)]
pub struct Refusal {
    /// The refusal's number: 1 to 10 from reading, 20 to 27 from lowering,
    /// 28 where the listing is longer than the buffer.
    pub number: u64,
    /// The ticket's line, from 1; 0 where the whole ticket is meant. At the
    /// text's end it can be the line after the last.
    pub line: u64,
}

impl Refusal {
    /// What the number means.
    pub fn message(&self) -> &'static str {
        match self.number {
            1 => "the ticket is longer than 65,536 bytes",
            2 => {
                "the line has a wrong kind, word, number of fields or form of number, is out of \
                 order or lacks its line feed, or the ticket ends without a node"
            }
            3 => "a number is outside its range",
            4 => "a type, storage, place or node is named that no earlier line has",
            5 => "types 0 and 1 must be bool and pointer, and no two types may be alike",
            6 => "the type has over 1,024 bytes or a weight over 4,096",
            7 => "a place or node is referred to twice, or this line is referred to by none",
            8 => {
                "there are too many lines of this kind: over 1,024 places or nodes, over 256 \
                 types or storages, or over 64 variables or statics"
            }
            9 => "the nesting is too deep: over 64 for places and nodes, over 16 for types",
            10 => "the types of all nodes together have over 8,192 bytes or weight 8,192",
            20 => "the ticket has no such variable or static",
            21 => {
                "the place has no such field or element, its index is no constant, or it is a \
                 packed bool whose address is taken"
            }
            22 => "the value or place has another type than is expected here",
            23 => "the type is not supported here",
            24 => "the operation is not supported on these operands",
            25 => "the pointer that is added to has under two bytes",
            26 => "the integer constant's type has over 16 bytes",
            27 => "the place lies over 65,535 bytes into its storage",
            BUFFER_TOO_SHORT => "the listing is longer than the buffer",
            _ => "the ticket is refused",
        }
    }
}

impl fmt::Display for Refusal {
    fn fmt(&self, formatter: &mut fmt::Formatter<'_>) -> fmt::Result {
        if self.line != 0 {
            write!(formatter, "line {}: ", self.line)?;
        }
        write!(formatter, "{} (refusal {})", self.message(), self.number)
    }
}

impl Error for Refusal {}

/// Lowers tickets in a room of its own, which it uses again from ticket to
/// ticket.
///
/// ```
/// use wesknuft_lower::Lowerer;
///
/// let mut lowerer = Lowerer::new();
/// let mut buffer = [0; 256];
/// for number in 0..3 {
///     let ticket = format!("f,0,0\nt,bool\nt,pointer\nt,bits,8\nn,2,int,{number}\n");
///     let length = lowerer.lower(ticket.as_bytes(), &mut buffer)?;
///     let listing = format!("value,2,bytes,1,#{number}\ndone,0,0,0\n");
///     assert_eq!(&buffer[..length], listing.as_bytes());
/// }
/// # Ok::<(), wesknuft_lower::Refusal>(())
/// ```
pub struct Lowerer {
    room: Room,
}

impl Lowerer {
    /// Makes the room, [`ROOM_SIZE`] bytes of the heap.
    pub fn new() -> Self {
        Self { room: Room::new() }
    }

    /// Lowers a ticket. The listing is written to the front of `buffer`, and
    /// the answer is its length.
    ///
    /// Bytes of `buffer` past the length keep their content; after a refusal
    /// all of them do. A listing that does not fit is refused with
    /// [`BUFFER_TOO_SHORT`].
    pub fn lower(&mut self, ticket: &[u8], buffer: &mut [u8]) -> Result<usize, Refusal> {
        match sys::lower_in(ticket, buffer, self.room.parts()) {
            Answer::Accepted(length) => Ok(length),
            Answer::Refused(number, line) => Err(Refusal { number, line }),
            Answer::NoRoom => unreachable!("the room is enough for every ticket"),
        }
    }

    /// Lowers a ticket to a listing of any length.
    pub fn lower_to_vec(&mut self, ticket: &[u8]) -> Result<Vec<u8>, Refusal> {
        let mut buffer = vec![0; 4_096];
        loop {
            match self.lower(ticket, &mut buffer) {
                Ok(length) => {
                    buffer.truncate(length);
                    return Ok(buffer);
                }
                Err(refusal) if refusal.number == BUFFER_TOO_SHORT => {
                    let longer = 4 * buffer.len();
                    buffer = vec![0; longer];
                }
                Err(refusal) => return Err(refusal),
            }
        }
    }
}

impl Default for Lowerer {
    fn default() -> Self {
        Self::new()
    }
}

impl fmt::Debug for Lowerer {
    fn fmt(&self, formatter: &mut fmt::Formatter<'_>) -> fmt::Result {
        formatter.debug_struct("Lowerer").finish_non_exhaustive()
    }
}

thread_local! {
    /// Of the plain functions, made when a thread first calls one.
    static OWN: RefCell<Lowerer> = RefCell::new(Lowerer::new());
}

fn with_own<T>(mut work: impl FnMut(&mut Lowerer) -> T) -> T {
    OWN.try_with(|own| work(&mut own.borrow_mut()))
        // A thread that ends has given its room back.
        .unwrap_or_else(|_| work(&mut Lowerer::new()))
}

/// [`Lowerer::lower`] in a room that the thread keeps.
pub fn lower(ticket: &[u8], buffer: &mut [u8]) -> Result<usize, Refusal> {
    with_own(|own| own.lower(ticket, buffer))
}

/// [`Lowerer::lower_to_vec`] in a room that the thread keeps.
///
/// ```
/// let listing = wesknuft_lower::lower_to_vec(b"f,0,0\nt,bool\nt,pointer\nn,1,null\n")?;
/// assert_eq!(listing, b"value,1,bytes,2,#0,#0\ndone,0,0,0\n");
/// # Ok::<(), wesknuft_lower::Refusal>(())
/// ```
pub fn lower_to_vec(ticket: &[u8]) -> Result<Vec<u8>, Refusal> {
    with_own(|own| own.lower_to_vec(ticket))
}
