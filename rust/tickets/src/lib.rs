//! Tickets to try a lowerer on, from a seeded random number generator: the
//! same seed gives the same tickets.

mod build;
mod damage;
mod limits;
mod random;
mod words;
mod worst;

pub use damage::damage;
pub use limits::{
    accepted_at_limits, limits, many_bools, many_bytes, many_nodes, many_places, many_units, padded,
};
pub use random::Rng;
pub use words::Words;
pub use worst::worst;

use build::{Builder, Style};
use std::{fmt, str::FromStr};

/// Document 01's printed case.
pub const PRINTED: &[u8] = b"f,0,0\nt,bool\nt,pointer\nt,bits,9\ns,2,2,1,36\nv,0,0,2,0\n\
    p,variable,0\nn,2,read,0\nn,2,int,12\nn,2,binary,0,0,1\n";

/// A kind of ticket.
#[derive(Clone, Copy, Debug, PartialEq, Eq, PartialOrd, Ord, Hash)]
pub enum Kind {
    /// One operation at width 8, 16, 32 or 64, rightly typed.
    Single,
    /// One operation at any width from 1 to 64, rightly typed.
    SingleAny,
    /// Rightly typed and nested.
    Typed,
    /// Rightly typed and nested far.
    Deep,
    /// Readable, some of it ill-typed.
    Mixed,
    /// Readable, of any types.
    Wild,
    /// One of the other kinds with its text damaged.
    Damaged,
    /// Near a limit, or a line with an edge's number.
    Limits,
}

impl Kind {
    pub const ALL: [Kind; 8] = [
        Kind::Single,
        Kind::SingleAny,
        Kind::Typed,
        Kind::Deep,
        Kind::Mixed,
        Kind::Wild,
        Kind::Damaged,
        Kind::Limits,
    ];

    pub fn name(self) -> &'static str {
        match self {
            Kind::Single => "single",
            Kind::SingleAny => "singleany",
            Kind::Typed => "typed",
            Kind::Deep => "deep",
            Kind::Mixed => "mixed",
            Kind::Wild => "wild",
            Kind::Damaged => "damaged",
            Kind::Limits => "limits",
        }
    }

    /// A ticket of this kind.
    pub fn ticket(self, rng: &mut Rng) -> Vec<u8> {
        let style = match self {
            Kind::Single => return build::single(rng, true),
            Kind::SingleAny => return build::single(rng, false),
            Kind::Typed => Style::new(0, 5, 40),
            Kind::Deep => Style::new(0, 40, 130),
            Kind::Mixed => Style::new(6, 5, 40),
            Kind::Wild => Style::new(50, 4, 20),
            Kind::Damaged => {
                let whole = [Kind::SingleAny, Kind::Typed, Kind::Mixed, Kind::Wild];
                let kind = match rng.chance(3) {
                    true => Kind::Limits,
                    false => rng.pick(&whole),
                };
                let mut text = kind.ticket(rng);
                for _ in 0..1 + rng.below(2) {
                    damage(&mut text, rng);
                }
                return text;
            }
            Kind::Limits => {
                let all = limits();
                return all[rng.below(all.len())].1.clone();
            }
        };
        Builder::new(rng, style).ticket()
    }
}

impl fmt::Display for Kind {
    fn fmt(&self, formatter: &mut fmt::Formatter<'_>) -> fmt::Result {
        formatter.pad(self.name())
    }
}

impl FromStr for Kind {
    type Err = String;

    fn from_str(name: &str) -> Result<Self, String> {
        Kind::ALL
            .into_iter()
            .find(|kind| kind.name() == name)
            .ok_or_else(|| format!("no kind of ticket is called {name:?}"))
    }
}
