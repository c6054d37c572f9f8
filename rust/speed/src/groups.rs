//! The tickets that are timed, in groups.

use original::Answer;
use tickets::{many_bools, many_bytes, many_nodes, many_places, many_units, padded, Kind, Rng};

/// Room for any listing here.
pub const ROOM: usize = 1 << 20;

/// Tickets that are timed together.
pub struct Group {
    pub name: String,
    pub tickets: Vec<Vec<u8>>,
}

impl Group {
    fn new(name: &str, tickets: Vec<Vec<u8>>) -> Self {
        Self {
            name: name.into(),
            tickets,
        }
    }

    pub fn bytes(&self) -> f64 {
        let bytes: usize = self.tickets.iter().map(Vec::len).sum();
        bytes as f64 / self.tickets.len() as f64
    }
}

/// So many tickets of a kind, all accepted or all refused.
fn some(kind: Kind, seed: u64, count: usize, accepted: bool) -> Vec<Vec<u8>> {
    let mut rng = Rng::new(seed);
    let is_accepted = |ticket: &[u8]| matches!(original::answer(ticket, ROOM), Answer::Accepted(_));
    std::iter::repeat_with(|| kind.ticket(&mut rng))
        .filter(|ticket| is_accepted(ticket) == accepted)
        .take(count)
        .collect()
}

/// A balanced sum of so many reads of 8 bits.
fn sum(terms: usize) -> Vec<u8> {
    let mut text = String::from("f,0,0\nt,bool\nt,pointer\nt,bits,8\ns,1,0,1,36\nv,0,0,2,0\n");
    for term in 0..terms {
        text += &format!("p,variable,0\nn,2,read,{term}\n");
    }
    let mut row: Vec<usize> = (0..terms).collect();
    let mut next = terms;
    while row.len() > 1 {
        row = row
            .chunks(2)
            .map(|pair| {
                text += &format!("n,2,binary,0,{},{}\n", pair[0], pair[1]);
                next += 1;
                next - 1
            })
            .collect();
    }
    text.into_bytes()
}

/// So many types, which are all compared with each other.
fn types(count: usize) -> Vec<u8> {
    let mut text = String::from("f,0,0\nt,bool\nt,pointer\n");
    for length in 2..count {
        text += &format!("t,opaque,{length}\n");
    }
    text += "n,1,null\n";
    text.into_bytes()
}

/// Unary operations on each other.
fn chain(depth: usize) -> Vec<u8> {
    let mut text = String::from("f,0,0\nt,bool\nt,pointer\nt,bits,8\nn,2,int,1\n");
    for operand in 0..depth - 1 {
        text += &format!("n,2,unary,{},{operand}\n", operand % 5);
    }
    text.into_bytes()
}

/// Small ones, refused ones, and those at the limits.
pub fn groups(seed: u64) -> Vec<Group> {
    let drawn = [
        ("single operations", Kind::SingleAny, 1_000, true),
        ("typical nested tickets", Kind::Typed, 1_000, true),
        ("far nested tickets", Kind::Deep, 100, true),
        ("refused in lowering", Kind::Wild, 1_000, false),
        ("damaged tickets", Kind::Damaged, 1_000, false),
    ];
    let mut groups = vec![Group::new(
        "the printed case",
        vec![tickets::PRINTED.to_vec()],
    )];
    for (name, kind, count, accepted) in drawn {
        groups.push(Group::new(name, some(kind, seed, count, accepted)));
    }
    for (name, ticket) in tickets::accepted_at_limits() {
        groups.push(Group::new(&name, vec![ticket]));
    }
    groups.push(Group::new("256 types", vec![types(256)]));
    let worst = tickets::worst().iter().map(|(_, ticket)| ticket.clone());
    groups.push(Group::new("the worst tickets", worst.collect()));
    groups
}

/// So many tickets of every kind.
pub fn random(seed: u64, count: usize) -> Group {
    let mut rng = Rng::new(seed);
    let tickets = (0..count).map(|_| rng.pick(&Kind::ALL).ticket(&mut rng));
    Group::new("tickets of every kind", tickets.collect())
}

/// Tickets of a growing size.
pub struct Growth {
    pub what: &'static str,
    pub sizes: &'static [usize],
    pub ticket: fn(usize) -> Vec<u8>,
}

pub const GROWTHS: [Growth; 9] = [
    Growth {
        what: "terms of a sum",
        sizes: &[1, 2, 4, 8, 16, 32, 64, 128, 256, 512],
        ticket: sum,
    },
    Growth {
        what: "depth",
        sizes: &[1, 2, 4, 8, 16, 32, 64],
        ticket: chain,
    },
    Growth {
        what: "types",
        sizes: &[4, 16, 64, 256],
        ticket: types,
    },
    Growth {
        what: "nodes",
        sizes: &[4, 16, 64, 256, 1_024],
        ticket: many_nodes,
    },
    Growth {
        what: "places",
        sizes: &[4, 16, 64, 256, 1_024],
        ticket: many_places,
    },
    Growth {
        what: "sizes",
        sizes: &[1_024, 2_048, 4_096, 8_192],
        ticket: many_bytes,
    },
    Growth {
        what: "weights",
        sizes: &[128, 512, 2_048, 8_192],
        ticket: many_units,
    },
    Growth {
        what: "arrays of 1,022 bools",
        sizes: &[1, 2, 4, 8],
        ticket: many_bools,
    },
    Growth {
        what: "bytes of text",
        sizes: &[1_024, 4_096, 16_384, 65_536],
        ticket: padded,
    },
];
