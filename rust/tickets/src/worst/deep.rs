//! Nodes, types and places in each other.

use super::{Draft, Named, BOOL, DEPTH, POINTER, SIZE, TYPE_DEPTH, WEIGHT};

/// The types of the nodes, in this order behind bool and pointer.
const TYPES: [&str; 4] = ["bits,8", "bits,63", "unit", "array,2,100"];
const BYTE: usize = 2;
const ODD: usize = 3;
const ARRAY: usize = 5;

/// Nodes around each other, of each form around each of its operands: the first
/// where it is another, and those that follow in turn. T is the type, E the node
/// inside; I an integer, B a bool, P a pointer, W an aggregate; 4 is Unit.
const AROUND: [(&str, &str, &[&str]); 24] = [
    ("negate", "", &["T,unary,0,E"]),
    ("not", "", &["T,unary,1,E"]),
    ("count", "", &["T,unary,2,E"]),
    ("add, left", "", &["T,binary,0,E,I"]),
    ("add, right", "", &["T,binary,0,I,E"]),
    ("multiply, right", "", &["T,binary,2,I,E"]),
    ("rotate, left", "", &["T,binary,13,E,I"]),
    ("shift, right", "", &["T,binary,10,I,E"]),
    ("compare, left", "", &["0,compare,0,E,I", "T,convert,12,E"]),
    ("compare, right", "", &["0,compare,0,I,E", "T,convert,12,E"]),
    ("truncate", "", &["T,convert,0,E"]),
    ("extend", "", &["T,convert,1,E"]),
    ("sign-extend", "", &["T,convert,2,E"]),
    ("reinterpret", "", &["T,convert,11,E"]),
    (
        "to bool and back",
        "",
        &["0,convert,13,E", "T,convert,12,E"],
    ),
    ("select, when true", "", &["T,select,E,I,B"]),
    ("select, when false", "", &["T,select,I,E,B"]),
    ("select, condition", "", &["T,select,I,I,E"]),
    ("offset, base", "", &["1,offset,E,I"]),
    ("offset, distance", "", &["1,offset,P,E"]),
    ("aggregate", "", &["4,aggregate,E"]),
    ("extract", "", &["4,aggregate,E,I", "T,extract,E,0"]),
    ("insert, whole", "4,aggregate,E", &["4,insert,E,0,I"]),
    ("insert, value", "4,aggregate,E", &["4,insert,W,0,E"]),
];

/// A node after its form, around another.
fn around(draft: &mut Draft, ty: usize, inside: usize, form: &str) -> usize {
    let fields: Vec<String> = form
        .split(',')
        .map(|field| match field {
            "T" => ty.to_string(),
            "E" => inside.to_string(),
            "I" => draft.node(ty, "int,1").to_string(),
            "B" => draft.node(BOOL, "bool,1").to_string(),
            "P" => draft.node(POINTER, "null").to_string(),
            "W" => {
                let part = draft.node(ty, "int,1");
                draft.aggregate(ty, &[part]).to_string()
            }
            _ => field.to_string(),
        })
        .collect();
    draft.lines.push(format!("n,{}", fields.join(",")));
    draft.nodes += 1;
    draft.nodes - 1
}

/// A node and how deep it is. The variables are of the type, of types in each
/// other, which are the last, and of an array.
type Inmost = fn(&mut Draft, usize) -> (usize, usize);

/// What stands inmost: small, or itself deep in other ways.
const INMOST: [(&str, Inmost); 5] = [
    ("a constant", |draft, ty| (draft.node(ty, "int,1"), 1)),
    ("a read", |draft, ty| (draft.read(0, ty), 2)),
    ("a read of types in each other", |draft, _| {
        (draft.read(1, draft.types - 1), 2)
    }),
    ("places in each other", |draft, ty| {
        let mut place = draft.place("variable,0");
        for _ in 0..DEPTH / 2 - 2 {
            let step = draft.node(BYTE, "int,0");
            place = draft.place(&format!("offset,{place},{step}"));
        }
        (draft.node(ty, &format!("read,{place}")), DEPTH / 2)
    }),
    ("a wide select", |draft, _| {
        let (yes, no) = (draft.read(2, ARRAY), draft.read(2, ARRAY));
        let bit = draft.node(BOOL, "bool,1");
        let select = draft.node(ARRAY, &format!("select,{yes},{no},{bit}"));
        (draft.node(BYTE, &format!("extract,{select},99")), 4)
    }),
];

/// 64 nodes in each other around each inmost one, at 8 and at 63 bits.
pub fn nodes(all: &mut Vec<Named>) {
    let mut before = Draft::new();
    for ty in TYPES {
        before.ty(ty);
    }
    let mut deep = before.ty("tuple,0");
    for _ in 0..TYPE_DEPTH - 2 {
        deep = before.ty(&format!("struct,{deep}"));
    }
    for (form, first, again) in AROUND {
        for (inmost, inside) in INMOST {
            for (ty, width) in [(BYTE, 8), (ODD, 63)] {
                let mut draft = before.clone();
                draft.variables(&[ty, deep, ARRAY]);
                let (mut node, mut depth) = inside(&mut draft, ty);
                if !first.is_empty() {
                    node = around(&mut draft, ty, node, first);
                    depth += 1;
                }
                for form in again.iter().cycle().take(DEPTH - depth) {
                    node = around(&mut draft, ty, node, form);
                }
                let name = format!("64 of {form} around {inmost}, {width} bits");
                all.push((name, draft.text()));
            }
        }
    }
}

pub fn float_nodes(all: &mut Vec<Named>) {
    for word in ["funary", "fbinary"] {
        let mut draft = Draft::new();
        let ty = draft.ty("float,64");
        let mut node = draft.node(ty, "f64,1");
        for _ in 1..DEPTH {
            let rest = match word {
                "funary" => format!("{word},{node}"),
                _ => format!("{word},{node},{}", draft.node(ty, "f64,1")),
            };
            node = draft.node(ty, &rest);
        }
        all.push((format!("64 of {word}"), draft.text()));
    }
}

/// A type around others, and how many parts of the one inside it has.
type Wrap = (&'static str, fn(usize) -> String, usize);

const WRAPS: [Wrap; 5] = [
    ("arrays of one", |ty| format!("array,{ty},1"), 1),
    ("structs of one", |ty| format!("struct,{ty}"), 1),
    ("tuples of one", |ty| format!("tuple,{ty}"), 1),
    ("structs of two", |ty| format!("struct,{ty},{ty}"), 2),
    ("arrays of three", |ty| format!("array,{ty},3"), 3),
];

/// Types in each other, the last of which is the outmost.
struct Nest {
    draft: Draft,
    depth: usize,
    size: usize,
    weight: usize,
}

impl Nest {
    fn new(inmost: &str, size: usize) -> Self {
        let mut draft = Draft::new();
        draft.ty(inmost);
        Self {
            draft,
            depth: 1,
            size,
            weight: 1,
        }
    }

    fn around(&mut self, line: impl Fn(usize) -> String, count: usize) {
        let line = line(self.draft.types - 1);
        self.draft.ty(&line);
        self.depth += 1;
        self.size *= count;
        self.weight = 1 + count * self.weight;
    }

    /// Whether so many parts leave room for types of one part around them.
    fn has_room(&self, count: usize) -> bool {
        count * self.size <= SIZE && count * self.weight + TYPE_DEPTH - self.depth <= WEIGHT
    }

    fn read(mut self) -> Vec<u8> {
        let ty = self.draft.types - 1;
        self.draft.variables(&[ty]);
        self.draft.read(0, ty);
        self.draft.text()
    }
}

/// Types 16 deep: wide ones inside as far as the limits go, or one outside.
pub fn types(all: &mut Vec<Named>) {
    for (inmost, size) in [("bits,8", 1), ("bits,63", 8), ("unit", 0), ("struct", 0)] {
        for (name, wrap, count) in WRAPS {
            let mut nest = Nest::new(inmost, size);
            while nest.depth < TYPE_DEPTH {
                match nest.has_room(count) {
                    true => nest.around(wrap, count),
                    false => nest.around(|ty| format!("struct,{ty}"), 1),
                }
            }
            all.push((format!("16 types of {inmost}, {name}"), nest.read()));
            if count == 1 {
                let mut nest = Nest::new(inmost, size);
                while nest.depth < TYPE_DEPTH - 1 {
                    nest.around(wrap, count);
                }
                let most = (1..=WEIGHT)
                    .take_while(|&count| nest.has_room(count))
                    .count();
                nest.around(|ty| format!("array,{ty},{most}"), most);
                let name = format!("array of {most} of 15 types of {inmost}, {name}");
                all.push((name, nest.read()));
            }
        }
    }
}

/// Places 64 deep with their node: fields or elements as far as types go, then
/// offsets; or offsets alone.
pub fn places(all: &mut Vec<Named>) {
    for (kind, word) in [("v", "variable"), ("g", "static")] {
        for step in ["field", "element", "offset"] {
            for (using, ty) in [("read", BYTE), ("address", POINTER)] {
                let mut draft = Draft::new();
                let mut whole = draft.ty(TYPES[0]);
                for _ in 1..TYPE_DEPTH {
                    whole = match step {
                        "field" => draft.ty(&format!("struct,{whole}")),
                        "element" => draft.ty(&format!("array,{whole},1")),
                        _ => whole,
                    };
                }
                draft.lines.push("s,2,65535,1,36".into());
                draft.lines.push(format!("{kind},0,0,{whole},0"));
                let mut place = draft.place(&format!("{word},0"));
                for depth in 2..DEPTH {
                    place = match depth <= TYPE_DEPTH {
                        true => step_into(&mut draft, place, step),
                        false => step_into(&mut draft, place, "offset"),
                    };
                }
                draft.node(ty, &format!("{using},{place}"));
                let name = format!("64 places of {word} by {step}, {using}");
                all.push((name, draft.text()));
            }
        }
    }
    all.push((
        "64 nodes and places, an offset by 62 nodes".into(),
        offset_by_nodes(),
    ));
}

fn step_into(draft: &mut Draft, place: usize, step: &str) -> usize {
    let by = match step {
        "field" => 0,
        "element" => draft.node(BYTE, "int,0"),
        _ => draft.node(BYTE, "int,1"),
    };
    draft.place(&format!("{step},{place},{by}"))
}

fn offset_by_nodes() -> Vec<u8> {
    let mut draft = Draft::new();
    let ty = draft.ty(TYPES[0]);
    draft.variables(&[ty]);
    let place = draft.place("variable,0");
    let mut node = draft.node(ty, "int,1");
    for _ in 0..DEPTH - 3 {
        node = draft.node(ty, &format!("unary,1,{node}"));
    }
    let place = draft.place(&format!("offset,{place},{node}"));
    draft.node(ty, &format!("read,{place}"));
    draft.text()
}
