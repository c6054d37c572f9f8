//! Types of many parts, and selects over them.

use super::{Draft, Named, BOOL, DEPTH, NODES, POINTER, SIZE, SUM, WEIGHT};

/// An element: its lines of type, the last of which it is, its size and weight.
const ELEMENTS: [(&str, &[&str], usize, usize); 10] = [
    ("Unit", &["unit"], 0, 1),
    ("empty structs", &["struct"], 0, 1),
    ("empty tuples", &["tuple"], 0, 1),
    ("no bytes", &["opaque,0"], 0, 1),
    ("arrays of none", &["array,0,0"], 0, 1),
    ("structs of Unit", &["unit", "struct,2"], 0, 2),
    ("bools", &[], 1, 1),
    ("bytes", &["bits,8"], 1, 1),
    ("words of 63 bits", &["bits,63"], 8, 1),
    ("pairs of bools", &["tuple,0,0"], 2, 3),
];

/// A type of many parts: the parts' type, and the number of the last.
#[derive(Clone, Copy)]
struct Whole {
    ty: usize,
    part: usize,
    last: usize,
    array: bool,
}

impl Whole {
    fn last_part(self, draft: &mut Draft) -> usize {
        let place = draft.place("variable,0");
        match self.array {
            true => {
                let index = draft.node(POINTER, &format!("int,{}", self.last));
                draft.place(&format!("element,{place},{index}"))
            }
            false => draft.place(&format!("field,{place},{}", self.last)),
        }
    }
}

/// What is done with a variable of the type.
type Use = fn(&mut Draft, Whole);

/// With how many nodes have the type.
const USES: [(&str, usize, Use); 9] = [
    ("a part read", 0, |draft, whole| {
        let place = whole.last_part(draft);
        draft.node(whole.part, &format!("read,{place}"));
    }),
    ("a part's address", 0, |draft, whole| {
        let place = whole.last_part(draft);
        draft.node(POINTER, &format!("address,{place}"));
    }),
    ("its address", 0, |draft, _| {
        let place = draft.place("variable,0");
        draft.node(POINTER, &format!("address,{place}"));
    }),
    ("read", 1, |draft, whole| {
        draft.read(0, whole.ty);
    }),
    ("null", 1, |draft, whole| {
        draft.node(whole.ty, "null");
    }),
    ("a part taken out", 1, |draft, whole| {
        let read = draft.read(0, whole.ty);
        draft.node(whole.part, &format!("extract,{read},{}", whole.last));
    }),
    ("reinterpreted", 2, |draft, whole| {
        let read = draft.read(0, whole.ty);
        draft.node(whole.ty, &format!("convert,11,{read}"));
    }),
    ("a part put in", 2, |draft, whole| {
        let (read, part) = (draft.read(0, whole.ty), draft.node(POINTER, "null"));
        draft.node(whole.ty, &format!("insert,{read},{},{part}", whole.last));
    }),
    ("selected", 3, |draft, whole| {
        let (yes, no) = (draft.read(0, whole.ty), draft.read(0, whole.ty));
        let bit = draft.node(BOOL, "bool,1");
        draft.node(whole.ty, &format!("select,{yes},{no},{bit}"));
    }),
];

/// Arrays, structs and tuples of as many elements as a type may have, or as the
/// nodes of that type may have together.
pub fn parts(all: &mut Vec<Named>) {
    for (name, lines, size, weight) in ELEMENTS {
        for (using, nodes, build) in USES {
            // What else is there has a size and a weight of 16 at most.
            let together = (SUM - 16).checked_div(nodes).unwrap_or(WEIGHT);
            let most = together.min(WEIGHT);
            let by_size = SIZE.min(most).checked_div(size).unwrap_or(WEIGHT);
            let count = by_size.min((most - 1) / weight);
            for word in ["array", "struct", "tuple"] {
                let mut draft = Draft::new();
                let part = lines.iter().fold(BOOL, |_, line| draft.ty(line));
                let ty = draft.ty(&match word {
                    "array" => format!("array,{part},{count}"),
                    _ => format!("{word}{}", format!(",{part}").repeat(count)),
                });
                draft.variables(&[ty]);
                let whole = Whole {
                    ty,
                    part,
                    last: count - 1,
                    array: word == "array",
                };
                build(&mut draft, whole);
                all.push((format!("{word} of {count} {name}, {using}"), draft.text()));
            }
        }
    }
}

/// Selects whose sides are of another make, and in each other.
pub fn selects(all: &mut Vec<Named>) {
    all.push(("a select between nulls".into(), between_nulls()));
    for swapped in [false, true] {
        let name = format!("a select between parts and bytes, swapped: {swapped}");
        all.push((name, between_parts_and_bytes(swapped)));
    }
    for (form, others) in [("aggregate", 0), ("offset", 1), ("select", 2)] {
        let name = format!("64 nodes, a wide select in 61 of {form}");
        all.push((name, inmost_select(form, others)));
    }
    for (operand, index) in [("true", 0), ("false", 1), ("condition", 2)] {
        all.push((
            format!("64 selects of reads by {operand}"),
            in_each_other(index),
        ));
    }
}

/// Aggregates of nulls: one of type Unit has two bytes and counts as none.
fn between_nulls() -> Vec<u8> {
    let mut draft = Draft::new();
    let unit = draft.ty("unit");
    let ty = draft.ty(&format!("opaque,{SIZE}"));
    let [yes, no] = [0; 2].map(|_| {
        let nulls: Vec<usize> = (0..NODES / 2 - 2)
            .map(|_| draft.node(unit, "null"))
            .collect();
        draft.aggregate(ty, &nulls)
    });
    let bit = draft.node(unit, "bool,1");
    draft.node(ty, &format!("select,{yes},{no},{bit}"));
    draft.text()
}

/// Bytes one by one on one side, together on the other.
fn between_parts_and_bytes(swapped: bool) -> Vec<u8> {
    let mut draft = Draft::new();
    let byte = draft.ty("bits,8");
    let ty = draft.ty(&format!("opaque,{SIZE}"));
    draft.variables(&[ty]);
    let bytes = draft.read(0, ty);
    let parts: Vec<usize> = (0..NODES - 4).map(|_| draft.node(byte, "int,7")).collect();
    let parts = draft.aggregate(ty, &parts);
    let bit = draft.node(BOOL, "bool,1");
    let (yes, no) = match swapped {
        true => (bytes, parts),
        false => (parts, bytes),
    };
    draft.node(ty, &format!("select,{yes},{no},{bit}"));
    draft.text()
}

/// A select as wide as it can be in nodes of type Unit, each with other operands
/// that count as none.
fn inmost_select(form: &str, others: usize) -> Vec<u8> {
    let around = DEPTH - 3;
    // Its own nodes and its condition have a weight of 4.
    let count = ((SUM - around * (1 + others) - 4) / 3).min(SIZE);
    let mut draft = Draft::new();
    let byte = draft.ty("bits,8");
    let unit = draft.ty("unit");
    let ty = draft.ty(&format!("array,{byte},{count}"));
    draft.variables(&[ty]);
    let (yes, no) = (draft.read(0, ty), draft.read(0, ty));
    let bit = draft.node(unit, "bool,1");
    let mut node = draft.node(ty, &format!("select,{yes},{no},{bit}"));
    for _ in 0..around {
        let mut rest = format!("{form},{node}");
        for _ in 0..others {
            rest += &format!(",{}", draft.node(unit, "null"));
        }
        node = draft.node(unit, &rest);
    }
    draft.text()
}

/// As many selects as go into each other by one operand, the others reads.
fn in_each_other(index: usize) -> Vec<u8> {
    let mut draft = Draft::new();
    let ty = draft.ty("bits,63");
    draft.variables(&[ty, BOOL]);
    let mut node = draft.read(0, ty);
    for _ in 2..DEPTH {
        let [yes, no, bit] = [0, 1, 2].map(|operand| match operand {
            _ if operand == index => node,
            2 => draft.read(1, BOOL),
            _ => draft.read(0, ty),
        });
        node = draft.node(ty, &format!("select,{yes},{no},{bit}"));
    }
    draft.text()
}
