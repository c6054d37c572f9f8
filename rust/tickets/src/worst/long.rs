//! Long listings, full tables and long texts.

use super::{Draft, Named, DEPTH, LINES, NAMES, NODES, POINTER, SIZE, SUM, WEIGHT};
use crate::limits::{padded, HEAD};

/// The most bytes of a ticket.
const TEXT: usize = 65_536;

/// All the older storages that there can be, and a variable in the last.
fn old_storages(draft: &mut Draft, ty: usize) {
    for _ in 0..LINES {
        draft.lines.push("s,2,65535,1,36".into());
    }
    draft.lines.push(format!("v,{},60000,{ty},0", LINES - 1));
}

/// The text with numbers that are long in the listing too.
fn numbered(draft: &Draft) -> Vec<u8> {
    let text = String::from_utf8(draft.text()).expect("lines are text");
    text.replacen("f,0,0\n", "f,65535,60000\n", 1).into()
}

/// Reads that leave much: a listing of over 500,000 bytes among them.
pub fn reads(all: &mut Vec<Named>) {
    let times = SUM / SIZE;
    // The node around them has a weight of 1, and so has each array.
    let most = (SUM - 1) / times - 1;
    for (line, times) in [
        (format!("array,0,{SIZE}"), 1),
        (format!("array,0,{SIZE}"), times - 1),
        (format!("array,0,{most}"), times),
        (format!("opaque,{SIZE}"), times),
        (format!("array,2,{}", WEIGHT - 2), SUM / WEIGHT),
    ] {
        let mut draft = Draft::new();
        let unit = draft.ty("unit");
        let ty = draft.ty(&line);
        old_storages(&mut draft, ty);
        let parts: Vec<usize> = (0..times).map(|_| draft.read(0, ty)).collect();
        draft.aggregate(unit, &parts);
        all.push((format!("{times} reads of {line}"), numbered(&draft)));
    }
}

/// Chains of nodes as deep as they go, with the node around them.
const CHAINS: usize = NODES / DEPTH;

/// As many operations on eight bytes as there are nodes for.
pub fn operations(all: &mut Vec<Named>) {
    for op in 0..5 {
        let mut draft = Draft::new();
        let unit = draft.ty("unit");
        let ty = draft.ty("bits,63");
        old_storages(&mut draft, ty);
        let parts = [0; CHAINS].map(|_| {
            let read = draft.read(0, ty);
            (3..DEPTH).fold(read, |node, _| {
                draft.node(ty, &format!("unary,{op},{node}"))
            })
        });
        draft.aggregate(unit, &parts);
        let times = CHAINS * (DEPTH - 3);
        all.push((format!("{times} times unary {op}"), numbered(&draft)));
    }
    for op in 0..19 {
        let mut draft = Draft::new();
        let ty = draft.ty("bits,63");
        old_storages(&mut draft, ty);
        let mut row: Vec<usize> = (0..NODES / 2).map(|_| draft.read(0, ty)).collect();
        while row.len() > 1 {
            let pairs = row.chunks(2);
            row = pairs
                .map(|pair| draft.node(ty, &format!("binary,{op},{},{}", pair[0], pair[1])))
                .collect();
        }
        all.push((format!("511 times binary {op}"), numbered(&draft)));
    }
}

/// As many lines of each kind as there can be, and each address taken.
pub fn tables(all: &mut Vec<Named>) {
    let mut draft = Draft::new();
    let unit = draft.ty("unit");
    let pair = draft.ty("struct,0,1");
    while draft.types < LINES {
        let length = draft.types;
        draft.ty(&format!("opaque,{length}"));
    }
    draft
        .lines
        .extend(vec!["s,2,65535,1,511".to_string(); LINES]);
    for (kind, first) in [("v", 0), ("g", LINES - NAMES)] {
        for storage in first..first + NAMES {
            draft.lines.push(format!("{kind},{storage},65000,{pair},0"));
        }
    }
    let mut parts = Vec::new();
    while draft.nodes < NODES - 1 {
        let word = ["variable", "static"][draft.nodes % 2];
        let mut place = draft.place(&format!("{word},{}", draft.nodes / 2 % NAMES));
        if draft.nodes == 0 {
            place = draft.place(&format!("field,{place},1"));
        }
        parts.push(draft.node(POINTER, &format!("address,{place}")));
    }
    draft.aggregate(unit, &parts);
    all.push(("every table full".into(), draft.text()));
}

/// Lines over and over, as far as the text goes.
fn filled(start: &str, again: &str, end: &str) -> Vec<u8> {
    let times = (TEXT - start.len() - end.len()) / again.len();
    format!("{start}{}{end}", again.repeat(times)).into()
}

/// 65,536 bytes of one thing.
pub fn texts(all: &mut Vec<Named>) {
    let types = format!("{HEAD}t,unit\n");
    let nulls = format!("{types}{}", "n,2,null\n".repeat(10));
    let mut long = |name: &str, text: Vec<u8>| all.push((format!("text: {name}"), text));
    long("types of many fields", padded(TEXT));
    for byte in [b'\n', b'f', b',', b'0', 0, 0xff] {
        long(&format!("all of byte {byte}"), vec![byte; TEXT]);
    }
    for (name, start, again, end) in [
        ("a struct of units", format!("{types}t,struct"), ",2", "\n"),
        ("a struct without end", format!("{types}t,struct"), ",2", ""),
        ("unknown types", format!("{types}t,tuple"), ",9", "\n"),
        ("an aggregate", format!("{nulls}n,2,aggregate"), ",9", "\n"),
        ("a long number", format!("{types}n,2,int,"), "9", "\n"),
        ("many nodes", types.clone(), "n,2,null\n", ""),
        ("many places", types.clone(), "p,variable,0\n", ""),
        ("many storages", types.clone(), "s,1,0,1,36\n", ""),
        ("many first lines", String::new(), "f,0,0\n", ""),
        ("empty fields", HEAD.into(), "t,struct,\n", ""),
    ] {
        long(name, filled(&start, again, end));
    }
}
