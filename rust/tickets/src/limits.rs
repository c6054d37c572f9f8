//! Tickets near every limit of document 01, the same on each call.

use std::sync::OnceLock;

/// The lines before those of a ticket here.
pub const HEAD: &str = "f,0,0\nt,bool\nt,pointer\n";

/// Lines of types and of storages, at most, and of places and of nodes.
pub const LINES: usize = 256;
pub const NODES: usize = 1_024;
/// The sizes and the weights of all nodes' types together, at most; a type's
/// own bytes and weight.
pub const SUM: usize = 8_192;
pub const SIZE: usize = 1_024;
pub const WEIGHT: usize = 4_096;

/// A name that says which limit, and the ticket.
pub type Named = (String, Vec<u8>);

/// All tickets near limits.
pub fn limits() -> &'static [Named] {
    static ALL: OnceLock<Vec<Named>> = OnceLock::new();
    ALL.get_or_init(|| {
        let mut all = Vec::new();
        texts(&mut all);
        lengths(&mut all);
        counts(&mut all);
        sums(&mut all);
        together(&mut all);
        types(&mut all);
        depths(&mut all);
        offsets(&mut all);
        beyond(&mut all);
        rotates(&mut all);
        numbers(&mut all);
        all
    })
}

/// Large tickets that are accepted, for timing.
pub fn accepted_at_limits() -> Vec<Named> {
    let mut large = vec![
        ("65,536 bytes of text".into(), padded(65_536)),
        ("256 nodes".into(), many_nodes(256)),
        ("256 places".into(), many_places(256)),
        ("1,024 nodes".into(), many_nodes(NODES)),
        ("1,024 places".into(), many_places(NODES)),
        ("depth 64".into(), deep_nodes(64)),
        ("depth 64 in places".into(), deep_places(64)),
    ];
    large.push((
        "select over 680 bytes".into(),
        text(&[
            "t,opaque,680",
            "s,2,680,1,36",
            "v,0,0,2,0",
            "p,variable,0",
            "n,2,read,0",
            "p,variable,0",
            "n,2,read,1",
            "n,0,bool,1",
            "n,2,select,0,1,2",
        ]),
    ));
    large.push((
        "array of 680 bools".into(),
        text(&[
            "t,array,0,680",
            "s,2,680,1,36",
            "v,0,0,2,0",
            "p,variable,0",
            "n,2,read,0",
        ]),
    ));
    large.push(("255 nodes of 64 bits".into(), wide_sum(128, 64)));
    large.push(("1,023 nodes of 64 bits".into(), wide_sum(512, 64)));
    large.push(("sizes of 8,192".into(), many_bytes(SUM)));
    large.push(("weights of 8,192".into(), many_units(SUM)));
    large.push(("8 arrays of 1,022 bools".into(), many_bools(8)));
    large
}

pub fn text<S: AsRef<str>>(lines: &[S]) -> Vec<u8> {
    let mut text = HEAD.to_string();
    for line in lines {
        text += line.as_ref();
        text.push('\n');
    }
    text.into_bytes()
}

/// Odd texts.
fn texts(all: &mut Vec<Named>) {
    let printed = String::from_utf8(crate::PRINTED.to_vec()).unwrap();
    let mut odd = |name: &str, text: Vec<u8>| all.push((format!("text: {name}"), text));
    odd("empty", Vec::new());
    odd("the printed case", printed.clone().into_bytes());
    odd("no last line feed", printed.trim_end().as_bytes().to_vec());
    odd("carriage returns", printed.replace('\n', "\r\n").into());
    odd("carriage returns alone", printed.replace('\n', "\r").into());
    for letter in [0u8, b'\n', b'\r', b' ', b',', b'0', b'x', 0x7f, 0x80, 0xff] {
        odd(&format!("the byte {letter}"), vec![letter]);
        odd(
            &format!("the byte {letter} at the end"),
            [printed.as_bytes(), &[letter]].concat(),
        );
        for at in 0..printed.len() {
            let mut changed = printed.clone().into_bytes();
            changed[at] = letter;
            odd(&format!("byte {at} made {letter}"), changed);
            let mut added = printed.clone().into_bytes();
            added.insert(at, letter);
            odd(&format!("byte {letter} put in at {at}"), added);
        }
    }
    for at in 0..printed.len() {
        odd(&format!("cut at {at}"), printed.as_bytes()[..at].to_vec());
        let mut dropped = printed.clone().into_bytes();
        dropped.remove(at);
        odd(&format!("byte {at} dropped"), dropped);
        let mut doubled = printed.clone().into_bytes();
        doubled.insert(at, doubled[at]);
        odd(&format!("byte {at} doubled"), doubled);
    }
    let lines: Vec<&str> = printed.split_inclusive('\n').collect();
    for at in 0..lines.len() {
        for other in 0..lines.len() {
            let mut changed = lines.clone();
            changed.swap(at, other);
            odd(
                &format!("lines {at} and {other} exchanged"),
                changed.concat().into(),
            );
            let mut doubled = lines.clone();
            doubled.insert(other, lines[at]);
            odd(
                &format!("line {at} again at {other}"),
                doubled.concat().into(),
            );
        }
        let mut dropped = lines.clone();
        dropped.remove(at);
        odd(&format!("line {at} dropped"), dropped.concat().into());
    }
}

/// The text's length.
fn lengths(all: &mut Vec<Named>) {
    for length in 65_534..=65_538 {
        all.push((format!("accepted text of {length} bytes"), padded(length)));
        all.push((format!("{length} line feeds"), vec![b'\n'; length]));
        all.push((format!("{length} letters"), vec![b'f'; length]));
        let mut bad = padded(length);
        bad[length - 3] = b'!';
        all.push((format!("text of {length} bytes, its end bad"), bad));
    }
    all.push(("100,000 bytes".into(), padded(100_000)));
}

/// An accepted ticket of just so many bytes, but for the length. Structs and
/// tuples of Unit fill it: a struct's line has an odd length, a tuple's an
/// even one.
pub fn padded(length: usize) -> Vec<u8> {
    let end = "n,1,null\n";
    let mut text = format!("{HEAD}t,unit\n");
    let mut fields = 4_000;
    loop {
        let left = length - text.len() - end.len();
        let (name, room) = match left % 2 {
            1 => ("t,struct", left - 9),
            _ => ("t,tuple", left - 8),
        };
        let last = room / 2 <= 3_900;
        let (name, count) = match last {
            true => (name, room / 2),
            false => ("t,tuple", fields),
        };
        text += name;
        text += &",2".repeat(count);
        text.push('\n');
        fields -= 1;
        if last {
            break;
        }
    }
    text += end;
    text.into_bytes()
}

/// Numbers of lines.
fn counts(all: &mut Vec<Named>) {
    for count in [LINES - 1, LINES, LINES + 1, LINES + 2] {
        let mut lines: Vec<String> = (2..count).map(|k| format!("t,opaque,{k}")).collect();
        lines.push("n,1,null".into());
        all.push((format!("{count} types"), text(&lines)));

        let mut lines = vec!["s,2,9,1,32".to_string(); count];
        lines.push(format!("v,{},0,1,0", count.min(LINES) - 1));
        lines.push("p,variable,0".into());
        lines.push("n,1,address,0".into());
        all.push((format!("{count} storages"), text(&lines)));
    }
    for count in [255, 256, 257, NODES - 1, NODES, NODES + 1, NODES + 2] {
        all.push((format!("{count} places"), many_places(count)));
        all.push((format!("{count} nodes"), many_nodes(count)));
    }
    for count in [63, 64, 65, 66] {
        for (kind, word) in [("v", "variable"), ("g", "static")] {
            let mut lines = vec!["s,2,9,1,36".to_string()];
            lines.extend((0..count).map(|k| format!("{kind},0,{k},1,0")));
            lines.push(format!("p,{word},{}", count - 1));
            lines.push("n,1,read,0".into());
            all.push((format!("{count} of {kind}"), text(&lines)));
        }
    }
    for name in [0, 1, 2, 63, 64, u64::MAX] {
        for line in [
            format!("p,variable,{name}/n,1,read,0"),
            format!("p,static,{name}/n,1,read,0"),
            format!("p,variable,{name}/n,1,address,0"),
            format!("n,1,staticaddress,{name},0"),
        ] {
            let lines = format!("s,1,0,1,32/v,0,0,1,0/g,0,0,1,0/{line}");
            let lines: Vec<&str> = lines.split('/').collect();
            all.push((format!("name {name}"), text(&lines)));
        }
    }
}

/// Two places for each read of Unit, so many in all.
pub fn many_places(count: usize) -> Vec<u8> {
    let mut lines = vec![
        "t,unit".to_string(),
        "t,struct,2".into(),
        "s,1,0,0,0".into(),
        "v,0,0,3,0".into(),
        "v,0,0,2,0".into(),
    ];
    let mut root = String::from("n,2,aggregate");
    let (mut place, mut node) = (0, 0);
    while place < count {
        if place + 1 < count {
            lines.push("p,variable,0".into());
            lines.push(format!("p,field,{place},0"));
            place += 2;
        } else {
            lines.push("p,variable,1".into());
            place += 1;
        }
        lines.push(format!("n,2,read,{}", place - 1));
        root += &format!(",{node}");
        node += 1;
    }
    lines.push(root);
    text(&lines)
}

/// An aggregate of so many nodes, itself counted.
pub fn many_nodes(count: usize) -> Vec<u8> {
    let mut lines = vec!["n,1,null".to_string(); count - 1];
    lines.push((0..count - 1).fold("n,1,aggregate".into(), |line, k| format!("{line},{k}")));
    text(&lines)
}

/// A sum of terms of a width, as a balanced tree.
fn wide_sum(terms: usize, width: usize) -> Vec<u8> {
    let mut lines = vec![
        format!("t,bits,{width}"),
        format!("s,2,{},1,36", width.div_ceil(8)),
        "v,0,0,2,0".into(),
    ];
    let mut row: Vec<usize> = Vec::new();
    for place in 0..terms {
        lines.push("p,variable,0".into());
        lines.push(format!("n,2,read,{place}"));
        row.push(place);
    }
    let mut node = row.len();
    while row.len() > 1 {
        row = row
            .chunks(2)
            .map(|pair| {
                lines.push(format!("n,2,binary,0,{},{}", pair[0], pair[1]));
                node += 1;
                node - 1
            })
            .collect();
    }
    text(&lines)
}

/// So many variables of one type read, the last lines being others, and a node
/// of type Unit around all.
fn reads(ty: &str, count: usize, others: &[&str]) -> Vec<u8> {
    let mut lines = vec![
        "t,unit".to_string(),
        format!("t,{ty}"),
        "s,2,1024,1,36".into(),
        "v,0,0,3,0".into(),
    ];
    for place in 0..count {
        lines.push("p,variable,0".into());
        lines.push(format!("n,3,read,{place}"));
    }
    lines.extend(others.iter().map(|line| line.to_string()));
    lines.push(
        (0..count + others.len()).fold("n,2,aggregate".into(), |line, k| format!("{line},{k}")),
    );
    text(&lines)
}

/// Reads of types that have so many bytes together, 1,024 in each.
pub fn many_bytes(sum: usize) -> Vec<u8> {
    reads(&format!("opaque,{SIZE}"), sum / SIZE, &[])
}

/// Two reads of arrays of Unit, with the node around them of that weight: 1 of
/// its own, 1 for each array.
pub fn many_units(sum: usize) -> Vec<u8> {
    let length = (sum - 3) / 2;
    let others = ["n,2,null"];
    reads(&format!("array,2,{length}"), 2, &others[..(sum - 3) % 2])
}

/// Reads of arrays of 1,022 bools.
pub fn many_bools(count: usize) -> Vec<u8> {
    reads("array,0,1022", count, &[])
}

/// Sums over nodes: document 01's limit, and now.
fn sums(all: &mut Vec<Named>) {
    for sum in [2_048, SUM] {
        for extra in [0, 1, 2] {
            let wide = sum / SIZE;
            let mut lines = vec!["t,unit".to_string(), "t,opaque,1023".into()];
            lines.extend(vec!["n,3,null".to_string(); wide]);
            lines.extend(vec!["n,0,bool,1".to_string(); wide - 1 + extra]);
            let nodes = 2 * wide - 1 + extra;
            let root =
                (0..nodes).fold("n,2,aggregate".to_string(), |line, k| format!("{line},{k}"));
            lines.push(root);
            all.push((format!("sizes of {}", sum - 1 + extra), text(&lines)));

            // Two structs of that weight, and the node around all.
            let weight = sum / 2 - 2;
            let mut lines = vec![
                "t,unit".to_string(),
                format!("t,struct{}", ",2".repeat(weight - 1)),
            ];
            lines.extend(vec!["n,3,null".to_string(); 2]);
            lines.extend(vec!["n,2,null".to_string(); 2 + extra]);
            let root =
                (0..4 + extra).fold("n,2,aggregate".to_string(), |line, k| format!("{line},{k}"));
            lines.push(root);
            all.push((format!("weights of {}", sum - 1 + extra), text(&lines)));
        }
    }
    for sum in [SUM - 1, SUM, SUM + 1] {
        all.push((format!("weights of {sum}, read"), many_units(sum)));
        all.push((format!("sizes of {sum}, read"), read_bytes(sum)));
    }
}

/// Reads of so many bytes together.
fn read_bytes(sum: usize) -> Vec<u8> {
    let rest = sum % SIZE;
    let mut lines = vec![
        "t,unit".to_string(),
        format!("t,opaque,{SIZE}"),
        format!("t,opaque,{rest}"),
        "s,2,1024,1,36".into(),
        "v,0,0,3,0".into(),
        "v,0,0,4,0".into(),
    ];
    let whole = sum / SIZE;
    for place in 0..=whole {
        let (variable, ty) = if place < whole { (0, 3) } else { (1, 4) };
        lines.push(format!("p,variable,{variable}"));
        lines.push(format!("n,{ty},read,{place}"));
    }
    lines.push((0..=whole).fold("n,2,aggregate".into(), |line, k| format!("{line},{k}")));
    text(&lines)
}

/// Refusals 8 and 10 with others on the same line or beside it: the first
/// faulty line decides, then the table's order.
fn together(all: &mut Vec<Named>) {
    let bools = vec!["n,0,bool,1"; NODES];
    let places = vec!["p,variable,0"; NODES];
    let full = vec!["n,2,null"; SUM / SIZE];
    let mut with = |name: &str, types: &[&str], before: &[&str], lines: &[&str]| {
        let ticket = [types, before, lines].concat();
        all.push((format!("together: {name}"), text(&ticket)));
    };
    with("8 and 2", &[], &bools, &["n,0,bool"]);
    with("8 and the order", &[], &bools, &["s,0,0,0,0"]);
    with("8 and 3", &[], &bools, &["n,0,bool,2"]);
    with("8 and 4", &[], &bools, &["n,9,unary,0,1024"]);
    with("8 and 7", &[], &bools, &["n,0,binary,0,0,0"]);
    with("3, then 8", &[], &bools[1..], &["n,0,bool,2", "n,0,bool,1"]);
    with("8, then 2", &[], &bools, &["n,0,bool,1", "x"]);
    with("8 of places and 4", &[], &places, &["p,field,1024,0"]);
    with("a place behind all nodes", &[], &bools, &["p,variable,0"]);
    with("a node behind all places", &[], &places, &["n,0,read,0"]);
    let eight = vec!["n,2,null"; NODES];
    with("8 and 10", &["t,opaque,8"], &eight, &["n,2,null"]);
    with("10, then 8", &["t,opaque,9"], &eight, &["n,2,null"]);
    let wide = ["t,opaque,1024"];
    with("10 and 3", &wide, &full, &["n,2,bool,2"]);
    with("10 and 4", &wide, &full, &["n,2,unary,0,9"]);
    with("10 and 7", &wide, &full, &["n,2,binary,0,0,0"]);
    with("10, then 2", &wide, &full, &["n,0,bool,1", "x"]);
    let chain: Vec<String> = (0..63)
        .map(|below| format!("n,0,unary,0,{below}"))
        .collect();
    let mut deep = vec!["n,0,bool,1"];
    deep.extend(chain.iter().map(String::as_str));
    deep.extend(&full[1..]);
    with("10 and 9", &wide, &deep, &["n,2,unary,0,63"]);
}

/// Sizes, weights and ranges of types.
fn types(all: &mut Vec<Named>) {
    let mut with = |name: String, lines: &[String]| {
        let mut lines = lines.to_vec();
        lines.extend(["n,1,null".to_string()]);
        all.push((name.clone(), text(&lines)));
        let last = lines.len();
        lines.insert(last - 1, "s,2,65535,1,36".into());
        lines.insert(last, format!("v,0,0,{},0", last));
        lines.insert(last + 1, "p,variable,0".into());
        lines[last + 2] = format!("n,{last},read,0");
        all.push((format!("{name}, read"), text(&lines)));
    };
    for size in [0, 1, 15, 16, 17, 680, 1_023, 1_024, 1_025, 65_535, 65_536] {
        with(format!("opaque {size}"), &[format!("t,opaque,{size}")]);
        with(
            format!("array of {size} bytes"),
            &["t,bits,8".into(), format!("t,array,2,{size}")],
        );
        with(
            format!("struct of {size} bytes"),
            &[
                format!("t,opaque,{}", (size as u32).saturating_sub(2)),
                "t,struct,2,1".into(),
            ],
        );
        with(
            format!("array of {size} Unit"),
            &["t,unit".into(), format!("t,array,2,{size}")],
        );
    }
    for count in [2_046, 2_047, 2_048, 4_094, 4_095, 4_096, 4_097] {
        let unit = "t,unit".to_string();
        let fields = ",2".repeat(count);
        with(
            format!("array of weight {}", count + 1),
            &[unit.clone(), format!("t,array,2,{count}")],
        );
        with(
            format!("struct of weight {}", count + 1),
            &[unit.clone(), format!("t,struct{fields}")],
        );
        with(
            format!("tuple of weight {}", count + 1),
            &[unit, format!("t,tuple{fields}")],
        );
    }
    for width in 0..=66 {
        with(format!("bits {width}"), &[format!("t,bits,{width}")]);
        with(format!("float {width}"), &[format!("t,float,{width}")]);
    }
    for lines in [
        "t,unit/t,unit",
        "t,bool",
        "t,pointer",
        "t,bits,8/t,bits,9/t,bits,8",
        "t,struct/t,tuple",
        "t,struct/t,struct",
        "t,struct,0,1/t,tuple,0,1/t,struct,1,0",
        "t,struct,0,1/t,struct,0,1",
        "t,array,0,0/t,array,0,1/t,array,1,0",
        "t,array,0,3/t,array,0,3",
        "t,opaque,0/t,opaque,0",
        "t,float,32/t,float,64/t,float,32",
        "t,struct,2",
        "t,struct,3",
        "t,array,2,1",
    ] {
        let lines: Vec<String> = lines.split('/').map(String::from).collect();
        with(lines.join("/"), &lines);
    }
}

/// Depth of nodes, places and types.
fn depths(all: &mut Vec<Named>) {
    for depth in [63, 64, 65, 66] {
        all.push((format!("nodes of depth {depth}"), deep_nodes(depth)));
        all.push((format!("places of depth {depth}"), deep_places(depth)));
        all.push((format!("selects of depth {depth}"), deep_selects(depth)));
    }
    for depth in [15, 16, 17, 18] {
        let mut lines: Vec<String> = vec!["t,bits,8".into()];
        for below in 2..=depth {
            lines.push(match below % 3 {
                0 => format!("t,array,{below},1"),
                1 => format!("t,struct,{below}"),
                _ => format!("t,tuple,{below}"),
            });
        }
        let last = depth + 1;
        lines.push("s,1,0,1,36".into());
        lines.push(format!("v,0,0,{last},0"));
        lines.push("p,variable,0".into());
        lines.push(format!("n,{last},read,0"));
        all.push((format!("types of depth {depth}"), text(&lines)));
    }
}

fn deep_nodes(depth: usize) -> Vec<u8> {
    let mut lines = vec!["t,bits,8".to_string(), "n,2,int,1".into()];
    for below in 0..depth - 1 {
        lines.push(format!("n,2,unary,{},{below}", below % 5));
    }
    text(&lines)
}

fn deep_places(depth: usize) -> Vec<u8> {
    let mut lines = vec![
        "t,bits,8".to_string(),
        "s,2,100,1,36".into(),
        "v,0,0,2,0".into(),
        "p,variable,0".into(),
    ];
    for below in 0..depth - 2 {
        lines.push("n,2,int,1".into());
        lines.push(format!("p,offset,{below},{below}"));
    }
    lines.push(format!("n,2,read,{}", depth - 2));
    text(&lines)
}

/// Selects in each other's condition.
fn deep_selects(depth: usize) -> Vec<u8> {
    let mut lines = vec!["n,0,bool,1".to_string()];
    let mut last = 0;
    for _ in 1..depth {
        lines.push("n,0,bool,0".into());
        lines.push("n,0,bool,1".into());
        lines.push(format!("n,0,select,{},{},{last}", last + 1, last + 2));
        last += 3;
    }
    text(&lines)
}

/// A place's offset.
fn offsets(all: &mut Vec<Named>) {
    let head = [
        "t,bits,8",
        "t,struct,2,2",
        "t,array,2,3",
        "t,float,32",
        "s,2,65535,1,36",
    ];
    let max = u64::MAX;
    for start in [0, 1, 65_533, 65_534, 65_535] {
        for step in [
            0,
            1,
            2,
            3,
            65_534,
            65_535,
            65_536,
            max - 65_535,
            max - 1,
            max,
        ] {
            for (of, lines) in [
                (
                    2,
                    format!("p,variable,0/n,2,int,{step}/p,offset,0,0/n,2,USE,1"),
                ),
                (
                    2,
                    format!("p,variable,0/n,1,int,{step}/p,offset,0,0/n,4,USE,1"),
                ),
                (
                    2,
                    format!("p,variable,0/n,2,int,{step}/p,offset,0,0/n,5,USE,1"),
                ),
                (3, format!("p,variable,0/p,field,0,{step}/n,2,USE,1")),
                (3, format!("p,variable,0/p,field,0,{step}/n,1,USE,1")),
                (
                    4,
                    format!("p,variable,0/n,2,int,{step}/p,element,0,0/n,2,USE,1"),
                ),
                (
                    4,
                    format!("p,variable,0/n,2,int,{step}/p,element,0,0/n,1,USE,1"),
                ),
                (
                    3,
                    format!(
                        "p,variable,0/p,field,0,1/n,2,int,{step}/p,offset,1,0/\
                         n,2,int,0/p,offset,2,1/n,2,USE,3"
                    ),
                ),
                (
                    4,
                    format!(
                        "p,variable,0/n,2,int,{step}/p,offset,0,0/n,2,int,1/\
                         p,offset,1,1/p,field,2,0/n,2,USE,3"
                    ),
                ),
            ] {
                for word in ["read", "address"] {
                    let mut all_lines: Vec<String> = head.iter().map(|s| s.to_string()).collect();
                    all_lines.push(format!("v,0,{start},{of},0"));
                    all_lines.extend(lines.replace("USE", word).split('/').map(String::from));
                    all.push((format!("offset {start} and {step}"), text(&all_lines)));
                }
            }
        }
    }
    for line in ["p,variable,0", "p,variable,1"] {
        for rest in [
            "n,0,read,0",
            "n,1,address,0",
            "n,1,null/p,offset,0,0/n,0,read,1",
            "n,0,int,0/p,offset,0,0/n,1,address,1",
            "n,0,f64,0/p,element,0,0/n,0,read,1",
        ] {
            let lines = format!("s,0,0,1,32/v,0,0,0,1/v,0,0,0,0/{line}/{rest}");
            let lines: Vec<&str> = lines.split('/').collect();
            all.push(("a packed bool".into(), text(&lines)));
        }
    }
}

/// What the original panics or overflows on, beside what it does not.
fn beyond(all: &mut Vec<Named>) {
    let types = "t,bits,8/t,bits,9/t,unit/t,opaque,0/t,opaque,1/t,opaque,16/t,opaque,17";
    let bases = ["int,1", "null", "bool,1", "aggregate", "function,3"];
    for base in 0..9 {
        for form in bases {
            for offset in bases {
                let lines = format!("{types}/n,{base},{form}/n,2,{offset}/n,1,offset,0,1");
                let lines: Vec<&str> = lines.split('/').collect();
                all.push((format!("base {form} of type {base}"), text(&lines)));
            }
        }
        let lines = format!("{types}/n,{base},int,18446744073709551615");
        let lines: Vec<&str> = lines.split('/').collect();
        all.push((format!("int of type {base}"), text(&lines)));
    }
    // The earlier of two refusals, 26 on either side.
    for (first, second) in [("8,int,1", "4,f32,1"), ("4,f32,1", "8,int,1")] {
        let lines = format!("{types}/n,{first}/n,{second}/n,1,offset,0,1");
        let lines: Vec<&str> = lines.split('/').collect();
        all.push(("two refusals".into(), text(&lines)));
    }
}

/// Constant rotate distances, overlong ones among them.
fn rotates(all: &mut Vec<Named>) {
    for (width, ty) in [(7, 3), (8, 2), (9, 4), (16, 5)] {
        for op in 10..=14 {
            for distance in [
                0,
                1,
                2,
                3,
                4,
                5,
                6,
                7,
                8,
                9,
                12,
                16,
                255,
                256,
                260,
                u64::MAX,
            ] {
                for (form, size) in [("int", 0), ("convert", 16), ("convert", 17)] {
                    let mut lines: Vec<String> = "t,bits,8/t,bits,7/t,bits,9/t,bits,16/t,bits,64"
                        .split('/')
                        .map(String::from)
                        .collect();
                    lines.push(format!("t,opaque,{}", size.max(1)));
                    lines.push("s,2,8,1,36".into());
                    lines.push(format!("v,0,0,{ty},0"));
                    lines.push("p,variable,0".into());
                    lines.push(format!("n,{ty},read,0"));
                    lines.push(format!("n,6,int,{distance}"));
                    let mut right = 1;
                    if form == "convert" {
                        lines.push("n,7,convert,1,1".into());
                        right = 2;
                    }
                    lines.push(format!("n,{ty},binary,{op},0,{right}"));
                    all.push((format!("op {op} at {width} by {distance}"), text(&lines)));
                }
            }
        }
    }
}

/// Each number of a line of each form in turn made one near a limit.
fn numbers(all: &mut Vec<Named>) {
    const EDGES: [&str; 52] = [
        "0",
        "1",
        "2",
        "3",
        "4",
        "5",
        "6",
        "9",
        "10",
        "13",
        "14",
        "15",
        "16",
        "17",
        "18",
        "19",
        "31",
        "32",
        "33",
        "63",
        "64",
        "65",
        "255",
        "256",
        "257",
        "511",
        "512",
        "1023",
        "1024",
        "1025",
        "4095",
        "4096",
        "4097",
        "65534",
        "65535",
        "65536",
        "4294967295",
        "4294967296",
        "9223372036854775807",
        "9223372036854775808",
        "18446744073709551614",
        "18446744073709551615",
        "18446744073709551616",
        "18446744073709551617",
        "99999999999999999999",
        "184467440737095516150",
        "",
        "00",
        "01",
        "+1",
        "-1",
        " 1",
    ];
    for form in FORMS {
        let lines: Vec<&str> = form.split('/').collect();
        for at in 0..lines.len() {
            let fields: Vec<&str> = lines[at].split(',').collect();
            for field in 0..fields.len() {
                for edge in EDGES {
                    let mut changed = fields.clone();
                    changed[field] = edge;
                    let line = changed.join(",");
                    let mut ticket = lines.clone();
                    ticket[at] = &line;
                    let name = format!("{} as {line}", lines[at]);
                    all.push((name, (ticket.join("\n") + "\n").into()));
                }
                let mut fewer = fields.clone();
                fewer.remove(field);
                let mut more = fields.clone();
                more.insert(field, "0");
                for changed in [fewer, more] {
                    let line = changed.join(",");
                    let mut ticket = lines.clone();
                    ticket[at] = &line;
                    let name = format!("{} as {line}", lines[at]);
                    all.push((name, (ticket.join("\n") + "\n").into()));
                }
            }
        }
    }
}

/// Small accepted or refused tickets that have every form of line.
const FORMS: [&str; 8] = [
    "f,1,2/t,bool/t,pointer/t,bits,9/s,2,2,1,36/v,0,0,2,0/p,variable,0/n,2,read,0/n,2,int,12/\
     n,2,binary,0,0,1/n,2,unary,4,2/n,0,compare,3,3,4",
    "f,1,2/t,bool/t,pointer/t,unit/t,float,32/t,opaque,3/t,array,0,3/t,struct,0,5,1/t,tuple,2/\
     s,2,9,1,36/s,0,0,0,2/s,1,0,1,511/s,3,0,1,0/v,0,0,6,0/g,0,0,6,0/p,static,0/p,field,0,1/\
     n,0,int,2/p,element,1,0/n,0,read,2",
    "f,1,2/t,bool/t,pointer/t,bits,16/s,1,0,1,36/v,0,0,0,0/v,0,1,0,1/g,0,0,1,0/p,variable,1/\
     n,0,read,0/n,2,convert,12,0/n,1,staticaddress,0,7/n,1,offset,2,1/n,2,convert,11,3",
    "f,1,2/t,bool/t,pointer/t,bits,8/t,array,2,2/n,2,int,1/n,2,int,2/n,3,aggregate,0,1/\
     n,2,int,3/n,3,insert,2,1,3/n,2,extract,4,0/n,2,function,9/n,1,null/n,0,bool,1/\
     n,3,aggregate,5,6,7,8",
    "f,1,2/t,bool/t,pointer/t,bits,8/n,2,int,1/n,2,int,2/n,0,bool,1/n,2,select,0,1,2",
    "f,1,2/t,bool/t,pointer/t,float,32/t,float,64/n,2,f32,1/n,3,f64,1/n,2,fbinary,0,1/\
     n,3,funary,2",
    "f,1,2/t,bool/t,pointer/t,bits,8/s,2,9,1,32/v,0,3,2,0/p,variable,0/n,2,int,4/\
     p,offset,0,0/n,1,address,1",
    "f,1,2/t,bool/t,pointer/n,1,f32,4/n,1,f64,4/n,1,aggregate,0,1",
];
