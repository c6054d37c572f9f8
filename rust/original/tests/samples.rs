//! Every sample ticket, byte for byte, and single edges beside them.

use original::{answer, answer_with_nodes, chooses_bits, Answer};
use std::{env, fs, path::PathBuf};

const PRINTED: &str = "f,0,0\nt,bool\nt,pointer\nt,bits,9\ns,2,2,1,36\nv,0,0,2,0\n\
                       p,variable,0\nn,2,read,0\nn,2,int,12\nn,2,binary,0,0,1\n";

fn samples() -> Option<PathBuf> {
    if let Some(folder) = env::var_os("SAMPLES") {
        return Some(folder.into());
    }
    let root = PathBuf::from(env!("CARGO_MANIFEST_DIR")).join("..");
    ["../samples", "../../samples", "../../shared/samples"]
        .iter()
        .map(|folder| root.join(folder))
        .find(|folder| folder.is_dir())
}

/// Tickets with `/` for a line feed.
fn printed(ticket: &str) -> String {
    let answer = answer(ticket.replace('/', "\n").as_bytes(), 65_536);
    String::from_utf8(answer.printed()).unwrap()
}

#[test]
fn all_samples() {
    let Some(folder) = samples() else {
        eprintln!("no samples (SAMPLES names the folder of the NAME.in and NAME.out files)");
        return;
    };
    let mut count = 0;
    let mut wrong = Vec::new();
    for entry in fs::read_dir(folder).unwrap() {
        let path = entry.unwrap().path();
        if path.extension().is_none_or(|end| end != "in") {
            continue;
        }
        count += 1;
        let ticket = fs::read(&path).unwrap();
        let expected = fs::read(path.with_extension("out")).unwrap();
        // Document 02 raises the limits of 8 and 10, and the samples' are
        // document 01's.
        let raised = expected.starts_with(b"refused,8,") || expected.starts_with(b"refused,10,");
        if answer(&ticket, 65_536).printed() != expected && !raised {
            wrong.push(path);
        }
    }
    assert!(wrong.is_empty(), "{} differ: {wrong:?}", wrong.len());
    assert!(count > 0, "no samples");
    println!("{count} samples agree");
}

#[test]
fn room_of_the_printed_case() {
    let Answer::Accepted(listing) = answer(PRINTED.as_bytes(), 136) else {
        panic!("refused");
    };
    assert_eq!(listing.len(), 136);
    let short = answer(PRINTED.as_bytes(), 135).printed();
    assert_eq!(short, b"refused,28,0\n");
}

/// Document 01's readings, each by its smallest ticket.
#[test]
fn readings() {
    for (ticket, answer) in [
        ("f,0,0/t,bool/t,pointer/p,variable,0/", "refused,7,4"),
        ("f,0,0/t,bool/t,pointer/p,variable,0/x/", "refused,2,5"),
        ("f,0,0/t,bool/t,pointer/v,0,0,1,1/", "refused,3,4"),
        ("f,0,0/t,pointer/", "refused,5,2"),
        ("f,0,0/s,4,0,0,0/", "refused,3,2"),
        ("f,0,0/n,0,bool,1/", "refused,4,2"),
        ("f,0,0/p,variable,0/", "refused,5,2"),
        (
            "f,0,0/t,bool/t,pointer/n,0,bool,1/n,0,binary,0,0,0/",
            "refused,7,5",
        ),
        (
            "f,0,0/t,bool/t,pointer/n,1,null/n,1,null/n,0,null/n,1,select,0,1,2/",
            "refused,23,7",
        ),
        ("", "refused,2,1"),
        ("f,0,0/t,bool/t,pointer/", "refused,2,4"),
        ("f,0,0", "refused,2,1"),
        ("/", "refused,2,1"),
    ] {
        assert_eq!(printed(ticket), format!("{answer}\n"), "{ticket}");
    }
    let function = printed("f,0,65535/t,bool/t,pointer/n,1,function,7/");
    assert!(function.ends_with("done,1,1,65536\n"), "{function}");
}

/// The tickets of the program listing_tests with the answers that ours gives:
/// the original's, or it refuses a select over bits (document 02, E3).
#[test]
fn all_but_selects_over_bits() {
    let root = PathBuf::from(env!("CARGO_MANIFEST_DIR")).join("../..");
    let cases = fs::read(root.join("crates/listing_tests/stdin")).unwrap();
    let mut rest = &cases[..];
    let (mut same, mut changed) = (0, 0);
    while !rest.is_empty() {
        let (head, texts) = rest.split_at(16);
        let mut lengths = std::str::from_utf8(head)
            .unwrap()
            .trim_end()
            .split(',')
            .map(|length| length.parse().unwrap());
        let (ticket, texts) = texts.split_at(lengths.next().unwrap());
        let (expected, texts) = texts.split_at(lengths.next().unwrap());
        rest = texts;
        let answer = answer_with_nodes(ticket, 65_536);
        let leaves = matches!(answer, Answer::Refused(refusal) if chooses_bits(ticket, refusal));
        assert_eq!(
            answer.printed() == expected,
            !leaves,
            "{}",
            String::from_utf8_lossy(ticket)
        );
        *(if leaves { &mut changed } else { &mut same }) += 1;
    }
    println!("{same} tickets answered alike, {changed} that select bits for bytes");
    assert!(same > 1_000 && changed > 100, "{same}, {changed}");
}

/// Selects that the original refuses 24, and whether they choose bits.
#[test]
fn selects_over_bits() {
    for (ticket, line, leaves) in [
        // two bits for a byte
        (
            "n,1,bool,1/n,1,bool,0/n,1,bool,1/n,1,select,0,1,2/",
            7,
            true,
        ),
        // bytes for a bit
        ("n,0,null/n,0,null/n,0,bool,1/n,0,select,0,1,2/", 7, false),
        // a bit and a byte, alone and behind a pair of bits
        ("n,1,bool,1/n,1,null/n,0,bool,1/n,1,select,0,1,2/", 7, false),
        (
            "n,0,bool,1/n,0,bool,1/n,1,aggregate,0,1/n,0,bool,0/n,1,null/\
             n,1,aggregate,3,4/n,0,bool,1/n,1,select,2,5,6/",
            11,
            false,
        ),
        // an unlike pair past the last byte
        (
            "t,bits,8/n,0,bool,1/n,0,bool,1/n,2,aggregate,0,1/n,0,bool,0/n,1,null/\
             n,2,aggregate,3,4/n,0,bool,1/n,2,select,2,5,6/",
            12,
            true,
        ),
        // no select
        ("n,1,bool,1/n,0,unary,1,0/", 5, false),
    ] {
        let ticket = format!("f,0,0/t,bool/t,pointer/{ticket}").replace('/', "\n");
        let Answer::Refused(refusal) = answer(ticket.as_bytes(), 65_536) else {
            panic!("{ticket} is accepted");
        };
        assert_eq!((refusal.number, refusal.line), (24, line), "{ticket}");
        assert_eq!(chooses_bits(ticket.as_bytes(), refusal), leaves, "{ticket}");
    }
}

/// What the original panics or overflows on.
#[test]
fn beyond_the_original() {
    for (ticket, answer) in [
        (
            "f,0,0/t,bool/t,pointer/t,bits,8/n,2,int,0/n,2,int,0/n,1,offset,0,1/",
            "refused,25,7",
        ),
        (
            "f,0,0/t,bool/t,pointer/t,opaque,17/n,2,int,0/",
            "refused,26,5",
        ),
        (
            "f,0,0/t,bool/t,pointer/s,1,0,0,0/v,0,65535,0,0/p,variable,0/n,0,int,1/\
             p,offset,0,0/n,0,read,1/",
            "refused,27,9",
        ),
        (
            "f,0,0/t,bool/t,pointer/s,1,0,0,0/v,0,65535,0,0/p,variable,0/\
             n,0,int,18446744073709551615/p,offset,0,0/n,0,read,1/",
            "refused,27,9",
        ),
        (
            "f,0,0/t,bool/t,pointer/s,1,0,0,0/v,0,65535,0,0/p,variable,0/\
             n,0,int,18446744073709551615/p,offset,0,0/n,0,address,1/",
            "refused,27,9",
        ),
    ] {
        assert_eq!(printed(ticket), format!("{answer}\n"), "{ticket}");
    }
    // A rotate distance of 17 constant bytes: the lowest decides.
    for (distance, copies, rotates) in [(0, 1, 0), (8, 1, 0), (4, 0, 4), (257, 0, 1)] {
        let listing = printed(&format!(
            "f,0,0/t,bool/t,pointer/t,bits,8/t,opaque,17/t,bits,64/s,1,0,0,0/v,0,0,2,0/\
             p,variable,0/n,2,read,0/n,4,int,{distance}/n,3,convert,1,1/n,2,binary,13,0,2/"
        ));
        assert_eq!(listing.matches("i,copy").count(), copies, "{listing}");
        assert_eq!(listing.matches("i,rol").count(), rotates, "{listing}");
    }
}

/// An array of length 0 can have a type tree of any size below it.
#[test]
fn large_type_trees() {
    let mut ticket = String::from("f,0,0/t,bool/t,pointer/");
    let mut last = 0;
    for level in 1..=7 {
        ticket += "t,struct";
        ticket += &format!(",{last}").repeat(200);
        ticket += &format!("/t,array,{},0/", 2 * level);
        last = 2 * level + 1;
    }
    ticket += &format!("s,1,0,0,0/v,0,0,{last},0/p,variable,0/n,{last},read,0/");
    assert_eq!(
        printed(&ticket),
        format!("value,{last},aggregate,0\ndone,0,0,0\n")
    );
}
