//! The library by its printed case and edges.

use wesknuft_lower::{lower, lower_to_vec, Refusal, BUFFER_TOO_SHORT};

const TICKET: &[u8] = b"f,0,0\nt,bool\nt,pointer\nt,bits,9\ns,2,2,1,36\nv,0,0,2,0\n\
    p,variable,0\nn,2,read,0\nn,2,int,12\nn,2,binary,0,0,1\n";
const LISTING: &[u8] = b"storage,1,2,2,0,0,36\nstorage,2,3,0,1,1,2\ni,add,1.0,0.0,#12,-,2,2\n\
    i,add,1.1,0.1,#0,2,-,2\ni,and,1.1,1.1,#1,2\nvalue,2,bytes,2,1.0,1.1\ndone,3,2,2\n";

#[test]
fn printed_case() {
    let mut buffer = [b'~'; 200];
    assert_eq!(lower(TICKET, &mut buffer), Ok(142));
    assert_eq!(&buffer[..142], LISTING);
    assert!(buffer[142..].iter().all(|&byte| byte == b'~'));
    assert_eq!(lower_to_vec(TICKET).unwrap(), LISTING);
}

#[test]
fn exact_and_short_buffers() {
    let mut exact = [b'~'; 142];
    assert_eq!(lower(TICKET, &mut exact), Ok(142));
    assert_eq!(exact, LISTING);
    for length in [0, 1, 141] {
        let mut short = vec![b'~'; length];
        let refusal = lower(TICKET, &mut short).unwrap_err();
        assert_eq!((refusal.number, refusal.line), (BUFFER_TOO_SHORT, 0));
        assert!(short.iter().all(|&byte| byte == b'~'));
    }
}

#[test]
fn refusals() {
    for (ticket, number, line) in [
        (&b""[..], 2, 1),
        (b"f,0,0", 2, 1),
        (b"f,65536,0\n", 3, 1),
        (b"f,0,0\nt,pointer\n", 5, 2),
        (b"f,0,0\nt,bool\nt,pointer\nn,0,f32,1\n", 23, 4),
        (&[b'f'; 65_537], 1, 0),
    ] {
        let mut buffer = [b'~'; 64];
        assert_eq!(lower(ticket, &mut buffer), Err(Refusal { number, line }));
        assert_eq!(buffer, [b'~'; 64]);
        assert_eq!(lower(ticket, &mut []), Err(Refusal { number, line }));
        assert_eq!(lower_to_vec(ticket), Err(Refusal { number, line }));
    }
}

#[test]
fn every_number_has_a_message_of_its_own() {
    let message = |number| Refusal { number, line: 0 }.message();
    let numbers: Vec<u64> = (1..=10).chain(20..=28).collect();
    for &number in &numbers {
        assert_ne!(message(number), message(999), "{number}");
        let same = numbers.iter().filter(|&&n| message(n) == message(number));
        assert_eq!(same.count(), 1, "{number}");
    }
    let refusal = Refusal { number: 3, line: 7 };
    assert_eq!(
        refusal.to_string(),
        "line 7: a number is outside its range (refusal 3)"
    );
}
