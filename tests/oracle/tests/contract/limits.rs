//! Lengths round 8,192 octets, exact rooms and one fewer.

use crate::{accepted, read_amply, read_in, refusal, Tables};

#[test]
fn a_header_of_8192_is_judged_and_one_of_8193_is_not() {
    for length in [8191, 8192] {
        let target = [b"<", &vec![b'a'; length - 2][..], b">"].concat();
        assert_eq!(accepted(&target).link_slots, [1, length - 1, 0, 0]);
        assert_eq!(accepted(&vec![b' '; length]).link_count, 0);
        assert_eq!(accepted(&vec![b','; length]).link_count, 0);
        let cut = [b"<", &vec![b'a'; length - 1][..]].concat();
        assert_eq!(read_amply(0, &cut).0, refusal(2, length));
        let stray = [&vec![b','; length - 1][..], b"x"].concat();
        assert_eq!(read_amply(0, &stray).0, refusal(2, length - 1));
    }
    for octet in [b' ', b',', b'<', b'x', 0] {
        assert_eq!(read_amply(0, &vec![octet; 8193]).0, refusal(1, 0));
    }
}

#[test]
fn the_most_links_and_parameters() {
    let links = b"<>,".repeat(2730);
    assert_eq!(accepted(&links).link_count, 2730);
    let params = [b"<>", &b";x".repeat(4095)[..]].concat();
    assert_eq!(params.len(), 8192);
    assert_eq!(accepted(&params).param_count, 4095);
    let repeated = [b"<>", &b";rel".repeat(2047)[..]].concat();
    assert_eq!(accepted(&repeated).param_count, 1);
}

#[test]
fn exact_rooms_are_enough_and_one_fewer_is_not() {
    let header = b"<a>;x;y,<b>;rel=c;rel=d;z";
    let (answer, _) = read_in(0, header, 2, 4);
    assert_eq!((answer.number, answer.links, answer.params), (0, 2, 4));
    assert_eq!(read_in(0, header, 1, 4).0, refusal(3, 0));
    assert_eq!(read_in(0, header, 2, 3).0, refusal(4, 0));
    assert_eq!(read_in(0, header, 1, 3).0, refusal(3, 0));
    assert_eq!(read_in(0, b"<a>;x;", 0, 0).0, refusal(2, 6));
    assert_eq!(read_in(0, b",", 0, 0).0.number, 0);
    assert_eq!(read_in(0, b"<a>", 1, 0).0.number, 0);
}

#[test]
fn room_is_rounded_down() {
    assert_eq!(
        oracle::read(0, b"<a>,<b>", &mut [0; 7], &mut []),
        refusal(3, 0)
    );
    assert_eq!(
        oracle::read(0, b"<a>;x;y", &mut [0; 4], &mut [0; 11]),
        refusal(4, 0)
    );
    assert_eq!(
        oracle::read(0, b"<a>;x;y", &mut [0; 7], &mut [0; 17]).number,
        0
    );
}

#[test]
fn a_text_over_the_limit_is_refused_first() {
    let bad = [[9, 0, 9, 9]];
    for (length, number) in [(8192, 5), (8193, 1)] {
        let tables = Tables::new(&vec![b'a'; length], &bad, &[]);
        assert_eq!(tables.search("a"), (number, 0));
        assert_eq!(tables.context(b"base", 5), (number, 0, 0, 0));
        assert_eq!(tables.value(5, 5, 0), Err(number));
        assert_eq!(tables.write(0), Err(number));
    }
    let empty = Tables::new(&vec![b'a'; 8192], &[], &[]);
    assert_eq!(empty.write(0), Ok(vec![]));
}
