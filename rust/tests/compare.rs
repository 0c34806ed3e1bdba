//! Which texts are the same once folded, and how many pairs of octets were compared to tell it.

use capstanbar::{compare, ffi, Comparison, LIMIT};

/// By hand: texts, whether they are the same, and the pairs.
const ROWS: &[(&[u8], &[u8], bool, usize)] = &[
    (b"", b"", true, 0),
    (b"next", b"next", true, 4),
    (b"next", b"NeXT", true, 4),
    (b"TITLE*", b"title*", true, 6),
    (b"a\0b", b"A\0B", true, 3),
    (b"", b"a", false, 0),
    (b"next", b"nexts", false, 0),
    (b"xnext", b"next", false, 0),
    (b"next", b"n\\ext", false, 0),
    (b"next", b"Text", false, 1),
    (b"next", b"NEST", false, 3),
    (b"rel", b"reV", false, 3),
    (b"[", b"{", false, 1),
    (b"a@b", b"A`B", false, 2),
    (b"ab\xC0", b"AB\xE0", false, 3),
];

const SMALLS: &[u8] = b"abcdefghijklmnopqrstuvwxyz";
const CAPITALS: &[u8] = b"ABCDEFGHIJKLMNOPQRSTUVWXYZ";

/// Asks with either text first, and the C interface too.
fn check(a: &[u8], b: &[u8], same: bool, pairs: usize) {
    for (a, b) in [(a, b), (b, a)] {
        let answer = compare(a, b);
        let due = Comparison { same, pairs };
        assert_eq!(answer, due, "{} {}", a.escape_ascii(), b.escape_ascii());
        let answer = ffi::compare(a, b);
        assert_eq!((answer.same, answer.pairs), (usize::from(same), pairs));
    }
}

/// Texts of that length that are the same but for case.
fn texts(length: usize) -> (Vec<u8>, Vec<u8>) {
    let text = |every: usize| {
        (0..length)
            .map(|place| match place % every {
                0 => CAPITALS[place % 26],
                _ => SMALLS[place % 26],
            })
            .collect()
    };
    (text(3), text(2))
}

#[test]
fn rows_agree() {
    for &(a, b, same, pairs) in ROWS {
        check(a, b, same, pairs);
    }
}

/// Whether the octets are one, or a small letter and its capital.
fn alike(c: u8, d: u8) -> bool {
    let mut letters = SMALLS.iter().zip(CAPITALS);
    c == d
        || letters
            .any(|(&small, &capital)| (c, d) == (small, capital) || (d, c) == (small, capital))
}

/// Alone, and at each place among pairs that are alike; there nothing may spill from one pair into
/// the next.
#[test]
fn each_pair_of_octets() {
    let (left, right) = (b"aZ\0\xFF@z\x7FA[", b"Az\0\xFF@Z\x7Fa[");
    for c in 0..=u8::MAX {
        for d in 0..=u8::MAX {
            let same = alike(c, d);
            check(&[c], &[d], same, 1);
            for place in 0..left.len() {
                let (mut a, mut b) = (*left, *right);
                (a[place], b[place]) = (c, d);
                check(&a, &b, same, if same { a.len() } else { place + 1 });
            }
        }
    }
}

#[test]
fn first_unequal_pair_at_each_place() {
    for length in 0..=40 {
        let (left, right) = texts(length);
        check(&left, &right, true, length);
        for first in 0..length {
            let (mut a, mut b) = (left.clone(), right.clone());
            (a[first], b[first]) = (b'[', b'{');
            check(&a, &b, false, first + 1);
            for second in first + 1..length {
                let (mut a, mut b) = (a.clone(), b.clone());
                (a[second], b[second]) = (b'[', b'{');
                check(&a, &b, false, first + 1);
            }
        }
    }
}

#[test]
fn lengths_come_first() {
    let (a, b) = texts(40);
    for a_length in 0..=40 {
        for b_length in 0..=40 {
            let same = a_length == b_length;
            let pairs = if same { a_length } else { 0 };
            check(&a[..a_length], &b[..b_length], same, pairs);
        }
    }
}

#[test]
fn long_texts() {
    let (a, mut b) = texts(10_000);
    check(&a, &b, true, 10_000);
    check(&a, &b[..9_999], false, 0);
    b[9_999] = b'-';
    check(&a, &b, false, 10_000);
    b[LIMIT] = b'-';
    check(&a, &b, false, LIMIT + 1);
    check(&a[..LIMIT], &b[..LIMIT], true, LIMIT);
    b[0] = b'-';
    check(&a, &b, false, 1);
}
