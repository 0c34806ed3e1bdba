//! What the resolving program is given: stored headers on one base, each row as a target and as an
//! anchor, bases at the edges, and other than one.

use super::inputs;
use crate::kinds::resolution::rows;
use crate::kinds::stored;

/// The arguments, and standard input.
pub type Call = (Vec<Vec<u8>>, Vec<u8>);

const BASE: &[u8] = b"http://a/b/c/d;p?q#f";

pub fn calls() -> Vec<Call> {
    let mut calls: Vec<Call> = vec![];
    let mut on = |base: &[u8], input: &[u8]| calls.push((vec![base.to_vec()], input.to_vec()));
    stored::headers().for_each(|header| on(BASE, header));
    inputs::rooms().iter().for_each(|header| on(BASE, header));
    for [base, reference, _] in rows() {
        let header = [b"<", reference, b">;anchor=\"", reference, b"\", <a>\n"];
        on(base, &header.concat());
    }
    // Octets that no URI has, an end of line among them, and those that no word of a shell has.
    for octet in 1..=255 {
        on(&[b"a:b", &[octet][..], b"c"].concat(), b"<d>;anchor=e\n");
    }
    for base in [
        &b""[..],
        b"/",
        b"a",
        b"a:",
        b"a:b#c#d",
        b"1:a",
        b"-a:b",
        b"--",
    ] {
        for input in [
            &b""[..],
            b"\n",
            b"<a>",
            b"<a>;",
            b"<1:a>",
            b"<a>;anchor=%,<b>",
        ] {
            on(base, input);
        }
    }
    long(&mut on);
    calls.extend(other_than_one());
    calls
}

/// Bases about the limit, targets and contexts that are too long on them, and bases far beyond.
fn long(on: &mut impl FnMut(&[u8], &[u8])) {
    for length in [8190, 8191, 8192, 8193, 8194, 20_000] {
        for scheme in [&b"a:/"[..], b"1:/"] {
            let base = [scheme, &b"b".repeat(length - 4)[..], b"/"].concat();
            for input in [&b"<c>;anchor=d,<>,<//c>;anchor=dd"[..], b"", b"<a>;"] {
                on(&base, input);
            }
        }
    }
    let target = [b"<", &b"c".repeat(8000)[..], b">;anchor=d"].concat();
    for length in [100, 180, 190, 191, 192, 193, 300] {
        let base = [b"a:/", &b"b".repeat(length - 4)[..], b"/"].concat();
        on(&base, &target);
    }
}

/// No base, and more than one.
fn other_than_one() -> Vec<Call> {
    let base = BASE.to_vec();
    let words = [
        vec![],
        vec![base.clone(); 2],
        vec![base, vec![]],
        vec![vec![]; 3],
    ];
    let inputs = [&b"<a>"[..], b"", b"<a>;"];
    let calls = words.iter().flat_map(|words| {
        let call = |input: &[u8]| (words.clone(), input.to_vec());
        inputs.map(call)
    });
    calls.collect()
}
