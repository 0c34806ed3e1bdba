//! What the listing program is given: headers with each end, and at the edges of its rooms and its
//! limit.

use crate::kinds::stored;
use std::collections::BTreeSet;

/// Ends of which a program that drops too much, or too little, leaves another part.
const ENDS: [&[u8]; 6] = [b"", b"\n", b"\n\n", b"\r\n", b"\r", b"\n\r"];

pub fn inputs() -> BTreeSet<Vec<u8>> {
    let mut inputs = BTreeSet::new();
    for header in stored::headers() {
        inputs.extend([b"".as_slice(), b"\n"].map(|end| [header, end].concat()));
    }
    inputs.extend([b"\n<a>", b"<a>\n<b>".as_slice(), b"<a>\n<b>\n"].map(<[u8]>::to_vec));
    inputs.extend(rooms());
    inputs.extend(ended());
    inputs.extend(long());
    inputs
}

/// One fewer than there is room for, just as many, and one more.
pub fn rooms() -> Vec<Vec<u8>> {
    let mut inputs = vec![[&b"<>,".repeat(256)[..], b"<>", &b";x".repeat(1025)].concat()];
    for links in [255, 256, 257] {
        inputs.push(b"<>,".repeat(links));
        inputs.push([&b"<>,".repeat(links - 1)[..], b"<>;x"].concat());
    }
    for params in [1023, 1024, 1025] {
        inputs.push([b"<>", &b";x".repeat(params)[..]].concat());
        // What is not kept takes no room.
        inputs.push([b"<>", &b";x".repeat(params - 1)[..], b";rel;rel"].concat());
    }
    inputs
}

/// Short headers, accepted and malformed, with every octet behind them and with the other ends. A
/// blank that was dropped is seen by the place in a quoted string that isn't closed.
fn ended() -> Vec<Vec<u8>> {
    const HEADERS: [&[u8]; 5] = [b"", b"<a>", b"<a>;rel=next", b"<a>;t=\"b", b"<a>;"];
    let mut inputs = vec![];
    for header in HEADERS {
        inputs.extend((0..=255).map(|octet| [header, &[octet]].concat()));
        inputs.extend(ENDS.map(|end| [header, end].concat()));
    }
    inputs
}

/// Lengths round the limit, of the header alone and with its end, and lengths far beyond.
fn long() -> Vec<Vec<u8>> {
    let mut inputs = vec![];
    for end in ENDS {
        for length in [8191, 8192, 8193, 8194, 9000, 70000] {
            for header in [length - end.len(), length] {
                inputs.extend(of_length(header).map(|header| [&header[..], end].concat()));
            }
        }
    }
    inputs
}

/// Headers of this length: two derivable ones, and malformed ones whose place is at the start and at
/// the end.
fn of_length(length: usize) -> [Vec<u8>; 4] {
    [
        b" ".repeat(length),
        [b"<", &b"a".repeat(length - 2)[..], b">"].concat(),
        b"x".repeat(length),
        [b"<a>;t=\"", &b"a".repeat(length - 7)[..]].concat(),
    ]
}
