//! What the walking program is given: catalogues of each kind in files, words that are numbers or nearly,
//! other than three words, and names of what can't be read.

use crate::kinds::walks::{catalogue, sample, STEPS};

/// What the name of the file stands for.
pub enum File {
    /// A file with these octets.
    Holding(Vec<u8>),
    /// A name as it is, of what can't be read.
    Unread(&'static [u8]),
    /// No words at all.
    Unnamed,
}

/// The file, and the words behind its name.
pub type Call = (File, Vec<Vec<u8>>);

const STARTS: [&[u8]; 22] = [
    b"0",
    b"1",
    b"4",
    b"5",
    b"007",
    b"004",
    b"256",
    b"4294967296",
    b"18446744073709551615",
    b"18446744073709551616",
    b"99999999999999999999",
    b"00000000000000000003",
    b"000000000000000000003",
    b"",
    b"-1",
    b"-0",
    b"+1",
    b" 1",
    b"1 ",
    b"1x",
    b"0x1",
    b"\xD9\xA1",
];

const WORDS: [&[u8]; 32] = [
    b"0",
    b"-0",
    b"1",
    b"-1",
    b"3",
    b"-03",
    b"64",
    b"-64",
    b"65",
    b"-65",
    b"2147483647",
    b"2147483648",
    b"-2147483648",
    b"-2147483649",
    b"4294967296",
    b"4294967297",
    b"9999999999",
    b"-9999999999",
    b"0000000001",
    b"-0000000001",
    b"00000000001",
    b"-00000000001",
    b"",
    b"-",
    b"--1",
    b"+1",
    b" 1",
    b"1 ",
    b"1-",
    b"- 1",
    b"1x",
    b"\xE2\x88\x921",
];

/// Texts that are no catalogue, and one of no packs.
const OTHERS: [&[u8]; 9] = [
    b"",
    b"\n",
    b"a:b",
    b"a:b\t<c>",
    b"a:b\t\n\n",
    b"b\t\n",
    b"a:b\t\na:b\t\n",
    b"a:b\t<1:c>\n",
    b"a:b\t\r\n",
];

pub fn calls() -> Vec<Call> {
    let mut calls: Vec<Call> = vec![];
    let mut on = |octets: &[u8], words: &[&[u8]]| {
        let words = words.iter().map(|word| word.to_vec()).collect();
        calls.push((File::Holding(octets.to_vec()), words));
    };
    for start in STARTS {
        for steps in [&b"0"[..], b"-3", b"65", b"x"] {
            on(sample(), &[start, steps]);
        }
        on(b"a:b", &[start, b"0"]);
        on(b"", &[start, b"0"]);
    }
    for steps in WORDS {
        for start in [&b"0"[..], b"4", b"5", b"x"] {
            on(sample(), &[start, steps]);
        }
        on(b"a:b", &[b"0", steps]);
    }
    for steps in (-6..=6).chain(STEPS) {
        for start in 0..5 {
            let [start, steps] = [start.to_string(), steps.to_string()];
            on(sample(), &[start.as_bytes(), steps.as_bytes()]);
        }
    }
    for text in OTHERS {
        for words in [[&b"0"[..], b"0"], [b"1", b"-1"], [b"0", b"65"]] {
            on(text, &words);
        }
    }
    for words in [
        &[][..],
        &[&b"0"[..]],
        &[b"0", b"0", b"0"],
        &[b"0", b"0", b""],
    ] {
        for text in [sample(), b"", b"a:b"] {
            on(text, words);
        }
    }
    long(&mut on);
    calls.extend(unread());
    calls
}

/// Catalogues about the limits, far beyond them, and about the program's rooms.
fn long(on: &mut impl FnMut(&[u8], &[&[u8]])) {
    let uri = |length: usize| [b"a:/", &b"b".repeat(length - 4)[..], b"/"].concat();
    for octets in [65_535, 65_536, 65_537, 65_538, 100_000, 300_000] {
        let text = catalogue(&[(&uri(octets - 2), b"")]);
        on(&text, &[b"0", b"1"]);
        on(&text[..octets - 1], &[b"0", b"1"]);
        on(&b"\n".repeat(octets), &[b"0", b"1"]);
    }
    for length in [8190, 8191, 8192, 8193] {
        let text = catalogue(&[(&uri(length), b"<c>;rel=next,<>;rel=prev")]);
        on(&text, &[b"0", b"1"]);
        on(&text, &[b"0", b"-64"]);
    }
    for packs in [255, 256, 257] {
        let line = |pack: usize| format!("a:/{pack}\t<{}>;rel=next\n", pack + 1);
        let text: String = (0..packs).map(line).collect();
        on(text.as_bytes(), &[b"192", b"64"]);
        on(text.as_bytes(), &[b"191", b"64"]);
    }
    for links in [255, 256, 257] {
        on(
            &catalogue(&[(b"a:b", &b"<>,".repeat(links))]),
            &[b"0", b"0"],
        );
    }
    for params in [1023, 1024, 1025] {
        let value = [b"<>", &b";x".repeat(params)[..]].concat();
        on(&catalogue(&[(b"a:b", &value)]), &[b"0", b"0"]);
    }
}

/// No word, a name of nothing, the empty name, a folder, and what lies behind a file that is no folder.
fn unread() -> Vec<Call> {
    let names: [&[u8]; 5] = [b"nowhere", b"", b".", b"/dev/null/x", b"\xFF"];
    let words: [&[&[u8]]; 4] = [&[], &[b"0", b"0"], &[b"x", b"65"], &[b"0", b"0", b"0"]];
    let mut calls = vec![(File::Unnamed, vec![])];
    for name in names {
        for words in words {
            let words = words.iter().map(|word| word.to_vec()).collect();
            calls.push((File::Unread(name), words));
        }
    }
    calls
}
