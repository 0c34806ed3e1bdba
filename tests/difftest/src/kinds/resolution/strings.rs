//! Every short path of slashes, dots and one letter on bases of each shape; and every short string of
//! the marks that part references, as a reference and as a base.

use super::ask;
use crate::compare::Compared;
use crate::run::Run;

/// Paths of so many octets at most: 9,841 of them.
const PATH: usize = 8;

const BASES: [&[u8]; 7] = [
    b"http://a/b/c/d;p?q",
    b"a:b/c",
    b"a://h",
    b"a:/../x/./y",
    b"a:../b",
    b"a:",
    b"a://h/b//c/..#f",
];

const MARKS: &[u8] = b"a:/?#.";

/// Strings of marks so long at most.
const STRING: usize = 5;

/// What is resolved on a string behind a scheme.
const REFERENCES: [&[u8]; 5] = [b"", b"c", b"../c/.", b"?y", b"//c/.."];

/// In a deep run one octet more follows.
pub fn compare(run: &mut Run, deep: bool) -> Compared<()> {
    let more = usize::from(deep);
    for path in every(b"/.a", PATH + more) {
        for base in BASES {
            ask(run, &path, base)?;
        }
    }
    for string in every(MARKS, STRING + more) {
        for base in [&BASES[..3], &[b"a:/b?c#d"]].concat() {
            ask(run, &string, base)?;
        }
        let base = [b"a:", &string[..]].concat();
        for reference in REFERENCES {
            ask(run, reference, &base)?;
        }
        ask(run, b"c", &string)?;
    }
    Ok(())
}

/// Every string of at most that many octets, by counting in the alphabet.
fn every(alphabet: &'static [u8], most: usize) -> impl Iterator<Item = Vec<u8>> {
    let base = alphabet.len();
    let of_length = move |length: usize| {
        (0..base.pow(length as u32)).map(move |number| {
            let digits = (0..length).map(|place| number / base.pow(place as u32) % base);
            digits.map(|digit| alphabet[digit]).collect()
        })
    };
    (0..=most).flat_map(of_length)
}
