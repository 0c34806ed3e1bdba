//! Every short string of the octets that extended values are told by, by itself and behind the
//! beginning of one.

use super::ask;
use crate::compare::Compared;
use crate::run::Run;

/// What stands before, what follows, and how many octets of it at most.
const STRINGS: [(&[u8], &[u8], usize); 7] = [
    (b"", b"UTF-8'", 8),
    (b"u", b"tTfF-8'", 6),
    (b"UTF-8", b"'aZ0-%*\\ ", 5),
    (b"UTF-8''", b"%4c3aAG'*\\", 6),
    (b"utf-8'de'%", b"0123456789abcdefABCDEFgG%'", 3),
    (b"UTF-8''%e2%82", b"%89abBcC0", 5),
    (b"UTF-8''%F0", b"%89aB0", 6),
];

/// In a deep run one octet more follows.
pub fn compare(run: &mut Run, deep: bool) -> Compared<()> {
    for (before, alphabet, most) in STRINGS {
        for length in 0..=most + usize::from(deep) {
            every(run, before, alphabet, length)?;
        }
    }
    Ok(())
}

/// Every string of the length, by counting in the alphabet.
fn every(run: &mut Run, before: &[u8], alphabet: &[u8], length: usize) -> Compared<()> {
    let base = alphabet.len();
    let mut value = [before, &vec![0; length]].concat();
    for mut number in 0..base.pow(length as u32) {
        for octet in &mut value[before.len()..] {
            *octet = alphabet[number % base];
            number /= base;
        }
        ask(run, &value)?;
    }
    Ok(())
}
