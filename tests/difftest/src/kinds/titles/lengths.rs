//! Extended values of 8,192 octets, one under and one over, right ones and wrong ones; and what is
//! wrong only at the end of a long one.

use super::{ask, behind_quotes};
use crate::compare::{decode, Compared};
use crate::run::Run;

const LENGTHS: [usize; 4] = [8190, 8191, 8192, 8193];

/// What is put again and again, and what stands at the end.
const MAKES: [(&[u8], &[u8]); 12] = [
    (b"a", b""),
    (b"%41", b""),
    (b"%00", b""),
    (b"%c3%a4", b""),
    (b"%E2%82%AC", b""),
    (b"%f0%9f%8f%b4", b""),
    (b"a%c3%a4", b"b"),
    (b"a", b"%"),
    (b"a", b"%4"),
    (b"a", b"%c3"),
    (b"%E2%82%AC", b"*"),
    (b"*", b""),
];

pub fn compare(run: &mut Run) -> Compared<()> {
    for (middle, end) in MAKES {
        for length in LENGTHS {
            let room = length - b"UTF-8''".len() - end.len();
            let mut text = middle.repeat(room / middle.len());
            // Plain octets where the middle doesn't go up evenly.
            text.resize(room, b'.');
            text.extend(end);
            ask(run, &behind_quotes(&text))?;
        }
    }
    for length in LENGTHS {
        let language = [b"UTF-8'", &b"x-1".repeat(3000)[..length - 7], b"'"].concat();
        ask(run, &language)?;
        ask(run, &vec![b'\''; length])?;
    }
    for length in [8194, 65_536, 70_000] {
        run.case();
        decode(run, &behind_quotes(&vec![b'a'; length]), 8)?;
    }
    Ok(())
}
