//! Parts that end round the limit and past it, some of them behind a fault.

use super::beginnings::Beginnings;
use crate::compare::{Compared, Fed};
use crate::generate::edition::EDITIONS;
use crate::run::Run;
use oracle::number::LIMIT;

/// The last two would be short in 16 bits.
const ENDS: [usize; 10] = [0, 1, 5, 8190, 8191, 8192, 8193, 8194, 65_536, 65_541];

/// How headers begin, and what then follows on and on.
const MAKES: [(&[u8], u8); 10] = [
    (b"<", b'a'),
    (b"<1:", b'a'),
    (b"<a>,<//[", b':'),
    (b"<1:a>", b'a'),
    (b"<>;t=\"", b' '),
    (b"", b','),
    (b"", b'x'),
    (b"<a> ", b'<'),
    (b"<%", b'4'),
    (b"<>;x=y", b'/'),
];

pub fn compare(run: &mut Run) -> Compared<()> {
    run.begin("feed limits");
    for edition in EDITIONS {
        compare_in(run, edition)?;
    }
    Ok(())
}

fn compare_in(run: &mut Run, edition: usize) -> Compared<()> {
    let mut fed = Fed::new(run, edition, LIMIT);
    for (start, octet) in MAKES {
        let mut header = start.to_vec();
        header.resize(ENDS[9], octet);
        every(run, &mut fed, Beginnings::of(edition, header))?;
    }
    // Malformed at the last octet but one, and at the last; and a target that is closed there and is
    // no reference.
    for place in [8190, 8191] {
        for (start, more, end) in [(b' ', b' ', b'"'), (b'<', b':', b'>')] {
            let mut header = vec![more; ENDS[9]];
            header[0] = start;
            header[place] = end;
            every(run, &mut fed, Beginnings::of(edition, header))?;
        }
    }
    Ok(())
}

/// The header in up to three parts, parts of no octets too.
fn every(run: &mut Run, fed: &mut Fed, mut header: Beginnings) -> Compared<()> {
    for (at, &first) in ENDS.iter().enumerate() {
        for (at, &second) in ENDS.iter().enumerate().skip(at) {
            for &third in &ENDS[at..] {
                header.feed(run, fed, &[first, second, third])?;
                header.feed_disturbed(run, fed, &[first, second, third])?;
            }
        }
    }
    Ok(())
}
