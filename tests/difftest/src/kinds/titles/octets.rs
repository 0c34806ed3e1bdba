//! Every octet in every place of extended values, in place of one, put before it and cut there; and
//! every two octets behind a `%`.

use super::{ask, behind_quotes};
use crate::compare::Compared;
use crate::run::Run;

const VALUES: [&[u8]; 4] = [
    b"UTF-8'de'letztes%20Kapitel",
    b"UTF-8'de'n%c3%a4chstes%20Kapitel",
    b"utf-8'en-GB-1'%e2%82%AC%f0%9d%84%9E!~",
    b"UtF-8''",
];

pub fn compare(run: &mut Run) -> Compared<()> {
    for value in VALUES {
        for place in 0..=value.len() {
            let (before, behind) = value.split_at(place);
            ask(run, before)?;
            ask(run, behind)?;
            for octet in 0..=255 {
                ask(run, &[before, &[octet], behind].concat())?;
                let rest = behind.get(1..).unwrap_or_default();
                ask(run, &[before, &[octet], rest].concat())?;
            }
        }
    }
    for digits in 0..=u16::MAX {
        let [high, low] = digits.to_be_bytes();
        ask(run, &behind_quotes(&[b'%', high, low]))?;
    }
    Ok(())
}
