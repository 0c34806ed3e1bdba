//! Every octet as a part by itself, behind each beginning of a header after which other octets may
//! follow, and then one octet more.

use super::beginnings::Beginnings;
use crate::compare::{Compared, Fed};
use crate::generate::edition::EDITIONS;
use crate::kinds::short::DELIMITERS;
use crate::run::Run;
use oracle::number::LIMIT;

const BEFORE: [&[u8]; 38] = [
    b"",
    b" ",
    b",",
    b"<",
    b"<a",
    b"<%",
    b"<%4",
    b"<1",
    b"<1:",
    b"<a:",
    b"<a:/",
    b"<//",
    b"<//a:",
    b"<//a@",
    b"<//[",
    b"<//[:",
    b"<//[::1",
    b"<//[::]",
    b"<//[v1.",
    b"<?",
    b"<#",
    b"<>",
    b"<> ",
    b"<>;",
    b"<>; ",
    b"<>;x",
    b"<>;x ",
    b"<>;x=",
    b"<>;x= ",
    b"<>;x=y",
    b"<>;x=y ",
    b"<>;x=/",
    b"<>;x=/ ",
    b"<>;x=<",
    b"<>;x==y",
    b"<>;x=\"",
    b"<>;x=\"\\",
    b"<>;x=\"\"",
];

pub fn compare(run: &mut Run) -> Compared<()> {
    run.begin("feed octets");
    for edition in EDITIONS {
        let mut fed = Fed::new(run, edition, LIMIT);
        for before in BEFORE {
            let mut header = Beginnings::of(edition, before.to_vec());
            for octet in 0..=255 {
                header.push(octet);
                follow(run, &mut fed, &mut header)?;
                header.pop();
            }
        }
    }
    Ok(())
}

/// The last octet alone and, if it isn't refused, with each delimiter behind it.
fn follow(run: &mut Run, fed: &mut Fed, header: &mut Beginnings) -> Compared<()> {
    let end = header.len();
    header.feed(run, fed, &[end - 1, end])?;
    if header.judged(end).0 != 0 {
        return Ok(());
    }
    for &octet in DELIMITERS {
        header.push(octet);
        header.feed(run, fed, &[end - 1, end, end + 1])?;
        header.pop();
    }
    Ok(())
}
