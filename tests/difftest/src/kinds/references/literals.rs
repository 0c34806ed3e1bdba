//! What stands in brackets: IPv6 addresses of every form, with one octet off and with any decimal
//! octets, and addresses of later versions.

use super::alone::Alone;
use crate::compare::{equal, Compared};
use crate::run::Run;
use crate::shown;
use std::net::Ipv6Addr;

/// Groups of each length, in any case of letters.
const GROUPS: [&str; 8] = ["1", "f2", "0A3", "bC4d", "0000", "ff", "9", "E5f"];
const IPV4: [&str; 4] = ["0.1.20.255", "199.249.250.9", "10.99.100.200", "1.2.3.4"];

/// What an octet is replaced by.
const OTHERS: &[u8] = b":.0f g]";

pub fn compare(run: &mut Run) -> Compared<()> {
    run.begin("target literals");
    let mut alone = Alone::new();
    for form in forms() {
        judge(run, &mut alone, &form)?;
        for at in 0..form.len() {
            let (before, behind) = form.split_at(at);
            let others = OTHERS.iter().map(|&other| vec![other]);
            let octet = behind[0];
            for put in others.chain([vec![], vec![octet, octet]]) {
                judge(run, &mut alone, &[before, &put, &behind[1..]].concat())?;
            }
        }
    }
    decimals(run, &mut alone)?;
    futures(run, &mut alone)
}

/// Every number of groups before and behind a gap, and of groups without one, up to too many, with
/// and without an IPv4 address behind.
fn forms() -> Vec<Vec<u8>> {
    let mut forms = vec![];
    for count in 0..=9 {
        let groups: Vec<&str> = GROUPS.iter().cycle().take(count).copied().collect();
        let ipv4 = IPV4[count % 4];
        forms.push(groups.join(":"));
        forms.push([&groups[..], &[ipv4]].concat().join(":"));
        for before in 0..=count {
            let (before, behind) = groups.split_at(before);
            let before = before.join(":");
            forms.push(format!("{before}::{}", behind.join(":")));
            let behind = [behind, &[ipv4]].concat();
            forms.push(format!("{before}::{}", behind.join(":")));
        }
    }
    forms.into_iter().map(String::into_bytes).collect()
}

/// The standard library knows addresses too.
fn judge(run: &mut Run, alone: &mut Alone, address: &[u8]) -> Compared<()> {
    let right = alone.compare(run, &[b"//[", address, b"]"].concat())?;
    let known = str::from_utf8(address).is_ok_and(|text| text.parse::<Ipv6Addr>().is_ok());
    let asked = || format!("whether {} is an address", shown::octets(address));
    equal(asked, right, known)
}

/// Every number up to 1,000 with and without zeros before it, as one of the decimal octets.
fn decimals(run: &mut Run, alone: &mut Alone) -> Compared<()> {
    for number in 0..=1000 {
        for (at, width) in [(0, 1), (0, 3), (1, 1), (2, 2), (3, 1), (3, 3), (3, 4)] {
            let mut octets = IPV4[width - 1]
                .split('.')
                .map(String::from)
                .collect::<Vec<_>>();
            octets[at] = format!("{number:0width$}");
            judge(run, alone, format!("::{}", octets.join(".")).as_bytes())?;
        }
    }
    Ok(())
}

/// Every octet in every place of an address of a later version, and behind its bracket; and parts
/// that lack.
fn futures(run: &mut Run, alone: &mut Alone) -> Compared<()> {
    const TARGET: &[u8] = b"//[vF1.a:]:8/";
    const LACKING: [&[u8]; 6] = [
        b"//[v]",
        b"//[v1]",
        b"//[v.]",
        b"//[v1.]",
        b"//[v.a]",
        b"//[V1.a]",
    ];
    for at in 0..TARGET.len() {
        // That one would close the target.
        for octet in (0..=255).filter(|&octet| octet != b'>') {
            let mut target = TARGET.to_vec();
            target[at] = octet;
            alone.compare(run, &target)?;
        }
    }
    for target in LACKING {
        alone.compare(run, target)?;
    }
    Ok(())
}
