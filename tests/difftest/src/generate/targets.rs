//! Targets that are references and targets that aren't, read by hand, and the second made of the first.

use super::octets::{is_hex, is_target};
use crate::numbers::Numbers;

pub const RIGHT: &[&[u8]] = &[
    b"",
    b"a",
    b"?",
    b"#",
    b"?#",
    b"@",
    b"/",
    b"//",
    b"///",
    b"a:",
    b"a:b:c",
    b"a+-.9:/",
    b"a://",
    b"a:///b",
    b"./a:b",
    b"/a:b",
    b"a/b:c",
    b"//:@:",
    b"//a:b@c:80",
    b"//a:80/b:c@d",
    b"//%41%5b:%5D@%C3%A7",
    b"//999.999.999.999",
    b"//[::]",
    b"//[::]:",
    b"//u:v@[1:2:3:4:5:6:7:8]:9/",
    b"//[::ffff:192.0.2.255]?b",
    b"a://[1:2:3:4:5:6:0.0.0.0]#b",
    b"//[v1F.a:!~]",
    b"?a/b?c:d@e",
    b"#a/b?c:d@e",
    b"a:-._~/@!$&'()*+,;=?/?:@-._~!$&'()*+,;=#/?:@-._~!$&'()*+,;=%0f%Fa",
];

pub const WRONG: &[&[u8]] = &[
    b":",
    b":a",
    b"1:a",
    b"+a:b",
    b"a_b:c",
    b"%41:b",
    b"a%41:b",
    b"@:",
    b"##",
    b"a#b#c",
    b"[",
    b"]",
    b"a[b]",
    b"/a[0]",
    b"?a[0]=1",
    b"#[",
    b"a:]",
    b"[::1]",
    b"a:[::1]",
    b"/[::1]/",
    b"//a:b",
    b"//a:80b",
    b"//a:1:2",
    b"//a:%31",
    b"//a@b@c",
    b"//[",
    b"//[]",
    b"//[:]",
    b"//[:::]",
    b"//[::",
    b"//[::]]",
    b"//[::]a",
    b"//a[::]",
    b"//[::]@a",
    b"//[::]:a",
    b"//[1:2:3:4:5:6:7]",
    b"//[1:2:3:4:5:6:7:8:9]",
    b"//[1:2:3:4::5:6:7:8]",
    b"//[1::2::3]",
    b"//[12345::]",
    b"//[::1.2.3]",
    b"//[::1.2.3.256]",
    b"//[::1.2.3.04]",
    b"//[::1.2.3.4:5]",
    b"//[1.2.3.4]",
    b"//[fe80::1%25a]",
    b"//[v.a]",
    b"//[v1.]",
    b"//[v1a]",
    b"//[vg.a]",
    b"//[v1.%41]",
    b"//[v1.a@]",
];

/// Whether a target may be of these octets, be it a reference or not.
pub fn has_target_octets(target: &[u8]) -> bool {
    first_fault(target).is_none()
}

/// The first octet that no target has there; if one is lacking at the end, where it should stand.
pub fn first_fault(target: &[u8]) -> Option<usize> {
    let mut at = 0;
    while at < target.len() {
        let digits = target[at + 1..].iter().take(2);
        let digits = digits.take_while(|&&octet| is_hex(octet)).count();
        match target[at] {
            b'%' if digits == 2 => at += 3,
            b'%' => return Some(at + 1 + digits),
            octet if is_target(octet) => at += 1,
            _ => return Some(at),
        }
    }
    None
}

/// The reference with marks put in and octets taken out until it is none any more, or one read by hand.
pub fn spoilt(numbers: &mut Numbers, reference: &[u8]) -> Vec<u8> {
    const MARKS: &[u8] = b":/?#[]@%.v1a";
    let mut target = reference.to_vec();
    for _ in 0..9 {
        let at = numbers.below(target.len() + 1);
        match numbers.below(4) {
            0 if at < target.len() => drop(target.remove(at)),
            1 if at < target.len() => target[at] = numbers.of(MARKS),
            _ => target.insert(at, numbers.of(MARKS)),
        }
        if has_target_octets(&target) && !oracle::is_reference(&target) {
            return target;
        }
    }
    numbers.of(WRONG).to_vec()
}
