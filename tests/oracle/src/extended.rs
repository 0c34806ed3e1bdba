//! Extended values, RFC 8187's, of which UTF-8 is the one charset.

use crate::comparison::same;
use crate::octet;
use crate::utf8::is_utf8;

/// The octets that an extended value gives; none if it is wrong. Quotes part
/// it into charset, language and the text itself, which hold none.
pub fn extended(value: &[u8]) -> Option<Vec<u8>> {
    let parts: Vec<&[u8]> = value.split(|&octet| octet == b'\'').collect();
    let [charset, language, text] = parts[..] else {
        return None;
    };
    if !same(charset, b"UTF-8") || !language.iter().copied().all(octet::language) {
        return None;
    }
    without_triples(text).filter(|octets| is_utf8(octets))
}

/// Cut at each `%`, behind which two digits stand for one octet; all else
/// stands for itself.
fn without_triples(text: &[u8]) -> Option<Vec<u8>> {
    let mut pieces = text.split(|&octet| octet == b'%');
    let mut octets = plain(pieces.next()?)?.to_vec();
    for piece in pieces {
        let (digits, rest) = piece.split_first_chunk()?;
        octets.push(of_digits(digits)?);
        octets.extend(plain(rest)?);
    }
    Some(octets)
}

/// The octets, if each of them may stand for itself.
fn plain(octets: &[u8]) -> Option<&[u8]> {
    let all = octets.iter().copied().all(octet::attribute);
    all.then_some(octets)
}

/// The octet of two hex digits of either case.
fn of_digits(digits: &[u8; 2]) -> Option<u8> {
    let [high, low] = digits.map(|digit| char::from(digit).to_digit(16));
    Some((16 * high? + low?) as u8)
}
