//! Which octets are UTF-8 by RFC 3629, told by numbers: octets are right if
//! they are what their numbers are written as.

/// Whether the octets are numbers of characters, each in its one form.
pub fn is_utf8(octets: &[u8]) -> bool {
    pieces(octets).all(|piece| number(piece).and_then(form).as_deref() == Some(piece))
}

/// The octets cut before each one that isn't a tail of the form `10xxxxxx`.
fn pieces(octets: &[u8]) -> impl Iterator<Item = &[u8]> {
    octets.chunk_by(|_, &next| next & 0xC0 == 0x80)
}

/// The number in the free bits of a piece of that length, whatever its other
/// bits are; none has more than four octets.
fn number(piece: &[u8]) -> Option<u32> {
    let (&first, tails) = piece.split_first()?;
    let free = match tails.len() {
        0 => 0x7F,
        1 => 0x1F,
        2 => 0x0F,
        3 => 0x07,
        _ => return None,
    };
    let start = u32::from(first & free);
    let number = tails
        .iter()
        .fold(start, |number, tail| number * 64 + u32::from(tail & 0x3F));
    Some(number)
}

/// How a character's number is written, which is the shortest way; surrogates
/// and what is over 10FFFF hex aren't characters.
fn form(number: u32) -> Option<Vec<u8>> {
    let (mark, tails) = match number {
        0..=0x7F => (0x00, 0),
        0x80..=0x7FF => (0xC0, 1),
        0xD800..=0xDFFF => return None,
        0x800..=0xFFFF => (0xE0, 2),
        0x1_0000..=0x10_FFFF => (0xF0, 3),
        _ => return None,
    };
    let bits = |place: u32| number >> (6 * place);
    let first = mark + bits(tails);
    let rest = (0..tails).rev().map(|place| 0x80 + bits(place) % 64);
    let octets = std::iter::once(first).chain(rest);
    Some(octets.map(|octet| octet as u8).collect())
}

#[cfg(test)]
mod tests {
    use super::*;

    #[test]
    fn every_number_has_the_form_of_its_character() {
        for number in 0..0x20_0000 {
            let known = char::from_u32(number);
            let known = known.map(|known| known.to_string().into_bytes());
            assert_eq!(form(number), known, "{number:x}");
        }
        assert_eq!(form(u32::MAX), None);
    }

    #[test]
    fn a_form_is_one_piece_of_its_number() {
        for known in '\0'..=char::MAX {
            let mut room = [0; 4];
            let octets = known.encode_utf8(&mut room).as_bytes();
            assert!(pieces(octets).eq([octets]));
            assert_eq!(number(octets), Some(known.into()));
        }
    }
}
