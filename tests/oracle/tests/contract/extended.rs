//! Extended values, decoded: which are right, what they give, and in how much
//! room. What is UTF-8 the standard library says too.

use crate::{output, HELD_OCTET};

fn decoded_in(room: usize, value: &[u8]) -> Result<Vec<u8>, usize> {
    let mut out = vec![HELD_OCTET; room];
    let answer = oracle::decode(value, &mut out);
    output(answer, out)
}

fn assert_gives(value: &str, octets: impl AsRef<[u8]>) {
    let given = decoded_in(8192, value.as_bytes());
    assert_eq!(given.as_deref(), Ok(octets.as_ref()), "{value}");
}

fn assert_wrong(value: impl AsRef<[u8]>) {
    let value = value.as_ref();
    let shown = value.escape_ascii();
    assert_eq!(decoded_in(8192, value), Err(11), "{shown}");
    assert_eq!(decoded_in(0, value), Err(11), "{shown}");
}

/// Behind a charset and an empty language.
fn extended(text: &[u8]) -> Vec<u8> {
    [b"UTF-8''", text].concat()
}

/// Every octet as a triple, with capital digits and small ones in turn.
fn triples(octets: &[u8]) -> Vec<u8> {
    let triple = |(place, octet): (usize, &u8)| match place % 2 {
        0 => format!("%{octet:02X}"),
        _ => format!("%{octet:02x}"),
    };
    let text: String = octets.iter().enumerate().map(triple).collect();
    extended(text.as_bytes())
}

/// Octets that stand in triples are given just if they are UTF-8.
fn assert_judged(octets: &[u8]) {
    let expected = match std::str::from_utf8(octets) {
        Ok(_) => Ok(octets.to_vec()),
        Err(_) => Err(11),
    };
    assert_eq!(decoded_in(20, &triples(octets)), expected, "{octets:x?}");
}

#[test]
fn values_read_by_hand() {
    assert_gives("UTF-8'de'letztes%20Kapitel", "letztes Kapitel");
    assert_gives("UTF-8'de'n%c3%a4chstes%20Kapitel", "nächstes Kapitel");
    assert_gives("UTF-8''%c2%a3%20and%20%e2%82%ac%20rates", "£ and € rates");
    assert_gives("utf-8'en-GB-x-1'%F0%9F%8F%b4", "🏴");
    assert_gives("UTF-8''", "");
    assert_gives("UTF-8'en'", "");
    assert_gives("UTF-8''%00", "\0");
    assert_gives("UTF-8''%25%27%2a%5C%22", "%'*\\\"");
    assert_wrong("iso-8859-1'en'%A3%20rates");
    assert_wrong("UTF-8''%A3");
}

#[test]
fn every_first_octet_alone_and_before_tails() {
    for first in 0..=255 {
        assert_judged(&[first]);
        for tail in [0x80, 0x8F, 0x90, 0x9F, 0xA0, 0xBF, 0x7F, 0xC0, b'a'] {
            for count in 1..=4 {
                let tails = vec![tail; count];
                assert_judged(&[&[first], &tails[..]].concat());
                assert_judged(&[&[first], &tails[..], b"a"].concat());
            }
        }
    }
}

#[test]
fn every_second_octet_behind_every_first() {
    for first in 0..=255 {
        for second in 0..=255 {
            assert_judged(&[first, second]);
            assert_judged(&[first, second, 0x80]);
            assert_judged(&[first, second, 0x80, 0xBF]);
        }
    }
}

/// Where the second octet tells overlong forms, surrogates, and numbers over
/// 10FFFF hex: how many of them are right.
#[test]
fn the_edges_of_second_octets() {
    for (first, tails, lowest, highest) in [
        (0xE0, 1, 0xA0, 0xBF),
        (0xED, 1, 0x80, 0x9F),
        (0xEE, 1, 0x80, 0xBF),
        (0xF0, 2, 0x90, 0xBF),
        (0xF3, 2, 0x80, 0xBF),
        (0xF4, 2, 0x80, 0x8F),
    ] {
        for second in 0..=255 {
            let octets = [&[first, second], &vec![0x80; tails][..]].concat();
            let right = (lowest..=highest).contains(&second);
            assert_eq!(decoded_in(9, &triples(&octets)).is_ok(), right);
            assert_judged(&octets);
        }
    }
}

#[test]
fn sequences_cut_short() {
    for whole in ["ä", "€", "\u{FFFF}", "𐍈", "\u{10FFFF}"] {
        let octets = whole.as_bytes();
        for cut in 1..octets.len() {
            assert_wrong(triples(&octets[..cut]));
            assert_wrong(triples(&octets[cut..]));
            assert_wrong(triples(&[&octets[..cut], b"a"].concat()));
            assert_wrong(triples(&[&octets[..cut], octets].concat()));
            assert_wrong([&triples(&octets[..cut])[..], b"a"].concat());
        }
        assert_judged(octets);
        assert_judged(&[octets, octets, b"b", octets].concat());
    }
}

#[test]
fn two_digits_of_either_case_stand_behind_a_percent_sign() {
    for high in 0..=255 {
        for low in 0..=255 {
            let digits = std::str::from_utf8(&[high, low]).map(String::from);
            let is_hex = high.is_ascii_hexdigit() && low.is_ascii_hexdigit();
            let octet = digits.ok().filter(|_| is_hex);
            let octet = octet.map(|digits| u8::from_str_radix(&digits, 16).unwrap());
            let expected = octet.filter(u8::is_ascii).map(|octet| vec![octet]);
            let given = decoded_in(1, &extended(&[b'%', high, low]));
            assert_eq!(given, expected.ok_or(11), "{high:x} {low:x}");
        }
    }
    for text in [
        "%", "%4", "%4g", "%g4", "a%", "a%4", "%41%", "%%41", "%4%41",
    ] {
        assert_wrong(extended(text.as_bytes()));
    }
}

#[test]
fn the_charset_is_utf_8_in_any_case() {
    for flipped in 0..32 {
        let mut charset = *b"UTF-8";
        for (place, octet) in charset.iter_mut().enumerate() {
            *octet ^= 0x20 * (flipped >> place & 1) as u8;
        }
        let value = [&charset[..], b"''a"].concat();
        let expected = match flipped < 8 {
            true => Ok(b"a".to_vec()),
            false => Err(11),
        };
        assert_eq!(decoded_in(1, &value), expected, "{charset:?}");
    }
    for charset in [
        "",
        "U",
        "UTF",
        "UTF-",
        "UTF8",
        "UTF-7",
        "UTF-16",
        "UTF-88",
        "xUTF-8",
        " UTF-8",
        "UTF-8 ",
        "\"UTF-8\"",
        "UTF_8",
        "US-ASCII",
        "ISO-8859-1",
        "%55TF-8",
        "ＵTF-8",
    ] {
        assert_wrong(format!("{charset}''a"));
        assert_wrong(format!("{charset}''"));
    }
}

#[test]
fn two_quotes_and_no_more() {
    for value in [
        "", "a", "UTF-8", "UTF-8a", "UTF-8'", "UTF-8'a", "'", "''", "''a",
    ] {
        assert_wrong(value);
    }
    for value in [
        "UTF-8'''",
        "UTF-8'''a",
        "UTF-8''a'",
        "UTF-8''a'b",
        "'UTF-8''a",
    ] {
        assert_wrong(value);
    }
}

#[test]
fn a_language_is_of_letters_digits_and_hyphens() {
    for octet in 0..=255 {
        let right = octet == b'-' || octet.is_ascii_alphanumeric();
        for language in [vec![octet], vec![b'd', octet, b'e']] {
            let value = [b"UTF-8'", &language[..], b"'b"].concat();
            assert_eq!(decoded_in(1, &value).is_ok(), right, "{octet}");
        }
    }
    assert_gives("UTF-8'-'a", "a");
    assert_gives("UTF-8'a--9'a", "a");
    assert_wrong("UTF-8'%64e'a");
}

/// What no token has, and of a token `*`, `'` and `%`, must stand in triples.
#[test]
fn attribute_characters_stand_for_themselves() {
    const TOKEN_MARKS: &[u8] = b"!#$%&'*+-.^_`|~";
    for octet in 0..=255u8 {
        let token = octet.is_ascii_alphanumeric() || TOKEN_MARKS.contains(&octet);
        let right = token && !b"*'%".contains(&octet);
        for text in [vec![octet], vec![b'a', octet, b'a']] {
            let given = decoded_in(3, &extended(&text));
            assert_eq!(given.is_ok(), right, "{octet}");
            assert!(!right || given.unwrap() == text);
        }
        assert_eq!(decoded_in(1, &triples(&[octet])).is_ok(), octet < 128);
    }
}

#[test]
fn no_backslash_is_taken_out() {
    assert_wrong(r"UTF-8''\a");
    assert_wrong(r"UTF-8\'\'a");
    assert_wrong("\"UTF-8''a\"");
}

#[test]
fn exact_room_is_enough_and_one_fewer_is_not() {
    let value = b"UTF-8''n%c3%a4h";
    for room in [4, 5, 20] {
        assert_eq!(decoded_in(room, value).unwrap(), "näh".as_bytes());
    }
    for room in 0..4 {
        assert_eq!(decoded_in(room, value), Err(7));
    }
    assert_eq!(decoded_in(0, b"UTF-8''").unwrap(), b"");
}

#[test]
fn a_value_of_8192_is_judged_and_one_of_8193_is_not() {
    let long = |length: usize| extended(&vec![b'a'; length - 7]);
    assert_eq!(decoded_in(8185, &long(8192)), Ok(vec![b'a'; 8185]));
    assert_eq!(decoded_in(8184, &long(8192)), Err(7));
    assert_eq!(decoded_in(9000, &long(8193)), Err(1));
    assert_eq!(decoded_in(0, &[b'*'; 8192]), Err(11));
    assert_eq!(decoded_in(0, &[b'*'; 8193]), Err(1));
    let triples = triples(&[0; 2728]);
    assert_eq!(decoded_in(2728, &triples), Ok(vec![0; 2728]));
}
