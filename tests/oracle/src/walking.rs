//! What the walking program prints.

use crate::listing::{line, LINK_ROOM, PARAM_ROOM};
use crate::number::{DONE, LIMIT};
use crate::record::PARAM_SLOTS;
use crate::walk::{walk_through, Packs, Room, WalkAnswer};

/// What the program lends.
const ROOM: Room = Room {
    link_slots: LINK_ROOM * 4,
    param_slots: PARAM_ROOM * PARAM_SLOTS,
    octets: LIMIT,
};

/// The words of the ends by their numbers; 0 is no end.
const ENDS: [&str; 5] = ["", "arrived", "no-link", "no-target", "no-pack"];

/// The line for a file that holds these octets, or that isn't there or can't be
/// read, and for the words behind its name: the start and the steps.
///
/// A file that isn't read comes before all else. Other than two words, and a
/// word that is no number of steps, are as steps out of range; a word that is
/// no start is as a number that no pack has.
pub fn walking(file: Option<&[u8]>, words: &[Vec<u8>]) -> Vec<u8> {
    let Some(catalogue) = file else {
        return b"unread\n".to_vec();
    };
    let (start, steps) = match words {
        [start, steps] => (start_of(start), steps_of(steps)),
        _ => (None, None),
    };
    let packs = Packs::of(catalogue, ROOM);
    let answer = walk_through(
        packs.as_ref(),
        start.unwrap_or(usize::MAX),
        steps.unwrap_or(i32::MAX),
        ROOM.octets,
    );
    match packs.as_ref().and_then(|packs| packs.uri(answer.pack)) {
        Some(uri) if answer.number == DONE => walked(answer, uri),
        _ => line("refused", &[answer.number]).into_bytes(),
    }
}

fn walked(answer: WalkAnswer, uri: &[u8]) -> Vec<u8> {
    let [pack, steps] = [answer.pack, answer.steps].map(|number| number.to_string());
    let columns = [
        ENDS[answer.end].as_bytes(),
        pack.as_bytes(),
        uri,
        steps.as_bytes(),
    ];
    [&columns.join(&b'\t')[..], b"\n"].concat()
}

/// The number of that many digits at most, and nothing else.
fn decimal(word: &[u8], most: usize) -> Option<u128> {
    if word.is_empty() || word.len() > most {
        return None;
    }
    word.iter().try_fold(0, |number, octet| match octet {
        b'0'..=b'9' => Some(10 * number + u128::from(octet - b'0')),
        _ => None,
    })
}

fn start_of(word: &[u8]) -> Option<usize> {
    decimal(word, 20)?.try_into().ok()
}

fn steps_of(word: &[u8]) -> Option<i32> {
    let steps = match word.strip_prefix(b"-") {
        Some(digits) => -(decimal(digits, 10)? as i128),
        None => decimal(word, 10)? as i128,
    };
    steps.try_into().ok()
}

#[cfg(test)]
mod tests {
    use super::*;

    #[test]
    fn a_start_is_digits_alone() {
        for (word, number) in [
            ("0", 0),
            ("7", 7),
            ("007", 7),
            ("00000000000000000255", 255),
            ("18446744073709551615", usize::MAX),
        ] {
            assert_eq!(start_of(word.as_bytes()), Some(number));
        }
        for word in [
            "",
            "-1",
            "-0",
            "+1",
            "1 ",
            " 1",
            "1\n",
            "0x1",
            "1a",
            "000000000000000000000",
            "18446744073709551616",
            "99999999999999999999",
        ] {
            assert_eq!(start_of(word.as_bytes()), None, "{word}");
        }
    }

    #[test]
    fn steps_may_have_one_sign() {
        for (word, number) in [
            ("0", 0),
            ("-0", 0),
            ("64", 64),
            ("-0000000064", -64),
            ("2147483647", i32::MAX),
            ("-2147483648", i32::MIN),
        ] {
            assert_eq!(steps_of(word.as_bytes()), Some(number));
        }
        for word in [
            "",
            "-",
            "--1",
            "+1",
            "1-",
            " 1",
            "- 1",
            "1\n",
            "2147483648",
            "-2147483649",
            "00000000001",
            "-00000000001",
        ] {
            assert_eq!(steps_of(word.as_bytes()), None, "{word}");
        }
    }
}
