//! Good tables that no reading gave: spans overlap and stand in any order.

use super::case::cased;
use super::edition::OLDER;
use super::octets::{code, is_token, ALWAYS, ONCE, UNKNOWN};
use super::{header, spans};
use crate::numbers::Numbers;
use crate::tables::Tables;
use oracle::PARAM_SLOTS;

/// In which edition it is good, how many parameters each link gets, and how long spans may grow.
pub struct Shape<'s> {
    pub edition: usize,
    pub params: &'s [usize],
    pub most: usize,
}

/// A good table of that shape over a made text; most links have a `rel`.
pub fn table(numbers: &mut Numbers, shape: Shape) -> Tables {
    let Soup {
        text,
        words,
        targets,
    } = soup(numbers);
    let mut links = vec![];
    let mut params = vec![];
    for &count in shape.params {
        let [start, end] = match targets.is_empty() || numbers.once_in(2) {
            true => spans::path(numbers, &text, shape.most),
            false => numbers.of(&targets),
        };
        links.push([start, end, params.len(), count]);
        let mut names: Vec<Vec<u8>> = vec![];
        for place in 0..count {
            let rel = place == 0 && !numbers.once_in(8);
            let name = match rel {
                true => words[0],
                false => free_name(numbers, &text, &words, &names),
            };
            names.push(text[name[0]..name[1]].to_ascii_lowercase());
            params.push(param(numbers, &text, name, &shape));
        }
    }
    Tables::new(shape.edition, text, &links, &params)
}

/// A text of all that tables are made of, and where in it names stand, a `rel` first, and references.
struct Soup {
    text: Vec<u8>,
    words: Vec<[usize; 2]>,
    targets: Vec<[usize; 2]>,
}

fn soup(numbers: &mut Numbers) -> Soup {
    let mut text = vec![];
    let mut words = vec![];
    let mut targets = vec![];
    let mut put_word = |text: &mut Vec<u8>, word: Vec<u8>| {
        words.push([text.len(), text.len() + word.len()]);
        text.extend(word);
    };
    put_word(&mut text, cased(numbers, b"rel"));
    for _ in 0..4 + numbers.below(8) {
        let word = match numbers.below(4) {
            0 => numbers.of(UNKNOWN),
            1 => numbers.of(ALWAYS),
            _ => numbers.of(ONCE),
        };
        let word = cased(numbers, word);
        let derived = header::derive_any(numbers, header::SHORT);
        let spans = derived.links.iter().map(|&[start, end, ..]| [start, end]);
        targets.extend(spans.map(|span| span.map(|place| text.len() + place)));
        text.extend(derived.header);
        put_word(&mut text, word);
        text.push(numbers.octet());
    }
    Soup {
        text,
        words,
        targets,
    }
}

/// A name that isn't kept once if the link has it already.
fn free_name(
    numbers: &mut Numbers,
    text: &[u8],
    words: &[[usize; 2]],
    names: &[Vec<u8>],
) -> [usize; 2] {
    loop {
        let word = numbers.of(words);
        let name = match numbers.once_in(3) {
            true => spans::token(numbers, text, 8).unwrap_or(word),
            false => word,
        };
        let folded = text[name[0]..name[1]].to_ascii_lowercase();
        if !(ONCE.contains(&&folded[..]) && names.contains(&folded)) {
            return name;
        }
        // One octet alone is no name kept once.
        let start = numbers.below(text.len());
        if is_token(text[start]) {
            return [start, start + 1];
        }
    }
}

fn param(
    numbers: &mut Numbers,
    text: &[u8],
    name: [usize; 2],
    shape: &Shape,
) -> [usize; PARAM_SLOTS] {
    let forms = if shape.edition == OLDER { 7 } else { 5 };
    let bare = match numbers.below(forms) {
        0 => Some(([name[1]; 2], 0)),
        1 | 2 => spans::token(numbers, text, shape.most).map(|span| (span, 1)),
        5.. => spans::further(numbers, text, shape.most).map(|span| (span, 3)),
        _ => None,
    };
    let ([start, end], form) =
        bare.unwrap_or_else(|| (spans::quoted(numbers, text, shape.most), 2));
    let code = code(&text[name[0]..name[1]]);
    [name[0], name[1], start, end, form, code]
}
