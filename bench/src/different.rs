//! Headers that differ, to be taken in turn, so that a processor can't learn how the next one goes.

use crate::headers::paginated;

const COUNT: usize = 500;

const WORDS: [&str; 8] = [
    "api",
    "Users",
    "orders-2",
    "v3",
    "feed.atom",
    "search",
    "a%20b",
    "2024",
];
const HOSTS: [&str; 3] = ["x", "a.example", "shop.example.com"];
const RELATIONS: [&str; 5] = ["next", "prev", "last", "item", "preload"];
/// Known names, kept once or not, and others.
const NAMES: [&str; 9] = [
    "title",
    "type",
    "as",
    "hreflang",
    "x-foo",
    "media",
    "crossorigin",
    "nopush",
    "title*",
];
const TOKENS: [&str; 5] = ["en", "style", "font", "1", "a-b-c"];
/// What values in quotes are made of.
const LETTERS: &[u8; 16] = b"abcdefgh ij,;klm";

/// Numbers drawn one behind another, the same ones each time.
struct Draw(u32);

impl Draw {
    fn below(&mut self, count: usize) -> usize {
        self.0 = self.0.wrapping_mul(1_664_525).wrapping_add(1_013_904_223);
        (self.0 >> 16) as usize % count
    }

    fn one_of(&mut self, all: &[&'static str]) -> &'static str {
        all[self.below(all.len())]
    }
}

fn each(header: fn(&mut Draw) -> String) -> Vec<Vec<u8>> {
    let mut draw = Draw(1);
    (0..COUNT).map(|_| header(&mut draw).into_bytes()).collect()
}

/// A path of one word or more.
fn path(draw: &mut Draw, most: usize) -> String {
    let words = 1 + draw.below(most);
    (0..words)
        .flat_map(|_| ["/", draw.one_of(&WORDS)])
        .collect()
}

/// All of one kind: four links each.
pub fn pages() -> Vec<Vec<u8>> {
    each(|draw| {
        let target = format!("https://example.org{}", path(draw, 4));
        paginated(&target, 10 + draw.below(5000))
    })
}

/// One to six links each, with up to four parameters behind the `rel`, of every form.
pub fn mixed() -> Vec<Vec<u8>> {
    each(|draw| {
        let links: Vec<String> = (0..=draw.below(6)).map(|_| link(draw)).collect();
        links.join(", ")
    })
}

fn link(draw: &mut Draw) -> String {
    let host = draw.one_of(&HOSTS);
    let path = path(draw, 6);
    let relation = draw.one_of(&RELATIONS);
    let params: String = (0..draw.below(5)).map(|_| param(draw)).collect();
    format!("<https://{host}{path}>; rel=\"{relation}\"{params}")
}

/// Half of them in quotes without a backslash; the others without a value, bare, or with backslashes.
fn param(draw: &mut Draw) -> String {
    let name = draw.one_of(&NAMES);
    match draw.below(10) {
        0 | 1 => format!("; {name}"),
        2 | 3 => format!(";{name}={}", draw.one_of(&TOKENS)),
        4 => format!(
            r#"; {name}="{}\"{}\\""#,
            letters(draw, 5),
            letters(draw, 25)
        ),
        _ => format!("; {name}=\"{}\"", letters(draw, 30)),
    }
}

fn letters(draw: &mut Draw, most: usize) -> String {
    let count = draw.below(most + 1);
    (0..count)
        .map(|_| char::from(LETTERS[draw.below(LETTERS.len())]))
        .collect()
}
