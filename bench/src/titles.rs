//! Extended values decoded, and the titles of links that have them, beside the table loop over the value or the header and beside the
//! independent reader.

use crate::clock::Contender;
use crate::figures::{figures, Figures};
use crate::library::{self, LIMIT};
use crate::{comparing, independent};
use std::slice::from_ref;

/// Behind the quotes each value has so many octets.
const OCTETS: usize = 200;

pub fn print() {
    println!("Extended values decoded, with {OCTETS} octets behind their quotes, and titles; the table loop goes over the value or the header:\n");
    println!("| Entry | Value | Octets | Octets given | ns | Octets per ns | Times the table loop | Independent reader, times this |");
    println!("|---|---|---:|---:|---:|---:|---:|---:|");
    // Half is 96 of the 200 octets behind the quotes: 16 characters of two triples, the most that aren't over half.
    let [plain, half, triples] = [0, 16, 33].map(value);
    decode("plain", &plain);
    decode("half in triples", &half);
    decode("nearly all in triples", &triples);
    decode(
        "half in triples, wrong at its end",
        &wrong_at_its_end(&half),
    );
    title("half in triples", &format!("title*={half}"));
    title(
        "half in triples, beside `title`",
        &format!("title=Chapter; title*={half}"),
    );
    title(
        "half in triples, in quotes and escaped",
        &format!("title*=\"{}\"", half.replace('\'', "\\'")),
    );
    title("`title` alone", &format!("title={}", &plain[9..]));
}

/// With so many characters of two triples each, spread among plain octets.
fn value(characters: usize) -> String {
    let plain = "Kapitel".chars().cycle().map(String::from);
    let places = OCTETS - 5 * characters;
    let is_character = |place| (place + 1) * characters / places > place * characters / places;
    let text = plain.zip(0..places).map(|(plain, place)| {
        if is_character(place) {
            return String::from("%c3%a4");
        }
        plain
    });
    let text: String = text.collect();
    assert_eq!(text.len(), OCTETS);
    format!("UTF-8'de'{text}")
}

fn wrong_at_its_end(value: &str) -> String {
    format!("{}*", &value[..value.len() - 1])
}

fn decode(name: &str, value: &str) {
    let value = value.as_bytes().to_vec();
    let (mut out, mut out2) = ([0; LIMIT], [0; LIMIT]);
    let given = library::decode(&value, &mut out);
    let other = oracle::decode(&value, &mut out2);
    assert_eq!((given, out), (other, out2), "{name}");
    let this = Contender::new(|| library::decode(&value, &mut out));
    let other = Contender::new(|| oracle::decode(&value, &mut out2));
    line("decode", name, &value, given, this, other);
}

/// A link with these parameters and a relation.
fn title(name: &str, params: &str) {
    let header = format!("</chapter/4>; rel=next; {params}").into_bytes();
    let t = comparing::table(name, &header);
    let (mut out, mut out2) = ([0; LIMIT], [0; LIMIT]);
    let given = library::title(&t, 0, &mut out);
    let other = independent::title(&t, 0, &mut out2);
    assert_eq!((given, out), (other, out2), "{name}");
    assert_eq!(given.0, 0, "{name}");
    let this = Contender::new(|| library::title(&t, 0, &mut out));
    let other = Contender::new(|| independent::title(&t, 0, &mut out2));
    line("title", name, &header, given, this, other);
}

fn line(
    entry: &str,
    name: &str,
    text: &Vec<u8>,
    given: (usize, usize),
    this: Contender,
    independent: Contender,
) {
    let Figures {
        each,
        to_table,
        to_independent,
    } = figures(from_ref(text), this, independent);
    let (octets, (_, length)) = (text.len(), given);
    let rate = octets as f64 / each;
    println!("| {entry} | {name} | {octets} | {length} | {each:.0} | {rate:.2} | {to_table:.2} | {to_independent:.0} |");
}
