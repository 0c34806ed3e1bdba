//! The folded comparison of two texts, beside the table loop over one of them and beside the independent reader, which goes over
//! both twice where they are the same.

use crate::contenders::{asked, TIMES};
use crate::figures::{figures, Figures};
use crate::library;
use std::hint::black_box;

pub fn print() {
    println!("The folded comparison alone; each figure is for two texts, the table loop goes over one of them:\n");
    println!("| Texts | Octets | Pairs compared | ns | ns for a pair | Times the table loop | Independent reader, times this |");
    println!("|---|---:|---:|---:|---:|---:|---:|");
    let long = letters(40);
    for text in [&b"rel"[..], b"anchor", &long] {
        line("equal", text, text);
    }
    line(
        "equal, every second letter in the other case",
        &long,
        &every_second(&long),
    );
    for text in [&b"anchor"[..], &long] {
        line("unequal at the first octet", text, &unequal(text));
    }
    line("another length, one octet more", b"anchor", b"anchors");
    let longest = letters(library::LIMIT);
    line("equal", &longest, &longest);
}

fn letters(length: usize) -> Vec<u8> {
    (b'a'..=b'z').cycle().take(length).collect()
}

fn every_second(text: &[u8]) -> Vec<u8> {
    let mut other = text.to_vec();
    other
        .iter_mut()
        .step_by(2)
        .for_each(u8::make_ascii_uppercase);
    other
}

fn unequal(text: &[u8]) -> Vec<u8> {
    [b"-", &text[1..]].concat()
}

fn line(shown: &str, one: &[u8], other: &[u8]) {
    let answer = library::compare(one, other);
    let expected = oracle::compare(one, other);
    let numbers = (usize::from(expected.same), expected.pairs);
    assert_eq!((answer.same, answer.pairs), numbers, "{shown}");
    // Long texts take long enough as they are.
    let times = if one.len() < library::LIMIT { TIMES } else { 2 };
    let [ones, others] = [one, other].map(|text| vec![text.to_vec(); times]);
    let both: Vec<_> = ones.iter().zip(&others).collect();
    let Figures {
        each,
        to_table,
        to_independent,
    } = figures(
        &ones,
        asked(&both, |(one, other)| library::compare(one, other)),
        asked(&both, |(one, other)| {
            oracle::compare(black_box(one), black_box(other))
        }),
    );
    let octets = match one.len() == other.len() {
        true => one.len().to_string(),
        false => format!("{} and {}", one.len(), other.len()),
    };
    // What one pair or none takes is mostly the call.
    let pairs = answer.pairs;
    let of_a_pair = match pairs {
        0 | 1 => String::new(),
        _ => format!("{:.2}", each / pairs as f64),
    };
    println!("| {shown} | {octets} | {pairs} | {each:.1} | {of_a_pair} | {to_table:.2} | {to_independent:.1} |");
}
