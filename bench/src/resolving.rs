//! References resolved on a base, and the resolved context of a link, beside the table loop over what is resolved or the header, with the
//! base behind it, and beside the independent reader; and how time grows with a path's length.

use crate::clock::{least, Contender};
use crate::figures::{figures, Figures};
use crate::library::{self, LIMIT};
use crate::{comparing, independent};
use std::hint::black_box;

/// Base, reference and result of RFC 3986's examples, and others behind them.
const ROWS: &str = include_str!("../../tests/oracle/data/resolution.txt");
const EXAMPLES: usize = 42;

const BASE: &str = "http://a/b/c/d;p?q";

/// The lengths that are set beside one another.
const LENGTHS: [usize; 2] = [4000, 8000];

pub fn print() {
    println!("References resolved on a base, and a link's context; the table loop goes over the reference or the header, and the base:\n");
    println!("| Entry | Reference | Octets | Octets given | ns | Octets per ns | Times the table loop | Independent reader, times this |");
    println!("|---|---|---:|---:|---:|---:|---:|---:|");
    let examples: Vec<&str> = ROWS.lines().take(EXAMPLES).map(reference).collect();
    resolve("RFC 3986's 42 examples in turn", &examples);
    resolve("2,000 segments `..`", &[&up(5999)]);
    resolve("8,000 octets without dots", &[&plain(8000)]);
    resolve("8,000 octets of `a/../`", &[&back(8000)]);
    context(
        "`anchor`, in quotes and escaped",
        "anchor=\"\\.\\.\\/g\\?y\"",
    );
    context("no `anchor`", "title=a");
}

pub fn print_growth() {
    println!(
        "Growth of resolving with the length of the path; a ratio of 2 is that of the lengths:\n"
    );
    println!("| Path | 4,000 octets, ns | 8,000 octets, ns | Ratio |");
    println!("|---|---:|---:|---:|");
    let on_base = |reference| (reference, BASE.to_string());
    growth("without dots", LENGTHS.map(|length| on_base(plain(length))));
    growth("`..`", LENGTHS.map(|length| on_base(up(length))));
    growth("`a/../`", LENGTHS.map(|length| on_base(back(length))));
    let deep = |length| (String::from("../g"), format!("http://a/{}", plain(length)));
    growth("the base's, without dots", LENGTHS.map(deep));
}

/// The second column.
fn reference(row: &'static str) -> &'static str {
    let columns: Vec<&str> = row.split('\t').collect();
    assert_eq!(columns[0], BASE);
    columns[1]
}

/// Of that length: the text again and again.
fn again(text: &str, length: usize) -> String {
    text.chars().cycle().take(length).collect()
}

fn plain(length: usize) -> String {
    again("capstan/bar.3/", length)
}

fn up(length: usize) -> String {
    again("../", length)
}

fn back(length: usize) -> String {
    again("a/../", length)
}

/// The references are resolved in turn.
fn resolve(name: &str, references: &[&str]) {
    let (mut out, mut out2) = ([0; LIMIT], [0; LIMIT]);
    let mut given = 0;
    for reference in references {
        let this = library::resolve(reference.as_bytes(), BASE.as_bytes(), &mut out);
        let other = oracle::resolve(reference.as_bytes(), BASE.as_bytes(), &mut out2);
        assert_eq!((this, out), (other, out2), "{name}");
        assert_eq!(this.0, 0, "{name}");
        given += this.1;
    }
    let this = Contender::new(|| {
        for reference in references {
            black_box(library::resolve(
                reference.as_bytes(),
                BASE.as_bytes(),
                &mut out,
            ));
        }
    });
    let other = Contender::new(|| {
        for reference in references {
            black_box(oracle::resolve(
                reference.as_bytes(),
                BASE.as_bytes(),
                &mut out2,
            ));
        }
    });
    let texts: Vec<Vec<u8>> = references.iter().map(|text| with_base(text)).collect();
    line(
        "resolve",
        name,
        &texts,
        given / references.len(),
        this,
        other,
    );
}

fn with_base(text: &str) -> Vec<u8> {
    [text, BASE].concat().into_bytes()
}

/// A link with these parameters and a relation.
fn context(name: &str, params: &str) {
    let header = format!("</chapter/4>; rel=next; {params}");
    let t = comparing::table(name, header.as_bytes());
    let (mut out, mut out2) = ([0; LIMIT], [0; LIMIT]);
    let given = library::resolved_context(&t, BASE.as_bytes(), 0, &mut out);
    let other = independent::resolved_context(&t, BASE.as_bytes(), 0, &mut out2);
    assert_eq!((given, out), (other, out2), "{name}");
    assert_eq!(given.0, 0, "{name}");
    let this = Contender::new(|| library::resolved_context(&t, BASE.as_bytes(), 0, &mut out));
    let other = Contender::new(|| independent::resolved_context(&t, BASE.as_bytes(), 0, &mut out2));
    line(
        "resolved_context",
        name,
        &[with_base(&header)],
        given.1,
        this,
        other,
    );
}

fn line(
    entry: &str,
    name: &str,
    texts: &[Vec<u8>],
    given: usize,
    this: Contender,
    independent: Contender,
) {
    let Figures {
        each,
        to_table,
        to_independent,
    } = figures(texts, this, independent);
    let octets = texts.iter().map(Vec::len).sum::<usize>() / texts.len();
    let rate = octets as f64 / each;
    println!("| {entry} | {name} | {octets} | {given} | {each:.0} | {rate:.2} | {to_table:.2} | {to_independent:.0} |");
}

/// A reference and a base, and the same of twice the length.
fn growth(name: &str, pairs: [(String, String); 2]) {
    for (reference, base) in &pairs {
        let (mut out, mut out2) = ([0; LIMIT], [0; LIMIT]);
        let this = library::resolve(reference.as_bytes(), base.as_bytes(), &mut out);
        let other = oracle::resolve(reference.as_bytes(), base.as_bytes(), &mut out2);
        assert_eq!((this, out), (other, out2), "{name}");
        assert_eq!(this.0, 0, "{name}");
    }
    let mut rooms = [[0; LIMIT]; 2];
    let [short, long] = &mut rooms;
    let [(reference, base), (reference2, base2)] = &pairs;
    let [short, long] = least([
        Contender::new(|| library::resolve(reference.as_bytes(), base.as_bytes(), short)),
        Contender::new(|| library::resolve(reference2.as_bytes(), base2.as_bytes(), long)),
    ]);
    println!("| {name} | {short:.0} | {long:.0} | {:.2} |", long / short);
}
