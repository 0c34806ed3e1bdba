//! Each entry, beside the table loop and the independent reader.

use crate::clock::Contender;
use crate::different::mixed;
use crate::figures::{figures, Figures};
use crate::headers::{samples, to_read, Sample, MIXED};
use crate::library::{Table, EDITION, LIMIT};
use crate::{comparing, contenders, independent, library};
use capstanbar::Name;
use std::hint::black_box;
use std::slice::from_ref;

pub fn print() {
    println!("| Entry | Header | Octets | ns | Octets per ns | Times the table loop | Independent reader, times this |");
    println!("|---|---|---:|---:|---:|---:|---:|");
    to_read()
        .iter()
        .for_each(|(name, headers)| read(name, headers));
    let samples = samples();
    let tables: Vec<Table> = samples.iter().map(table_of).collect();
    let mixed: Vec<Table> = mixed()
        .iter()
        .map(|header| comparing::table(MIXED, header))
        .collect();
    let asked = || samples.iter().zip(&tables);
    asked().for_each(|(sample, table)| search(sample.name, from_ref(table), sample.relation));
    search(MIXED, &mixed, b"last");
    asked().for_each(|(sample, table)| value(sample, table));
    asked().for_each(|(sample, table)| write(sample.name, from_ref(table)));
    write(MIXED, &mixed);
    write("60 links that share spans", &[shared_spans()]);
}

fn table_of(sample: &Sample) -> Table {
    let table = comparing::table(sample.name, &sample.header);
    let found = library::search(&table, sample.relation);
    assert_eq!(found, (0, table.link_count - 1), "{}", sample.name);
    table
}

/// A table that no header was read into.
fn shared_spans() -> Table {
    let text = br#"/shelf?volume=12 rel next title A \"long\" one, quoted"#.to_vec();
    let (mut links, mut params) = (vec![], vec![]);
    for number in 0..60 {
        links.extend([0, 16, 2 * number, 2]);
        let rel = [17, 20, 21, 25, 1, Name::Rel.code()];
        let title = [26, 31, 32, text.len(), 2, Name::Title.code()];
        params.extend([rel, title].concat());
    }
    Table {
        text,
        links,
        params,
        link_count: 60,
        param_count: 120,
    }
}

/// Measures and prints one line: the entry, the table loop over the texts, the independent reader. All figures are for one text.
fn line<T>(
    entry: &str,
    name: &str,
    texts: &[Vec<u8>],
    this: Contender,
    independent: impl FnMut() -> T,
) {
    let Figures {
        each,
        to_table,
        to_independent,
    } = figures(texts, this, Contender::new(independent));
    let octets = texts.iter().map(|text| text.len()).sum::<usize>() / texts.len();
    let rate = octets as f64 / each;
    println!("| {entry} | {name} | {octets} | {each:.0} | {rate:.2} | {to_table:.2} | {to_independent:.0} |");
}

fn read(name: &str, headers: &[Vec<u8>]) {
    for header in headers {
        comparing::reading(name, header);
    }
    let (mut links, mut params) = library::slots();
    let other = || {
        for header in headers {
            black_box(oracle::read(EDITION, header, &mut links, &mut params));
        }
    };
    line("read", name, headers, contenders::read(headers), other);
}

/// The tables are asked in turn.
fn search(name: &str, tables: &[Table], relation: &[u8]) {
    for t in tables {
        let this = library::search(t, relation);
        assert_eq!(this, independent::search(t, relation), "{name}");
    }
    let texts: Vec<Vec<u8>> = tables.iter().map(|t| t.text.clone()).collect();
    let this = contenders::asked(tables, |t| library::search(t, relation));
    let other = || {
        for t in tables {
            black_box(independent::search(t, relation));
        }
    };
    line("search", name, &texts, this, other);
}

fn value(sample: &Sample, t: &Table) {
    let (link, place) = sample.value;
    let (mut out, mut out2) = ([0; LIMIT], [0; LIMIT]);
    let this = library::value(t, link, place, &mut out);
    let other = independent::value(t, link, place, &mut out2);
    assert_eq!((this, out), (other, out2), "{}", sample.name);
    let this = Contender::new(|| library::value(t, link, place, &mut out));
    let other = || independent::value(t, link, place, &mut out2);
    line("value", sample.name, from_ref(&t.text), this, other);
}

/// The octets are those written.
fn write(name: &str, tables: &[Table]) {
    let (mut out, mut out2) = ([0; LIMIT], [0; LIMIT]);
    let mut written = |t: &Table| {
        let this = library::write(t, &mut out);
        let other = independent::write(t, &mut out2);
        assert_eq!((this, out), (other, out2), "{name}");
        assert_eq!(this.0, 0, "{name}");
        out[..this.1].to_vec()
    };
    let texts: Vec<Vec<u8>> = tables.iter().map(&mut written).collect();
    let this = Contender::new(|| {
        for t in tables {
            black_box(library::write(t, &mut out));
        }
    });
    let other = || {
        for t in tables {
            black_box(independent::write(t, &mut out2));
        }
    };
    line("write", name, &texts, this, other);
}
