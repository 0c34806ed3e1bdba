//! A header that arrives in parts, beside reading it at once.

use crate::clock::least;
use crate::comparing;
use crate::contenders::{fed, finish, read, table_loop};
use crate::headers::{to_read, wrong_midway};
use crate::library::LIMIT;

pub fn print() {
    println!(
        "Feeding, and reading at once, each as times the table loop but for the last column:\n"
    );
    println!("| Header | Octets | read | Fed in one part | In parts of 16 | In parts of 1 | finish | One part, times read |");
    println!("|---|---:|---:|---:|---:|---:|---:|---:|");
    to_read()
        .iter()
        .for_each(|(name, headers)| line(name, headers));
    line("wrong midway", &[wrong_midway()]);
}

/// The feeds have a start before them, and no finish. The finish is that of a header fed before.
fn line(name: &str, headers: &[Vec<u8>]) {
    for header in headers {
        comparing::feeding(name, header, &[LIMIT, 16, 1]);
    }
    let [table, read, one, of_16, of_1, finish] = least([
        table_loop(headers),
        read(headers),
        fed(headers, LIMIT),
        fed(headers, 16),
        fed(headers, 1),
        finish(headers),
    ]);
    let octets = headers.iter().map(Vec::len).sum::<usize>() / headers.len();
    print!("| {name} | {octets} |");
    for this in [read, one, of_16, of_1, finish] {
        print!(" {:.2} |", this / table);
    }
    println!(" {:.2} |", one / read);
}
