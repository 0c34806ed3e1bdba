//! What reading in the older edition costs: values that it allows bare, beside the same ones in quotes.

use crate::clock::least;
use crate::comparing;
use crate::contenders::{read_in, table_loop};
use crate::headers::addresses;
use capstanbar::Edition::{Rfc5988, Rfc8288};
use std::slice::from_ref;

pub fn print() {
    println!("Reading in each edition, on links with addresses for values; the table loop goes over the same header:\n");
    println!("| Addresses | Octets | RFC 8288's edition, ns | Times the table loop | The older one, ns | Times the table loop |");
    println!("|---|---:|---:|---:|---:|---:|");
    let [bare, quoted] = ["", "\""].map(addresses);
    let [newer, older] = [Rfc8288, Rfc5988].map(|edition| edition.number());
    for (header, edition) in [(&bare, older), (&quoted, newer), (&quoted, older)] {
        let reading = comparing::reading_in(edition, "addresses", header);
        assert_eq!(reading.answer.number, 0);
    }
    let [bare, quoted] = [&bare, &quoted].map(from_ref);
    let [loop_bare, loop_quoted, bare_older, quoted_newer, quoted_older] = least([
        table_loop(bare),
        table_loop(quoted),
        read_in(older, bare),
        read_in(newer, quoted),
        read_in(older, quoted),
    ]);
    println!(
        "| bare | {} | | | {bare_older:.0} | {:.2} |",
        bare[0].len(),
        bare_older / loop_bare
    );
    println!(
        "| in quotes | {} | {quoted_newer:.0} | {:.2} | {quoted_older:.0} | {:.2} |",
        quoted[0].len(),
        quoted_newer / loop_quoted,
        quoted_older / loop_quoted
    );
}
