//! Measures the library's entries, beside a C loop that only looks octets up in a table and beside the independent reader, and
//! prints Markdown tables. What is measured is compared first: both sides answer the same.

mod clock;
mod comparing;
mod contenders;
mod different;
mod editions;
mod entries;
mod feeding;
mod figures;
mod growth;
mod headers;
mod independent;
mod library;
mod names;
mod pairs;
mod resolving;
mod titles;
mod walking;

fn main() {
    entries::print();
    println!();
    growth::print_reading();
    println!();
    feeding::print();
    println!();
    growth::print_feeding();
    println!();
    names::print();
    println!();
    pairs::print();
    println!();
    editions::print();
    println!();
    titles::print();
    println!();
    resolving::print();
    println!();
    resolving::print_growth();
    println!();
    walking::print();
    println!();
    walking::print_growth();
}
