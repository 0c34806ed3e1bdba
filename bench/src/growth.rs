//! How time grows with the length.

use crate::clock::least;
use crate::comparing;
use crate::contenders::{fed, read, table_loop};
use crate::headers::of_length;
use crate::library::LIMIT;
use std::slice::from_ref;

const LENGTHS: [usize; 5] = [512, 1024, 2048, 4096, 8192];

pub fn print_reading() {
    println!("Growth with the length, on links of one kind:\n");
    println!("| Octets | read, ns an octet | Table loop, ns an octet | Times the table loop |");
    println!("|---:|---:|---:|---:|");
    LENGTHS.map(of_length).iter().for_each(reading);
}

fn reading(header: &Vec<u8>) {
    assert_eq!(comparing::reading("growth", header).answer.number, 0);
    let [this, table] = least([read(from_ref(header)), table_loop(from_ref(header))]);
    let octets = header.len() as f64;
    println!(
        "| {octets} | {:.3} | {:.3} | {:.2} |",
        this / octets,
        table / octets,
        this / table
    );
}

pub fn print_feeding() {
    println!("Growth of feeding, on the same links; each ns are those of an octet, each ratio is to the table loop:\n");
    println!("| Octets | Table loop, ns | One part, ns | Ratio | Parts of 16, ns | Ratio | Parts of 1, ns | Ratio |");
    println!("|---:|---:|---:|---:|---:|---:|---:|---:|");
    LENGTHS.map(of_length).iter().for_each(feeding);
}

fn feeding(header: &Vec<u8>) {
    comparing::feeding("growth", header, &[LIMIT, 16, 1]);
    let headers = from_ref(header);
    let [table, one, of_16, of_1] = least([
        table_loop(headers),
        fed(headers, LIMIT),
        fed(headers, 16),
        fed(headers, 1),
    ]);
    let octets = header.len() as f64;
    print!("| {octets} | {:.3} |", table / octets);
    for this in [one, of_16, of_1] {
        print!(" {:.3} | {:.2} |", this / octets, this / table);
    }
    println!();
}
