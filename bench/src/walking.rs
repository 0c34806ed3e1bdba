//! Walks through catalogues, beside the table loop over the catalogue and beside the independent walker; beside reading every value of the
//! catalogue by itself, which each walk does once; how time grows with the packs; and URIs that are slow to tell apart.

use crate::clock::{least, Contender};
use crate::contenders::read;
use crate::figures::{figures, Figures};
use crate::library::{self, LIMIT};
use oracle::{End, Room};
use std::slice::from_ref;

const PACKS: usize = 256;
const STEPS: i32 = 64;
const CATALOGUE: usize = 65_536;

/// The numbers of packs that are set beside one another.
const GROWTH: [usize; 3] = [64, 128, 256];

pub fn print() {
    println!("Walks through catalogues of {PACKS} packs; the table loop goes over the catalogue, and the values are read one by one:\n");
    println!("| Catalogue | Octets | Steps | µs | Octets per ns | Times the table loop | Times reading the values | Independent walker, times this |");
    println!("|---|---:|---:|---:|---:|---:|---:|---:|");
    let short = row(PACKS, "");
    let long = row(PACKS, &long_title());
    assert!((CATALOGUE - PACKS..=CATALOGUE).contains(&long.octets.len()));
    for steps in [0, 1, STEPS, -STEPS] {
        line("two links a pack", &short, steps);
    }
    for steps in [0, STEPS] {
        line("two links and a title a pack", &long, steps);
    }
}

pub fn print_growth() {
    println!("Growth of a walk with the packs, on lines of equal lengths; each µs are those of the check and of all steps, and a ratio of 2 is that of the packs:\n");
    println!("| URIs | Steps | 64 packs, µs | 128 packs, µs | Ratio | 256 packs, µs | Ratio |");
    println!("|---|---:|---:|---:|---:|---:|---:|");
    for (name, uri) in [
        ("numbered at their ends", numbered as Uri),
        ("that differ in their last two octets", last),
        ("that differ in the path's first two octets", first),
    ] {
        for steps in [0, STEPS] {
            growth(name, GROWTH.map(|packs| circle(packs, uri)), steps);
        }
    }
    // With no links there is most room for URIs, each of which is compared with all before it.
    let longest = |packs: usize| Made::of((0..packs).map(|pack| (longest(pack), String::new())));
    let name = "the longest that differ so, without links";
    growth(name, GROWTH.map(longest), 0);
}

/// A catalogue, its values by themselves, and the pack that a walk starts from to take all its steps.
struct Made {
    octets: Vec<u8>,
    values: Vec<Vec<u8>>,
    start: usize,
}

impl Made {
    fn of(packs: impl Iterator<Item = (String, String)>) -> Made {
        let (mut octets, mut values) = (vec![], vec![]);
        for (uri, value) in packs {
            octets.extend(format!("{uri}\t{value}\n").bytes());
            values.push(value.into_bytes());
        }
        let start = values.len() / 2;
        Made {
            octets,
            values,
            start,
        }
    }
}

/// Packs in a circle, each with a link to the next and to the one before it, and with these parameters behind the last.
fn row(packs: usize, params: &str) -> Made {
    Made::of((0..packs).map(|pack| {
        let (next, prev) = ((pack + 1) % packs, (pack + packs - 1) % packs);
        let value = format!("<../{next:03}/>; rel=next, <../{prev:03}/>; rel=prev{params}");
        (format!("http://example.net/packs/{pack:03}/"), value)
    }))
}

/// A title that fills each line up to its part of the most octets.
fn long_title() -> String {
    let rest = CATALOGUE / PACKS - row(PACKS, "; title=\"\"").octets.len() / PACKS;
    format!(
        "; title=\"{}\"",
        "Harbour, ".chars().cycle().take(rest).collect::<String>()
    )
}

/// The URI of a pack; those of one kind are of one length.
type Uri = fn(usize) -> String;

const FOLDERS: &str = "packs/and/their/chapters/in/folders/of/some/depth/so/that/they/are/long/";

fn numbered(pack: usize) -> String {
    format!("http://example.net/packs/{pack:03}")
}

fn last(pack: usize) -> String {
    format!("http://example.net/{FOLDERS}{pack:02x}")
}

fn first(pack: usize) -> String {
    format!("http://example.net/{pack:02x}/{FOLDERS}")
}

/// With its tab and LF it fills its part of the most octets.
fn longest(pack: usize) -> String {
    let (start, length) = (format!("a:/{pack:02x}/"), CATALOGUE / PACKS - 2);
    start
        .chars()
        .chain(FOLDERS.chars().cycle())
        .take(length)
        .collect()
}

/// Packs in a circle by targets that are whole URIs.
fn circle(packs: usize, uri: Uri) -> Made {
    Made::of((0..packs).map(|pack| {
        let value = format!("<{}>; rel=next", uri((pack + 1) % packs));
        (uri(pack), value)
    }))
}

/// What is lent for a walk.
struct Lent {
    links: Vec<usize>,
    params: Vec<usize>,
    work: Vec<u8>,
}

impl Lent {
    fn new() -> Lent {
        let (links, params) = library::slots();
        let work = vec![0; LIMIT];
        Lent {
            links,
            params,
            work,
        }
    }

    fn walk(&mut self, made: &Made, steps: i32) -> [usize; 4] {
        let (links, params) = (&mut self.links, &mut self.params);
        library::walk(
            &made.octets,
            made.start,
            steps,
            links,
            params,
            &mut self.work,
        )
    }

    fn room(&self) -> Room {
        Room {
            link_slots: self.links.len(),
            param_slots: self.params.len(),
            octets: self.work.len(),
        }
    }
}

fn independent(made: &Made, steps: i32, room: Room) -> [usize; 4] {
    let answer = oracle::walk(&made.octets, made.start, steps, room);
    [answer.number, answer.end, answer.pack, answer.steps]
}

/// Both arrive at the same pack.
fn compare(name: &str, made: &Made, steps: i32) {
    let mut lent = Lent::new();
    let room = lent.room();
    let answer = lent.walk(made, steps);
    assert_eq!(answer, independent(made, steps, room), "{name}");
    let taken = steps.unsigned_abs() as usize;
    assert_eq!(
        [answer[1], answer[3]],
        [End::Arrived as usize, taken],
        "{name}"
    );
}

fn line(name: &str, made: &Made, steps: i32) {
    compare(name, made, steps);
    let mut lent = Lent::new();
    let room = lent.room();
    let this = Contender::new(|| lent.walk(made, steps));
    let other = Contender::new(|| independent(made, steps, room));
    let Figures {
        each,
        to_table,
        to_independent,
    } = figures(from_ref(&made.octets), this, other);
    let mut lent = Lent::new();
    let [this, reading] = least([
        Contender::new(|| lent.walk(made, steps)),
        read(&made.values),
    ]);
    let (octets, to_reading) = (made.octets.len(), this / reading);
    let rate = octets as f64 / each;
    println!(
        "| {name} | {octets} | {steps} | {:.1} | {rate:.2} | {to_table:.2} | {to_reading:.2} | {to_independent:.0} |",
        each / 1000.0
    );
}

fn growth(name: &str, made: [Made; 3], steps: i32) {
    made.iter().for_each(|made| compare(name, made, steps));
    let mut lents = [0; 3].map(|_| Lent::new());
    let [a, b, c] = &mut lents;
    let [few, more, most] = least([
        Contender::new(|| a.walk(&made[0], steps)),
        Contender::new(|| b.walk(&made[1], steps)),
        Contender::new(|| c.walk(&made[2], steps)),
    ]);
    println!(
        "| {name} | {steps} | {:.1} | {:.1} | {:.2} | {:.1} | {:.2} |",
        few / 1000.0,
        more / 1000.0,
        more / few,
        most / 1000.0,
        most / more
    );
}
