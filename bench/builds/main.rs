//! Times copies of the library in turn. `compare` makes the list of them (`copies.rs`), and compiles
//! this.

mod copies;
mod different;
mod headers;

use copies::{COPIES, LAYOUTS};
use std::hint::black_box;
use std::mem::transmute;
use std::time::{Duration, Instant};

pub struct Copy {
    pub name: &'static str,
    pub takes_edition: bool,
    /// How many numbers its parameter records have.
    pub param_slots: usize,
    pub read: *const (),
    pub search: *const (),
    pub context: *const (),
    pub write: *const (),
}

#[repr(C)]
#[derive(Clone, Debug, PartialEq)]
struct ReadAnswer {
    number: usize,
    place: usize,
    links: usize,
    params: usize,
}

#[repr(C)]
#[derive(Clone, Debug, PartialEq)]
struct ContextAnswer {
    number: usize,
    source: usize,
    start: usize,
    end: usize,
}

#[repr(C)]
#[derive(Clone, Debug, PartialEq)]
struct TwoAnswer {
    number: usize,
    other: usize,
}

/// RFC 8288's.
const EDITION: usize = 0;

/// Calls an entry of a copy, with the edition before its arguments if it takes one.
macro_rules! call {
    ($copy:ident . $entry:ident ( $($argument:expr => $kind:ty,)+ ) -> $answer:ty) => {{
        // SAFETY: a copy has the signatures of the C header, and each pointer comes with the count of
        // what it points to.
        if $copy.takes_edition {
            type Entry = unsafe extern "C" fn(usize, $($kind),+) -> $answer;
            unsafe { transmute::<_, Entry>($copy.$entry)(EDITION, $($argument),+) }
        } else {
            type Entry = unsafe extern "C" fn($($kind),+) -> $answer;
            unsafe { transmute::<_, Entry>($copy.$entry)($($argument),+) }
        }
    }};
}

/// Calls an entry over a table: the text, what stands between it and the table, the table with its
/// counts, and the rest.
macro_rules! ask {
    ($copy:ident . $entry:ident ( $text:ident, $t:ident, $a:ident;
        $($between:expr => $between_kind:ty,)*; $($rest:expr => $kind:ty,)+ ) -> $answer:ty) => {
        call!($copy.$entry(
            black_box($text.as_ptr()) => *const u8,
            $text.len() => usize,
            $($between => $between_kind,)*
            $t.links.as_ptr() => *const usize,
            $t.links.len() => usize,
            $t.params.as_ptr() => *const usize,
            $t.params.len() => usize,
            $a.links => usize,
            $a.params => usize,
            $($rest => $kind,)+
        ) -> $answer)
    };
}

const SAMPLE: Duration = Duration::from_micros(30);

struct Tables {
    links: Vec<usize>,
    params: Vec<usize>,
}

impl Tables {
    fn new(copy: &Copy) -> Tables {
        Tables {
            links: vec![0; 4 * 256],
            params: vec![0; copy.param_slots * 1024],
        }
    }
}

fn read(copy: &Copy, header: &[u8], t: &mut Tables) -> ReadAnswer {
    call!(copy.read(
        black_box(header.as_ptr()) => *const u8,
        header.len() => usize,
        t.links.as_mut_ptr() => *mut usize,
        t.links.len() => usize,
        t.params.as_mut_ptr() => *mut usize,
        t.params.len() => usize,
    ) -> ReadAnswer)
}

fn search(copy: &Copy, text: &[u8], t: &Tables, a: &ReadAnswer) -> TwoAnswer {
    let query = b"last";
    ask!(copy.search(
        text, t, a;;
        query.as_ptr() => *const u8,
        query.len() => usize,
    ) -> TwoAnswer)
}

/// The context of the last link.
fn context(copy: &Copy, text: &[u8], t: &Tables, a: &ReadAnswer) -> ContextAnswer {
    let base = b"https://example.org/";
    ask!(copy.context(
        text, t, a;
        base.as_ptr() => *const u8,
        base.len() => usize,;
        a.links - 1 => usize,
    ) -> ContextAnswer)
}

fn write(copy: &Copy, text: &[u8], t: &Tables, a: &ReadAnswer, out: &mut [u8]) -> TwoAnswer {
    ask!(copy.write(
        text, t, a;;
        out.as_mut_ptr() => *mut u8,
        out.len() => usize,
    ) -> TwoAnswer)
}

/// The copies of all archives.
fn all() -> impl Iterator<Item = &'static Copy> {
    COPIES.iter().flat_map(|copies| copies.iter())
}

/// All that a copy answers to a header, with as many numbers of a parameter record as each copy has.
fn answers(copy: &Copy, header: &[u8]) -> impl PartialEq + std::fmt::Debug {
    let shared = all().map(|copy| copy.param_slots).min().unwrap_or(0);
    let mut t = Tables::new(copy);
    let mut out = vec![0; 8192];
    let read = read(copy, header, &mut t);
    let asked = (read.number == 0).then(|| {
        (
            search(copy, header, &t, &read),
            context(copy, header, &t, &read),
            write(copy, header, &t, &read, &mut out),
        )
    });
    let records = t.params.chunks(copy.param_slots);
    let params: Vec<usize> = records
        .flat_map(|record| &record[..shared])
        .copied()
        .collect();
    (read, t.links, params, asked, out)
}

/// The least ns of a call of each; they take turns, each time another one first.
fn least(calls: &mut [Box<dyn FnMut() + '_>], rounds: usize) -> Vec<f64> {
    let mut time = |call: &mut Box<dyn FnMut() + '_>, times: u32| {
        let start = Instant::now();
        for _ in 0..times {
            call();
        }
        start.elapsed()
    };
    let mut times = 1;
    while time(&mut calls[0], times) < SAMPLE && times < 1 << 20 {
        times *= 2;
    }
    let count = calls.len();
    let mut least = vec![f64::INFINITY; count];
    for round in 0..rounds {
        for step in 0..count {
            let which = (round + step) % count;
            let took = time(&mut calls[which], times).as_nanos() as f64 / f64::from(times);
            least[which] = least[which].min(took);
        }
    }
    least
}

fn calls<'a>(entry: &str, texts: &'a [Vec<u8>]) -> Vec<Box<dyn FnMut() + 'a>> {
    let mut calls: Vec<Box<dyn FnMut() + 'a>> = vec![];
    for copy in all() {
        let mut t = Tables::new(copy);
        let first = &texts[0];
        match entry {
            "read" => calls.push(Box::new(move || {
                for text in texts {
                    black_box(read(copy, text, &mut t));
                }
            })),
            "search" => {
                let a = read(copy, first, &mut t);
                calls.push(Box::new(move || {
                    drop(black_box(search(copy, first, &t, &a)))
                }))
            }
            "context" => {
                let a = read(copy, first, &mut t);
                calls.push(Box::new(move || {
                    drop(black_box(context(copy, first, &t, &a)))
                }))
            }
            "write" => {
                let a = read(copy, first, &mut t);
                let mut out = vec![0; 8192];
                calls.push(Box::new(move || {
                    drop(black_box(write(copy, first, &t, &a, &mut out)))
                }))
            }
            other => panic!("no entry {other}"),
        }
    }
    calls
}

fn setting(name: &str, usual: &str) -> String {
    std::env::var(name).unwrap_or(usual.to_string())
}

fn main() {
    let rounds: usize = setting("ROUNDS", "3000")
        .parse()
        .expect("ROUNDS is a number");
    let only = setting("ONLY", "");
    for (archive, copies) in COPIES.iter().enumerate() {
        println!(
            "{archive}: {}",
            copies[0]
                .name
                .trim_end_matches(|c: char| c.is_ascii_digit())
                .trim_end_matches(" +")
        );
        let bases: Vec<String> = copies
            .iter()
            .map(|copy| format!("{:#x}", copy.read as usize))
            .collect();
        println!("   capstan_read at {}", bases.join(" "));
        println!("   parameter records of {}", copies[0].param_slots);
    }
    let shifts: Vec<String> = LAYOUTS.iter().map(|shift| format!("+{shift:<6}")).collect();
    println!(
        "\n     {:<8}{:<34}{:>9}  {}{}",
        "entry",
        "header",
        "before ns",
        shifts.join(""),
        "mean    least/least  before, slowest/fastest layout"
    );
    for entry in setting("ENTRIES", "read").split_whitespace() {
        for (name, texts) in headers::to_read() {
            let asks = entry != "read";
            if (!only.is_empty() && only != name)
                || (asks && (name == "malformed" || texts.len() > 1))
            {
                continue;
            }
            line(entry, name, &texts, rounds);
        }
    }
}

fn line(entry: &str, name: &str, texts: &[Vec<u8>], rounds: usize) {
    for text in texts {
        let expected = answers(&COPIES[0][0], text);
        for copy in all() {
            assert!(
                answers(copy, text) == expected,
                "{}: {name} differs",
                copy.name
            );
        }
    }
    let times = least(&mut calls(entry, texts), rounds);
    let layouts = LAYOUTS.len();
    let before = &times[..layouts];
    let smallest = |times: &[f64]| times.iter().copied().fold(f64::INFINITY, f64::min);
    for (number, after) in (1..).zip(times[layouts..].chunks(layouts)) {
        let ratios: Vec<f64> = after
            .iter()
            .zip(before)
            .map(|(after, before)| after / before)
            .collect();
        let mean = ratios.iter().sum::<f64>() / layouts as f64;
        let shown: Vec<String> = ratios.iter().map(|ratio| format!("{ratio:<7.3}")).collect();
        let each = smallest(before) / texts.len() as f64;
        let slowest = before.iter().copied().fold(0.0, f64::max);
        let (best, alone) = (
            smallest(after) / smallest(before),
            slowest / smallest(before),
        );
        println!(
            "{number}/0  {entry:<8}{name:<34}{each:>9.1}  {}{mean:<8.3}{best:<13.3}{alone:.3}",
            shown.join("")
        );
    }
}
