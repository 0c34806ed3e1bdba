//! The contenders that more than one table has. Each takes the headers, or what else is asked, in turn.

use crate::clock::Contender;
use crate::library::{self, EDITION, LIMIT};
use std::hint::black_box;

/// How often something short is asked at once: a call takes but a few ns.
pub const TIMES: usize = 500;

pub fn asked<'a, T, A>(all: &'a [T], ask: impl Fn(&'a T) -> A + 'a) -> Contender<'a> {
    Contender::new(move || {
        for one in all {
            black_box(ask(one));
        }
    })
}

pub fn table_loop(texts: &[Vec<u8>]) -> Contender<'_> {
    Contender::new(move || {
        for text in texts {
            black_box(library::commas(text));
        }
    })
}

pub fn read(headers: &[Vec<u8>]) -> Contender<'_> {
    read_in(EDITION, headers)
}

pub fn read_in(edition: usize, headers: &[Vec<u8>]) -> Contender<'_> {
    let (mut links, mut params) = library::slots();
    Contender::new(move || {
        for header in headers {
            black_box(library::read(edition, header, &mut links, &mut params));
        }
    })
}

/// A start, and feeds of parts of that many octets.
pub fn fed(headers: &[Vec<u8>], size: usize) -> Contender<'_> {
    let mut buffer = vec![0; LIMIT];
    Contender::new(move || {
        for header in headers {
            black_box(library::feed(header, size, &mut buffer));
        }
    })
}

/// The finish alone. Each buffer starts where the octets of the one before it end, so that they lie as close as the headers do.
pub fn finish(headers: &[Vec<u8>]) -> Contender<'_> {
    let octets = headers.iter().map(Vec::len).sum::<usize>();
    let mut buffers = vec![0; octets + LIMIT];
    let mut end = 0;
    let mut gather = |header: &Vec<u8>| {
        let start = end;
        end += header.len();
        (library::feed(header, LIMIT, &mut buffers[start..]), start)
    };
    let fed: Vec<_> = headers.iter().map(&mut gather).collect();
    let (mut links, mut params) = library::slots();
    Contender::new(move || {
        for &(state, start) in &fed {
            let buffer = &buffers[start..];
            black_box(library::finish(state, buffer, &mut links, &mut params));
        }
    })
}
