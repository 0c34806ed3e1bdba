//! What the program `vectors` prints: named cases, their listings, and what
//! is asked of the tables.

use crate::context::{context, TEXT};
use crate::listing::{line, listed, LINK_ROOM, PARAM_ROOM, RFC_8288};
use crate::number::DONE;
use crate::read::ReadAnswer;
use crate::record::PARAM_SLOTS;
use crate::search::search;
use crate::value::value;
use crate::write::write;

/// The numbers of the editions that each header of the input is read in.
const EDITIONS: [usize; 2] = [0, 1];
const LENGTHS: [usize; 3] = [8191, 8192, 8193];
/// It has two links and three parameters.
const ROOMY: &[u8] = b"<a>;x;y,<b>;z";
const ROOMS: [(usize, usize); 6] = [(8, 18), (11, 23), (7, 18), (8, 17), (7, 17), (0, 0)];

const RELATION: &[u8] = b"next";
const BASE: &[u8] = b"BASE";
const VALUE_ROOM: usize = 32;
const WRITTEN_ROOM: usize = 512;

/// The cases of the headers in the input, one a line, in each edition, and
/// those at the edges of lengths and rooms.
pub fn vectors(input: &[u8]) -> Vec<u8> {
    let mut out = vec![];
    for line in input.split_inclusive(|&octet| octet == b'\n') {
        let header = line.strip_suffix(b"\n").unwrap_or(line);
        for edition in EDITIONS {
            put_header(&mut out, edition, header);
        }
    }
    for length in LENGTHS {
        let mut header = vec![b'a'; length];
        header[0] = b'<';
        header[length - 1] = b'>';
        let name = format!("octets {length}");
        let name = name.as_bytes();
        put_case(&mut out, RFC_8288, name, &header, &mut [0; 4], &mut []);
    }
    for (links, params) in ROOMS {
        let name = format!("slots {links} {params}");
        let (mut link_slots, mut param_slots) = (vec![0; links], vec![0; params]);
        put_case(
            &mut out,
            RFC_8288,
            name.as_bytes(),
            ROOMY,
            &mut link_slots,
            &mut param_slots,
        );
    }
    out
}

/// A header that is its own name, behind the edition's number; if it is read,
/// the table is asked too.
fn put_header(out: &mut Vec<u8>, edition: usize, header: &[u8]) {
    let name = [format!("{edition} ").as_bytes(), header].concat();
    let mut link_slots = [0; LINK_ROOM * 4];
    let mut param_slots = [0; PARAM_ROOM * PARAM_SLOTS];
    let answer = put_case(
        out,
        edition,
        &name,
        header,
        &mut link_slots,
        &mut param_slots,
    );
    if answer.number == DONE {
        put_asked(out, edition, header, &link_slots, &param_slots, answer);
    }
}

/// The name of the case behind `#`, and the listing of the header.
fn put_case(
    out: &mut Vec<u8>,
    edition: usize,
    name: &[u8],
    header: &[u8],
    link_slots: &mut [usize],
    param_slots: &mut [usize],
) -> ReadAnswer {
    out.extend_from_slice(&[b"# ", name, b"\n"].concat());
    let (lines, answer) = listed(edition, header, link_slots, param_slots);
    out.extend_from_slice(lines.as_bytes());
    answer
}

/// The link that has the relation, the first link's context, the value of its
/// first parameter, and the table's written form.
fn put_asked(
    out: &mut Vec<u8>,
    edition: usize,
    text: &[u8],
    link_slots: &[usize],
    param_slots: &[usize],
    ReadAnswer { links, params, .. }: ReadAnswer,
) {
    let (number, link) = search(
        edition,
        text,
        link_slots,
        param_slots,
        links,
        params,
        RELATION,
    );
    out.extend_from_slice(line("search", &[number, link]).as_bytes());

    let (number, part_of, start, end) = context(
        edition,
        text,
        BASE,
        link_slots,
        param_slots,
        links,
        params,
        0,
    );
    let whole = if part_of == TEXT { text } else { BASE };
    put_octets(out, "context", number, &whole[start..end]);

    let mut room = [0; VALUE_ROOM];
    let (number, length) = value(
        edition,
        text,
        link_slots,
        param_slots,
        links,
        params,
        0,
        0,
        &mut room,
    );
    put_octets(out, "value", number, &room[..length]);

    let mut room = [0; WRITTEN_ROOM];
    let (number, length) = write(
        edition,
        text,
        link_slots,
        param_slots,
        links,
        params,
        &mut room,
    );
    put_octets(out, "written", number, &room[..length]);
}

/// A word, a number, and octets behind their length.
fn put_octets(out: &mut Vec<u8>, word: &str, number: usize, octets: &[u8]) {
    let start = format!("{word}\t{number}\t{}\t", octets.len());
    out.extend_from_slice(&[start.as_bytes(), octets, b"\n"].concat());
}
