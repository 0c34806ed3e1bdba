//! A header in parts: what each feed and the finish answer, and what the
//! buffer then holds.

use crate::{read_amply, read_in, refusal, EDITIONS, HELD, HELD_OCTET};
use oracle::{Feeding, ReadAnswer, PARAM_SLOTS};

/// A feeding with its buffer.
struct Fed {
    feeding: Feeding,
    buffer: Vec<u8>,
}

impl Fed {
    fn new() -> Fed {
        Fed::start(0)
    }

    fn start(edition: usize) -> Fed {
        Fed {
            feeding: Feeding::start(edition),
            buffer: vec![HELD_OCTET; 9000],
        }
    }

    fn of(part: &[u8]) -> Fed {
        let mut fed = Fed::new();
        fed.feed(part);
        fed
    }

    /// Number and place; a refusal must leave the buffer as it was.
    fn feed(&mut self, part: &[u8]) -> (usize, usize) {
        let before = self.buffer.clone();
        let answer = self.feeding.feed(part, &mut self.buffer);
        assert!(answer.0 == 0 || self.buffer == before);
        answer
    }

    /// Feeds in so small a buffer that nothing comes of it.
    fn feed_in(&mut self, part: &[u8], room: usize) -> (usize, usize) {
        let mut small = vec![HELD_OCTET; room];
        let answer = self.feeding.feed(part, &mut small);
        assert!(small.iter().all(|&octet| octet == HELD_OCTET));
        answer
    }

    fn holds(&self, octets: &[u8]) -> bool {
        let (start, rest) = self.buffer.split_at(octets.len());
        start == octets && rest.iter().all(|&octet| octet == HELD_OCTET)
    }

    fn finish(&self) -> ReadAnswer {
        self.finish_in(&mut [HELD; 4 * 2731], &mut [HELD; PARAM_SLOTS * 4096])
    }

    fn finish_in(&self, link_slots: &mut [usize], param_slots: &mut [usize]) -> ReadAnswer {
        self.feeding.finish(&self.buffer, link_slots, param_slots)
    }
}

#[test]
fn parts_gather_in_the_buffer() {
    let mut fed = Fed::new();
    for (part, whole) in [
        ("<a", "<a"),
        ("", "<a"),
        (">;re", "<a>;re"),
        ("l", "<a>;rel"),
    ] {
        assert_eq!(fed.feed(part.as_bytes()), (0, 0));
        assert!(fed.holds(whole.as_bytes()), "{whole}");
    }
    let mut links = [HELD; 5];
    let mut params = [HELD; PARAM_SLOTS + 1];
    let answer = fed.finish_in(&mut links, &mut params);
    assert_eq!((answer.number, answer.links, answer.params), (0, 1, 1));
    assert_eq!(links, [1, 2, 0, 1, HELD]);
    assert_eq!(params, [4, 7, 7, 7, 0, 1, HELD]);
}

#[test]
fn nothing_fed_is_the_empty_header() {
    assert_eq!(Fed::new().finish(), ReadAnswer::default());
    assert_eq!(Fed::new().feed(b""), (0, 0));
}

#[test]
fn a_header_cut_short_is_malformed_at_the_finish_only() {
    let mut fed = Fed::of(b"<a>;t=\"b");
    assert_eq!(fed.finish(), refusal(2, 8));
    assert_eq!(fed.finish(), refusal(2, 8));
    assert_eq!(fed.feed(b"\""), (0, 0));
    assert_eq!((fed.finish().number, fed.finish().params), (0, 1));
}

#[test]
fn the_place_counts_from_the_first_part_and_stays() {
    for (first, second, place) in [
        ("<a> ", "<b>", 4),
        ("<a> <", "b>", 4),
        ("<a%4", "g>", 4),
        ("<a%", "4g>", 4),
        ("", "x", 0),
        ("<a>;t=\"\\", "\n\"", 8),
    ] {
        let mut fed = Fed::of(first.as_bytes());
        let held = fed.buffer.clone();
        assert_eq!(fed.feed(second.as_bytes()), (2, place));
        assert_eq!(fed.buffer, held);
        assert_eq!(fed.feed(b""), (2, place));
        assert_eq!(fed.feed(b">;rel=x"), (2, place));
        assert_eq!(fed.finish(), refusal(2, place));
    }
}

#[test]
fn past_the_limit_it_is_too_long_for_good() {
    for first in [&b" "[..], b"x"] {
        let mut fed = Fed::of(first);
        let so_far = if first == b"x" { (2, 0) } else { (0, 0) };
        assert_eq!(fed.feed(&[b' '; 8190]), so_far);
        assert_eq!(fed.feed(b" "), so_far);
        for part in [&b" "[..], b"", b"<", &[b' '; 70_000]] {
            assert_eq!(fed.feed(part), (1, 0));
            assert_eq!(fed.finish(), refusal(1, 0));
        }
    }
}

#[test]
fn a_small_buffer_is_refused_first_and_its_part_does_not_count() {
    for (first, number) in [(&b"<"[..], 0), (b"x", 2), (&[b' '; 8193], 1)] {
        for room in [0, 1, 8191] {
            let mut fed = Fed::of(first);
            assert_eq!(fed.feed_in(b"y", room), (7, 0));
            assert_eq!(fed.feed_in(&[b'y'; 9000], room), (7, 0));
            assert_eq!(fed.feed(b""), (number, 0));
            let answer = fed.feeding.finish(&vec![0; room], &mut [], &mut []);
            assert_eq!(answer, refusal(7, 0));
        }
    }
    let mut exact = [HELD_OCTET; 8192];
    assert_eq!(Feeding::start(0).feed(b"<", &mut exact), (0, 0));
}

#[test]
fn every_cut_finishes_as_the_whole_is_read() {
    for header in [
        &br#" <a%4f> ; x = "\"y" ; z ,, <b>;rel=c "#[..],
        b"<a>;rel=next;",
        b"<a>, <b> <c>",
        b"<a>;rel=/b, <c>; x = ==<d>;y/z",
    ] {
        for edition in EDITIONS {
            every_cut_finishes_so(edition, header);
        }
    }
}

fn every_cut_finishes_so(edition: usize, header: &[u8]) {
    for cut in 0..=header.len() {
        let (first, second) = header.split_at(cut);
        let mut fed = Fed::start(edition);
        fed.feed(first);
        fed.feed(second);
        assert_eq!(fed.finish(), read_amply(edition, header).0);
        for (links, params) in [(0, 9), (9, 0), (1, 1), (2, 3)] {
            let mut slots = (vec![HELD; 4 * links], vec![HELD; PARAM_SLOTS * params]);
            let answer = fed.finish_in(&mut slots.0, &mut slots.1);
            assert_eq!(answer, read_in(edition, header, links, params).0);
        }
    }
}

#[test]
fn the_older_edition_is_kept_through_the_feeds() {
    let mut fed = Fed::start(1);
    for part in ["<a>;rel=", "b", "/", "", "<c", ">,<", "d>"] {
        assert_eq!(fed.feed(part.as_bytes()), (0, 0));
    }
    assert!(fed.holds(b"<a>;rel=b/<c>,<d>"));
    let (mut links, mut params) = ([HELD; 8], [HELD; PARAM_SLOTS]);
    let answer = fed.finish_in(&mut links, &mut params);
    assert_eq!((answer.number, answer.links, answer.params), (0, 2, 1));
    assert_eq!(params, [4, 7, 8, 13, 3, 1]);
    assert_eq!(Fed::of(b"<a>;rel=b").feed(b"/"), (2, 9));
}

#[test]
fn an_unknown_edition_is_refused_first_and_its_parts_do_not_count() {
    for edition in [2, 3, usize::MAX] {
        let mut fed = Fed::start(edition);
        for part in [&b"<a>"[..], b"", b"x", &[b' '; 9000]] {
            assert_eq!(fed.feed(part), (10, 0));
            assert_eq!(fed.feed_in(part, 0), (10, 0));
            assert_eq!(fed.finish(), refusal(10, 0));
            let answer = fed.feeding.finish(&[0; 8191], &mut [], &mut []);
            assert_eq!(answer, refusal(10, 0));
        }
        assert!(fed.holds(b""));
    }
}
