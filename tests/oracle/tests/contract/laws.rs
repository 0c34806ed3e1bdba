//! Laws, run over many small headers.

use crate::editions::FURTHER;
use crate::{read_amply, read_in, refusal, Tables, EDITIONS};
use oracle::number::MALFORMED;
use oracle::{is_reference, Feeding, ReadAnswer};

/// A fixed run of numbers that look random.
struct Numbers(u64);

impl Numbers {
    fn below(&mut self, bound: usize) -> usize {
        self.0 = self
            .0
            .wrapping_mul(6364136223846793005)
            .wrapping_add(1442695040888963407);
        (self.0 >> 33) as usize % bound
    }

    /// A header put together from pieces that often fit.
    fn header(&mut self) -> Vec<u8> {
        const PIECES: [&str; 29] = [
            "<a>",
            "<>",
            "<b,c;%41>",
            "<a://[::1]>",
            "<1:a>",
            "<b#c#%41>",
            "<",
            "[",
            "1:%41",
            ">",
            ";",
            " ;\t",
            ";rel=x",
            "; rel=\"y Z\"",
            ";REL = \"\\z\"",
            ";title*=t",
            ";hreflang",
            ";w=\"\\\",\"",
            ";rel=b/",
            ";v=<",
            "=(",
            ":",
            ",",
            " , ",
            " ",
            "\"",
            "x",
            "=",
            "%",
        ];
        let count = self.below(8);
        let pieces: Vec<&str> = (0..count)
            .map(|_| PIECES[self.below(PIECES.len())])
            .collect();
        pieces.concat().into_bytes()
    }

    fn accepted(&mut self, edition: usize) -> (Vec<u8>, ReadAnswer, Tables) {
        loop {
            let header = self.header();
            let (answer, tables) = read_amply(edition, &header);
            if answer.number == 0 {
                return (header, answer, tables);
            }
        }
    }
}

/// Where the target ends that starts in that place, if it has a `>` and is no
/// reference.
fn wrong_target(header: &[u8], start: usize) -> Option<usize> {
    let before = header[..start].last();
    let length = header[start..].iter().position(|&octet| octet == b'>')?;
    let target = &header[start..start + length];
    // In a query all octets of targets but three may stand, and triples.
    let plain: Vec<u8> = target
        .iter()
        .map(|&octet| if b"#[]".contains(&octet) { b'a' } else { octet })
        .collect();
    let is_target = is_reference(&[b"?", &plain[..]].concat());
    let wrong = before == Some(&b'<') && is_target && !is_reference(target);
    wrong.then_some(start + length)
}

/// Whether the grammar derives the header, whatever its targets are: those that
/// are wrong are put right first.
fn derivable(edition: usize, header: &[u8]) -> bool {
    let mut header = header.to_vec();
    loop {
        let answer = oracle::read(edition, &header, &mut [], &mut []);
        if answer.number != MALFORMED {
            return true;
        }
        let Some(end) = wrong_target(&header, answer.place) else {
            return false;
        };
        header[answer.place..end].fill(b'a');
    }
}

/// Whether the prefix begins a derivable header. What is open at its end can
/// be closed by at most three octets of these four.
fn begins_a_header(edition: usize, prefix: &[u8]) -> bool {
    let mut headers = vec![prefix.to_vec()];
    for _ in 0..4 {
        if headers.iter().any(|header| derivable(edition, header)) {
            return true;
        }
        let longer = |header: &Vec<u8>| b"0>x\"".map(|octet| [&header[..], &[octet]].concat());
        headers = headers.iter().flat_map(longer).collect();
    }
    false
}

#[test]
fn the_place_is_a_wrong_targets_or_the_longest_prefix_that_begins_a_header() {
    // What begins a header has only prefixes that do, so one octet more is
    // enough to look at.
    let mut numbers = Numbers(1);
    let (mut malformed, mut wrong) = (0, 0);
    while malformed < 1000 || wrong < 200 {
        let edition = numbers.below(2);
        let mut header = numbers.header();
        if numbers.below(3) == 0 {
            let at = numbers.below(header.len() + 1);
            header.insert(at, numbers.below(256) as u8);
        }
        let (answer, _) = read_amply(edition, &header);
        if answer.number == 0 {
            continue;
        }
        let place = answer.place;
        assert_eq!(answer.number, MALFORMED);
        if let Some(end) = wrong_target(&header, place) {
            wrong += 1;
            assert!(begins_a_header(edition, &header[..=end]), "{header:?}");
            continue;
        }
        malformed += 1;
        assert!(begins_a_header(edition, &header[..place]), "{header:?}");
        let longer = header.get(..place + 1);
        let begins = longer.is_some_and(|longer| begins_a_header(edition, longer));
        assert!(!begins, "{header:?}");
    }
}

#[test]
fn a_wrong_target_gives_the_place_and_a_right_one_changes_nothing() {
    const TARGETS: [&str; 10] = [
        "b:c", "1:c", "b#c", "##c", "?[c", "%41", ":%41", "//[::]", "//[:]", "//b:c",
    ];
    let mut numbers = Numbers(7);
    let mut wrong = 0;
    while wrong < 1000 {
        let edition = numbers.below(2);
        let (mut header, _, _) = numbers.accepted(edition);
        let target = TARGETS[numbers.below(TARGETS.len())].as_bytes();
        header.extend(b",<");
        let start = header.len();
        let behind = [b">", &numbers.header()[..]].concat();
        let plain = [&header[..], &b"a".repeat(target.len()), &behind].concat();
        let whole = [&header[..], target, &behind].concat();
        let (mut expected, _) = read_amply(edition, &plain);
        if !is_reference(target) {
            wrong += 1;
            expected = refusal(MALFORMED, start);
        }
        assert_eq!(read_amply(edition, &whole).0, expected, "{whole:?}");
    }
}

#[test]
fn a_feed_is_done_exactly_if_its_octets_begin_a_header_and_no_target_is_wrong() {
    let mut numbers = Numbers(4);
    let mut buffer = vec![0; 8192];
    for _ in 0..1000 {
        let edition = numbers.below(2);
        let header = numbers.header();
        let cut = numbers.below(header.len() + 1);
        let mut feeding = Feeding::start(edition);
        for (part, fed) in [(&header[..cut], cut), (&header[cut..], header.len())] {
            let so_far = &header[..fed];
            let (number, _) = feeding.feed(part, &mut buffer);
            let place = read_amply(edition, so_far).0.place;
            let done = begins_a_header(edition, so_far) && wrong_target(so_far, place).is_none();
            assert_eq!(number, if done { 0 } else { MALFORMED }, "{header:?}");
        }
    }
}

#[test]
fn every_cut_of_an_accepted_header_has_its_own_length_as_place() {
    let newer = br#" <a%4f> ; x = "\"y" ; z ,, <b>;rel=c "#;
    let older = b"<a>;x==<b>;y = (/),<c>;rel=d:e";
    for (edition, header) in [(0, &newer[..]), (1, newer), (1, older)] {
        assert!(derivable(edition, header));
        for cut in 0..header.len() {
            let (answer, _) = read_amply(edition, &header[..cut]);
            let place = if answer.number == 0 { 0 } else { cut };
            assert_eq!(answer.place, place);
        }
    }
}

#[test]
fn a_join_reads_as_its_headers() {
    let mut numbers = Numbers(2);
    for _ in 0..2000 {
        let edition = numbers.below(2);
        let mut join = vec![];
        let mut links = vec![];
        let mut params = vec![];
        for place in 0..numbers.below(5) {
            let (header, _, tables) = numbers.accepted(edition);
            if place > 0 {
                join.push(b',');
            }
            join.extend(vec![b' '; numbers.below(3)]);
            let (raised, former) = (join.len(), params.len());
            for &[start, end, first, count] in tables.link_slots.as_chunks().0 {
                links.push([start + raised, end + raised, first + former, count]);
            }
            for &[a, b, c, d, form, code] in tables.param_slots.as_chunks().0 {
                params.push([a + raised, b + raised, c + raised, d + raised, form, code]);
            }
            join.extend(header);
            join.extend(vec![b'\t'; numbers.below(3)]);
        }
        let (answer, tables) = read_in(edition, &join, links.len(), params.len());
        assert_eq!(answer.number, 0);
        assert_eq!(tables.link_slots, links.concat());
        assert_eq!(tables.param_slots, params.concat());
    }
}

#[test]
fn what_is_written_reads_back_in_each_edition() {
    let mut numbers = Numbers(3);
    let mut written = 0;
    while written < 2000 {
        let edition = numbers.below(2);
        let (_, answer, tables) = numbers.accepted(edition);
        let Ok(form) = tables.write(8192) else {
            continue;
        };
        written += 1;
        for edition in EDITIONS {
            let (again, back) = read_in(edition, &form, answer.links, answer.params);
            assert_eq!(again, answer);
            assert_eq!(back.meanings(), tables.meanings());
            assert_eq!(back.write(form.len()).as_ref(), Ok(&form));
        }
    }
}

#[test]
fn the_older_edition_reads_the_same_of_what_the_newer_accepts() {
    let mut numbers = Numbers(5);
    for _ in 0..2000 {
        let (header, answer, tables) = numbers.accepted(0);
        let (older_answer, older) = read_amply(1, &header);
        assert_eq!(older_answer, answer);
        assert_eq!(older.link_slots, tables.link_slots);
        assert_eq!(older.param_slots, tables.param_slots);
        assert_eq!(older.meanings(), tables.meanings());
    }
}

#[test]
fn only_behind_an_octet_that_it_adds_does_the_older_edition_answer_otherwise() {
    let mut numbers = Numbers(6);
    let mut added = 0;
    while added < 500 {
        let mut header = numbers.header();
        let at = numbers.below(header.len() + 1);
        header.insert(at, numbers.below(256) as u8);
        let [newer, older] = EDITIONS.map(|edition| read_amply(edition, &header).0);
        let octet = header.get(newer.place);
        if newer.number == MALFORMED && octet.is_some_and(|octet| FURTHER.contains(octet)) {
            added += 1;
            assert!(older.number == 0 || older.place >= newer.place);
        } else {
            assert_eq!(older, newer, "{header:?}");
        }
    }
}
