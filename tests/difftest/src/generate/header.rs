//! Headers derived from an edition's grammar, with the records that this derivation gives.

use super::case::cased;
use super::edition::{self, OLDER};
use super::octets::{
    code, is_escapable, is_further, is_plain, is_token, ALWAYS, FURTHER, LETTERS, ONCE, UNKNOWN,
};
use super::reference::reference;
use crate::numbers::Numbers;
use oracle::PARAM_SLOTS;

/// A header and its records.
#[derive(Default)]
pub struct Derived {
    pub header: Vec<u8>,
    pub links: Vec<[usize; 4]>,
    pub params: Vec<[usize; PARAM_SLOTS]>,
    /// Whether RFC 8288's edition doesn't derive it, also for a parameter that isn't kept.
    pub has_further: bool,
}

/// How much of each part there is at most.
#[derive(Clone, Copy)]
pub struct Sizes {
    pub places: usize,
    pub params: usize,
    pub octets: usize,
}

pub const SHORT: Sizes = Sizes {
    places: 4,
    params: 6,
    octets: 12,
};

/// A header of at most these sizes, in either edition.
pub fn derive_any(numbers: &mut Numbers, sizes: Sizes) -> Derived {
    let edition = edition::known(numbers);
    derive(numbers, edition, sizes)
}

/// A header of at most these sizes.
pub fn derive(numbers: &mut Numbers, edition: usize, sizes: Sizes) -> Derived {
    let mut maker = Maker {
        numbers,
        edition,
        sizes,
        made: Derived::default(),
    };
    maker.field();
    maker.made
}

struct Maker<'n> {
    numbers: &'n mut Numbers,
    edition: usize,
    sizes: Sizes,
    made: Derived,
}

impl Maker<'_> {
    fn put(&mut self, octet: u8) {
        self.made.header.push(octet);
    }

    fn here(&self) -> usize {
        self.made.header.len()
    }

    fn blanks(&mut self) {
        if self.numbers.once_in(3) {
            for _ in 0..self.numbers.small(4) {
                let blank = self.numbers.of(b" \t");
                self.put(blank);
            }
        }
    }

    fn field(&mut self) {
        self.blanks();
        self.place();
        for _ in 0..self.numbers.small(self.sizes.places + 1) {
            self.blanks();
            self.put(b',');
            self.blanks();
            self.place();
        }
        self.blanks();
    }

    fn place(&mut self) {
        if !self.numbers.once_in(5) {
            self.link();
        }
    }

    fn link(&mut self) {
        self.put(b'<');
        let start = self.here();
        let target = reference(self.numbers, self.sizes.octets);
        self.made.header.extend(target);
        let end = self.here();
        self.put(b'>');
        let first = self.made.params.len();
        let mut names = vec![];
        for _ in 0..self.numbers.small(self.sizes.params + 1) {
            self.blanks();
            self.put(b';');
            self.blanks();
            self.param(&mut names);
        }
        let count = self.made.params.len() - first;
        self.made.links.push([start, end, first, count]);
    }

    /// The names are those of the link's parameters before this one.
    fn param(&mut self, names: &mut Vec<Vec<u8>>) {
        let start = self.here();
        self.name();
        let end = self.here();
        let name = self.made.header[start..end].to_ascii_lowercase();
        self.blanks();
        let [value_start, value_end, form] = self.value(end, &name);
        let kept = !(ONCE.contains(&&name[..]) && names.contains(&name));
        if kept {
            let record = [start, end, value_start, value_end, form, code(&name)];
            self.made.params.push(record);
        }
        names.push(name);
    }

    fn name(&mut self) {
        let word = match self.numbers.below(10) {
            0 => self.numbers.of(UNKNOWN),
            1 | 2 => self.numbers.of(ALWAYS),
            3 | 4 => b"rel",
            5..8 => self.numbers.of(ONCE),
            _ => return self.token(),
        };
        let name = cased(self.numbers, word);
        self.made.header.extend(name);
    }

    fn token(&mut self) {
        for _ in 0..=self.numbers.small(self.sizes.octets) {
            self.one_of(is_token);
        }
    }

    /// A bare value with an octet that no token has.
    fn further(&mut self) {
        const ADDRESSES: [&[u8]; 4] = [b"http://a/b", b"/", b"x:y", b"//a@b?c=[d]"];
        if self.numbers.once_in(3) {
            let address = self.numbers.of(&ADDRESSES);
            return self.made.header.extend(address);
        }
        let last = self.numbers.small(self.sizes.octets);
        let at = self.numbers.below(last + 1);
        for place in 0..=last {
            if place == at {
                let mark = self.numbers.of(FURTHER);
                self.put(mark);
            } else {
                self.one_of(|octet| is_token(octet) || is_further(octet));
            }
        }
    }

    /// The value's places and form; the name's end and the name are given.
    fn value(&mut self, name_end: usize, name: &[u8]) -> [usize; 3] {
        let forms = if self.edition == OLDER { 7 } else { 5 };
        let form = self.numbers.below(forms);
        if form == 0 {
            return [name_end, name_end, 0];
        }
        self.put(b'=');
        self.blanks();
        let start = self.here();
        if form < 3 {
            self.token();
            return [start, self.here(), 1];
        }
        if form > 4 {
            self.made.has_further = true;
            self.further();
            return [start, self.here(), 3];
        }
        self.put(b'"');
        if name == b"rel" && self.numbers.once_in(2) {
            self.relations();
        } else {
            self.inside();
        }
        let end = self.here();
        self.put(b'"');
        [start + 1, end, 2]
    }

    /// Octets inside the quotes, of all kinds.
    fn inside(&mut self) {
        for _ in 0..self.numbers.small(self.sizes.octets) {
            match self.numbers.below(5) {
                0 => {
                    self.put(b'\\');
                    self.one_of(is_escapable);
                }
                1 => {
                    self.put(b'\\');
                    let marked = self.numbers.of(b"\"\\ ,;<");
                    self.put(marked);
                }
                _ => self.one_of(is_plain),
            }
        }
    }

    /// Relations parted by spaces, either of which may be escaped.
    fn relations(&mut self) {
        const WORDS: [&[u8]; 6] = [b"next", b"PREV", b"a", b"b-c", b"http://a/b", b"x\ty"];
        for _ in 0..self.numbers.small(6) {
            let word = self.numbers.of(&WORDS);
            let parted = &b"  "[..self.numbers.below(3)];
            for &octet in [parted, word].concat().iter() {
                if self.numbers.once_in(6) {
                    self.put(b'\\');
                }
                self.put(octet);
            }
        }
        if self.numbers.once_in(3) {
            self.put(b' ');
        }
    }

    /// One octet of the set: mostly a letter where letters are in it.
    fn one_of(&mut self, set: fn(u8) -> bool) {
        let mut octet = match self.numbers.once_in(2) {
            true => self.numbers.of(LETTERS),
            false => self.numbers.octet(),
        };
        while !set(octet) {
            octet = self.numbers.octet();
        }
        self.put(octet);
    }
}
