//! References made by RFC 3986's grammar, part by part.

use super::octets::{is_free, HEX, LETTERS};
use crate::numbers::Numbers;

const DIGITS: &[u8] = b"0123456789";

/// A reference whose parts have fewer octets than that each; one in brackets may have more.
pub fn reference(numbers: &mut Numbers, most: usize) -> Vec<u8> {
    let mut maker = Maker {
        numbers,
        most: most.div_ceil(3),
        made: vec![],
    };
    maker.reference();
    maker.made
}

struct Maker<'n> {
    numbers: &'n mut Numbers,
    most: usize,
    made: Vec<u8>,
}

impl Maker<'_> {
    fn put(&mut self, octets: &[u8]) {
        self.made.extend(octets);
    }

    /// One of the octets.
    fn one(&mut self, octets: &[u8]) {
        let octet = self.numbers.of(octets);
        self.made.push(octet);
    }

    /// Free octets, triples and these marks, mostly few of them.
    fn free(&mut self, marks: &[u8]) {
        for _ in 0..self.numbers.small(self.most) {
            match self.numbers.below(8) {
                0 => self.triple(),
                1..4 if !marks.is_empty() => self.one(marks),
                4..6 => self.any_free(),
                _ => self.one(LETTERS),
            }
        }
    }

    fn any_free(&mut self) {
        let mut octet = self.numbers.octet();
        while !is_free(octet) {
            octet = self.numbers.octet();
        }
        self.made.push(octet);
    }

    fn triple(&mut self) {
        self.put(b"%");
        self.one(HEX);
        self.one(HEX);
    }

    fn reference(&mut self) {
        let has_scheme = self.numbers.once_in(3);
        if has_scheme {
            self.scheme();
        }
        match self.numbers.below(5) {
            0 => {}
            1 | 2 => {
                self.put(b"//");
                self.authority();
                self.segments();
            }
            3 => {
                self.put(b"/");
                self.rootless(true);
            }
            _ => self.rootless(has_scheme),
        }
        for mark in [b"?", b"#"] {
            if self.numbers.once_in(4) {
                self.put(mark);
                self.free(b":@/?");
            }
        }
    }

    fn scheme(&mut self) {
        self.one(LETTERS);
        for _ in 0..self.numbers.small(self.most) {
            let kind = self.numbers.of(&[LETTERS, DIGITS, b"+-."]);
            self.one(kind);
        }
        self.put(b":");
    }

    /// Nothing, or a path that begins with an octet other than a slash; its first segment may have
    /// colons where they can't be a scheme's.
    fn rootless(&mut self, colons: bool) {
        if self.numbers.once_in(4) {
            return;
        }
        match self.numbers.below(4) {
            0 => self.triple(),
            1 => self.one(b"@"),
            2 if colons => self.one(b":"),
            _ => self.any_free(),
        }
        self.free(if colons { b":@" } else { b"@" });
        self.segments();
    }

    fn segments(&mut self) {
        for _ in 0..self.numbers.small(4) {
            self.put(b"/");
            self.free(b":@");
        }
    }

    fn authority(&mut self) {
        if self.numbers.once_in(3) {
            self.free(b":");
            self.put(b"@");
        }
        match self.numbers.below(5) {
            0 => self.literal(),
            1 => {
                let address = ipv4(self.numbers);
                self.put(&address);
            }
            _ => self.free(b""),
        }
        if self.numbers.once_in(3) {
            self.put(b":");
            for _ in 0..self.numbers.small(6) {
                self.one(DIGITS);
            }
        }
    }

    /// What stands in brackets, and these.
    fn literal(&mut self) {
        self.put(b"[");
        if self.numbers.once_in(4) {
            self.future();
        } else {
            self.ipv6();
        }
        self.put(b"]");
    }

    fn future(&mut self) {
        self.one(b"vV");
        for _ in 0..=self.numbers.small(3) {
            self.one(HEX);
        }
        self.put(b".");
        for _ in 0..=self.numbers.small(self.most) {
            match self.numbers.once_in(3) {
                true => self.put(b":"),
                false => self.any_free(),
            }
        }
    }

    /// Eight groups, or fewer round a gap; an IPv4 address may stand for the last two.
    fn ipv6(&mut self) {
        let gap = !self.numbers.once_in(3);
        let count = if gap { self.numbers.below(8) } else { 8 };
        let before = if gap {
            self.numbers.below(count + 1)
        } else {
            0
        };
        let mut groups: Vec<Vec<u8>> = (0..count).map(|_| self.group()).collect();
        if count - before >= 2 && self.numbers.once_in(3) {
            groups.truncate(count - 2);
            groups.push(ipv4(self.numbers));
        }
        let behind = groups.split_off(before);
        self.put(&groups.join(&b':'));
        self.put(if gap { b"::" } else { b"" });
        self.put(&behind.join(&b':'));
    }

    fn group(&mut self) -> Vec<u8> {
        let digits = 0..=self.numbers.below(4);
        digits.map(|_| self.numbers.of(HEX)).collect()
    }
}

fn ipv4(numbers: &mut Numbers) -> Vec<u8> {
    const EDGES: [usize; 10] = [0, 9, 10, 99, 100, 199, 200, 249, 250, 255];
    let octets = [(); 4].map(|()| match numbers.below(3) {
        0 => numbers.below(256),
        1 => numbers.of(&EDGES),
        _ => numbers.below(10),
    });
    octets.map(|octet| octet.to_string()).join(".").into_bytes()
}
