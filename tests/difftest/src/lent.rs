//! Room that is lent: it stands within a longer run of memory, all of which holds a pattern.

/// What slots and octets hold before a call.
pub trait Pattern: Copy + PartialEq {
    fn held(place: usize, salt: u64) -> Self;
}

impl Pattern for u8 {
    fn held(place: usize, salt: u64) -> u8 {
        (place as u64)
            .wrapping_mul(167)
            .wrapping_add(salt.wrapping_mul(29))
            .wrapping_add(salt >> 8) as u8
    }
}

impl Pattern for usize {
    fn held(place: usize, salt: u64) -> usize {
        (place as u64 + 1)
            .wrapping_mul(0x9E37_79B9_7F4A_7C15)
            .wrapping_add(salt) as usize
    }
}

/// What stands before and behind the room.
const GUARD: usize = 8;

pub struct Lent<T> {
    all: Vec<T>,
    held: Vec<T>,
}

impl<T: Pattern> Lent<T> {
    /// Room that holds the pattern.
    pub fn new(room: usize, salt: u64) -> Lent<T> {
        let held: Vec<T> = (0..room + 2 * GUARD)
            .map(|place| T::held(place, salt))
            .collect();
        let all = held.clone();
        Lent { all, held }
    }

    /// Room just for these, which it holds.
    pub fn holding(content: &[T], salt: u64) -> Lent<T> {
        let mut lent = Lent::new(content.len(), salt);
        lent.room_mut().copy_from_slice(content);
        lent
    }

    /// Holds another pattern in its first places.
    pub fn refill(&mut self, count: usize, salt: u64) {
        for place in GUARD..GUARD + count {
            self.held[place] = T::held(place, salt);
            self.all[place] = self.held[place];
        }
    }

    /// From here on the content counts as what it held from that place on.
    pub fn keep(&mut self, place: usize, content: &[T]) {
        let start = GUARD + place;
        self.held[start..start + content.len()].copy_from_slice(content);
    }

    /// From here on whatever stands in its first places counts as what it held.
    pub fn keep_first(&mut self, count: usize) {
        let end = GUARD + count;
        self.held[GUARD..end].copy_from_slice(&self.all[GUARD..end]);
    }

    pub fn room(&self) -> &[T] {
        &self.all[GUARD..self.all.len() - GUARD]
    }

    pub fn room_mut(&mut self) -> &mut [T] {
        let end = self.all.len() - GUARD;
        &mut self.all[GUARD..end]
    }

    /// Whether the room holds the content at its beginning, and all else, before the room, in it and
    /// behind it, what it held.
    pub fn holds_just(&self, content: &[T]) -> bool {
        let all = std::hint::black_box(&self.all);
        let end = GUARD + content.len();
        all[..GUARD] == self.held[..GUARD]
            && all[GUARD..end] == *content
            && all[end..] == self.held[end..]
    }

    /// Where that fails first, from the room's beginning, and what stands there and should.
    pub fn first_other(&self, content: &[T]) -> Option<(isize, T, T)> {
        let mut expected = self.held.clone();
        expected[GUARD..GUARD + content.len()].copy_from_slice(content);
        let mut places = self.all.iter().zip(&expected);
        let at = places.position(|(one, other)| one != other)?;
        Some((at as isize - GUARD as isize, self.all[at], expected[at]))
    }
}
