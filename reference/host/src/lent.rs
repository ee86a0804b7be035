//! Memory that is lent to the library: filled with a pattern, and with more of the pattern on both
//! sides, so that every number written where none may be is seen.

/// Numbers of the pattern on each side of what is lent.
const GUARD: usize = 16;

/// A number of the pattern. It depends on the place, so that a number moved is seen as well.
pub trait Pattern: Copy + Default + PartialEq {
    fn at(salt: u64, place: usize) -> Self;
}

fn mixed(salt: u64, place: usize) -> u64 {
    let z = (salt ^ 0xd6e8_feb8_6659_fd93).wrapping_add(place as u64);
    z.wrapping_mul(0x9e37_79b9_7f4a_7c15)
}

impl Pattern for u8 {
    fn at(salt: u64, place: usize) -> u8 {
        (mixed(salt, place) >> 56) as u8
    }
}

impl Pattern for u32 {
    fn at(salt: u64, place: usize) -> u32 {
        (mixed(salt, place) >> 32) as u32
    }
}

impl Pattern for u64 {
    fn at(salt: u64, place: usize) -> u64 {
        mixed(salt, place)
    }
}

impl Pattern for i64 {
    fn at(salt: u64, place: usize) -> i64 {
        mixed(salt, place) as i64
    }
}

#[derive(Default)]
pub struct Lent<T> {
    buffer: Vec<T>,
    length: usize,
    salt: u64,
}

impl<T: Pattern> Lent<T> {
    pub fn new(length: usize, salt: u64) -> Lent<T> {
        let mut lent = Lent::default();
        lent.refill(length, salt);
        lent
    }

    /// Another length, and all of it the pattern again.
    pub fn refill(&mut self, length: usize, salt: u64) {
        self.length = length;
        self.salt = salt;
        self.buffer.clear();
        self.buffer.extend((0..length + 2 * GUARD).map(|place| T::at(salt, place)));
    }

    /// The pattern again from the start up to a place.
    pub fn restore(&mut self, place: usize) {
        for place in GUARD..GUARD + place {
            self.buffer[place] = T::at(self.salt, place);
        }
    }

    pub fn lent(&self) -> &[T] {
        &self.buffer[GUARD..GUARD + self.length]
    }

    pub fn lent_mut(&mut self) -> &mut [T] {
        &mut self.buffer[GUARD..GUARD + self.length]
    }

    /// Whether nothing stands changed outside of what is lent.
    pub fn guards_stand(&self) -> bool {
        self.stands(0..GUARD) && self.stands(GUARD + self.length..self.buffer.len())
    }

    /// Whether what is lent is still the pattern from a place on.
    pub fn stands_from(&self, place: usize) -> bool {
        self.stands(GUARD + place..GUARD + self.length)
    }

    fn stands(&self, mut places: std::ops::Range<usize>) -> bool {
        places.all(|place| self.buffer[place] == T::at(self.salt, place))
    }
}

#[cfg(test)]
mod tests {
    use super::*;

    #[test]
    fn every_change_is_seen() {
        for place in 0..10 + 2 * GUARD {
            let mut lent: Lent<u32> = Lent::new(10, 3);
            assert!(lent.guards_stand() && lent.stands_from(0));
            lent.buffer[place] ^= 1;
            let inside = (GUARD..GUARD + 10).contains(&place);
            assert_eq!(lent.guards_stand(), inside);
            assert_eq!(lent.stands_from(0), !inside);
        }
    }

    #[test]
    fn what_is_restored_is_the_pattern() {
        let mut lent: Lent<u64> = Lent::new(10, 3);
        lent.lent_mut()[..4].fill(0);
        lent.restore(3);
        assert!(!lent.stands_from(3));
        lent.restore(4);
        assert!(lent.stands_from(0) && lent.guards_stand());
    }
}
