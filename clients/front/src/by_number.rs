//! Maps by numbers that the front itself gives, such as those of connections.

use std::collections::HashMap;
use std::hash::{BuildHasherDefault, Hasher};

/// A map by such numbers.
pub type ByNumber<T> = HashMap<u64, T, BuildHasherDefault<NumberHasher>>;

/// An odd number near 2^64 divided by the golden ratio, which spreads consecutive numbers: D. Knuth,
/// The Art of Computer Programming, volume 3, section 6.4.
const MULTIPLIER: u64 = 0x9e37_79b9_7f4a_7c15;

/// Hashes a number by one multiplication. No client chooses the numbers, so none can make them
/// collide, and the standard library's hash costs a call several times as much.
#[derive(Default)]
pub struct NumberHasher(u64);

impl Hasher for NumberHasher {
    fn finish(&self) -> u64 {
        self.0
    }

    fn write(&mut self, bytes: &[u8]) {
        bytes.iter().for_each(|it| self.write_u64(self.0 ^ u64::from(*it)));
    }

    fn write_u64(&mut self, number: u64) {
        self.0 = number.wrapping_mul(MULTIPLIER);
    }
}

#[cfg(test)]
mod tests {
    use super::*;
    use std::collections::HashSet;

    /// The map takes the place from the lowest bits, and tells entries apart by the highest seven.
    #[test]
    fn consecutive_numbers_have_other_places_and_many_tags() {
        let hash = |number| {
            let mut hasher = NumberHasher::default();
            hasher.write_u64(number);
            hasher.finish()
        };
        let places: HashSet<u64> = (2..1_026).map(|it| hash(it) % 1_024).collect();
        let tags: HashSet<u64> = (2..1_026).map(|it| hash(it) >> 57).collect();
        assert_eq!((places.len(), tags.len()), (1_024, 128));
    }

    #[test]
    fn entries_are_found() {
        let mut map: ByNumber<u64> = (2..5_000).map(|it| (it, 2 * it)).collect();
        assert_eq!((map.get(&4_999), map.get(&5_000)), (Some(&9_998), None));
        assert_eq!((map.remove(&7), map.len()), (Some(14), 4_997));
    }
}
