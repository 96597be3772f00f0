//! A table of small values by numbers below 2^48, with open addressing and places that are tried one behind the other.
//! At most half of its places are full.

/// the number in the upper 48 bits, the value in the lower 16
const EMPTY: u64 = u64::MAX;

pub struct Map {
    places: Vec<u64>,
    shift: u32,
    length: usize,
}

impl Map {
    /// An empty one of 2^k places, k from 1 to 16.
    pub fn new(k: u32) -> Map {
        Map { places: vec![EMPTY; 1 << k], shift: 64 - k, length: 0 }
    }

    pub fn len(&self) -> usize {
        self.length
    }

    pub fn clear(&mut self) {
        if self.length > 0 {
            self.places.fill(EMPTY);
            self.length = 0;
        }
    }

    /// where a number would stand if nothing else did
    #[inline(always)]
    fn home(&self, number: u64) -> usize {
        (number.wrapping_mul(0x9E37_79B9_7F4A_7C15) >> self.shift) as usize
    }

    /// the place of a number, or the empty one where it would be put
    #[inline(always)]
    fn find(&self, number: u64) -> usize {
        let mask = self.places.len() - 1;
        let mut place = self.home(number);
        while self.places[place] >> 16 != number && self.places[place] != EMPTY {
            place = (place + 1) & mask;
        }
        place
    }

    #[inline(always)]
    pub fn get(&self, number: u64) -> Option<u16> {
        let found = self.places[self.find(number)];
        if found == EMPTY {
            None
        } else {
            Some(found as u16)
        }
    }

    /// Puts a value, or another in its place.
    #[inline(always)]
    pub fn put(&mut self, number: u64, value: u16) {
        let place = self.find(number);
        let is_new = self.places[place] == EMPTY;
        self.places[place] = number << 16 | value as u64;
        if is_new {
            self.length += 1;
            if 2 * self.length > self.places.len() {
                self.grow();
            }
        }
    }

    fn grow(&mut self) {
        let mut larger = Map::new(64 - self.shift + 1);
        for full in self.places.iter().filter(|place| **place != EMPTY) {
            larger.put(full >> 16, *full as u16);
        }
        *self = larger;
    }

    /// Takes a number out: whether it was there.
    #[inline(always)]
    pub fn remove(&mut self, number: u64) -> bool {
        let place = self.find(number);
        let is_there = self.places[place] != EMPTY;
        if is_there {
            self.empty(place);
        }
        is_there
    }

    /// Empties a place, and moves those behind it up that could else not be found.
    fn empty(&mut self, place: usize) {
        let mask = self.places.len() - 1;
        let (mut hole, mut next) = (place, (place + 1) & mask);
        while self.places[next] != EMPTY {
            let home = self.home(self.places[next] >> 16);
            if next.wrapping_sub(home) & mask >= next.wrapping_sub(hole) & mask {
                self.places[hole] = self.places[next];
                hole = next;
            }
            next = (next + 1) & mask;
        }
        self.places[hole] = EMPTY;
        self.length -= 1;
    }

    /// Takes all numbers out for which this holds. What moves up into a place is looked at there.
    pub fn remove_where(&mut self, goes: impl Fn(u64) -> bool) {
        let mut place = 0;
        while place < self.places.len() {
            let full = self.places[place];
            if full != EMPTY && goes(full >> 16) {
                self.empty(place);
            } else {
                place += 1;
            }
        }
    }

    pub fn values(&self) -> impl Iterator<Item = u16> + '_ {
        self.places.iter().filter(|place| **place != EMPTY).map(|place| *place as u16)
    }
}
