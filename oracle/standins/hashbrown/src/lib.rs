//! A stand-in of ours for hashbrown: the table of `hash_table`, open addressing over control bytes that hold seven bits
//! of the hash, at most seven eighths full. When it grows it asks for the hash of each element again, as documented.
//! The moment at which it grows is ours and is compared with nothing.

pub use hash_table::HashTable;

/// A table for any element, whose hash and equality come with each call.
pub mod hash_table {
    const EMPTY: u8 = 0xff;
    const GROUP: usize = 8;
    const LOWS: u64 = 0x0101_0101_0101_0101;
    const HIGHS: u64 = 0x8080_8080_8080_8080;

    /// A table of elements.
    #[derive(Debug, Clone)]
    pub struct HashTable<T> {
        /// One byte a place and the first GROUP - 1 again behind them, so that a group can be read at any place.
        control: Vec<u8>,
        places: Vec<Option<T>>,
        items: usize,
        room: usize,
    }

    /// The place of a value that is in the table, or where it may be put.
    pub enum Entry<'a, T> {
        Occupied(OccupiedEntry<'a, T>),
        Vacant(VacantEntry<'a, T>),
    }

    /// A value that is in the table.
    pub struct OccupiedEntry<'a, T> {
        table: &'a mut HashTable<T>,
        at: usize,
    }

    /// A place for a value that isn't.
    pub struct VacantEntry<'a, T> {
        table: &'a mut HashTable<T>,
        at: usize,
        tag: u8,
    }

    impl<'a, T> OccupiedEntry<'a, T> {
        pub fn get(&self) -> &T {
            self.table.places[self.at].as_ref().unwrap()
        }
    }

    impl<'a, T> VacantEntry<'a, T> {
        pub fn insert(self, value: T) -> OccupiedEntry<'a, T> {
            let VacantEntry { table, at, tag } = self;
            table.put(at, tag, value);
            OccupiedEntry { table, at }
        }
    }

    #[inline(always)]
    fn tag_of(hash: u64) -> u8 {
        (hash >> 57) as u8
    }

    impl<T> HashTable<T> {
        pub const fn new() -> Self {
            Self {
                control: Vec::new(),
                places: Vec::new(),
                items: 0,
                room: 0,
            }
        }

        /// A table that takes `capacity` elements before it grows.
        pub fn with_capacity(capacity: usize) -> Self {
            let mut table = Self::new();
            if capacity > 0 {
                table.lay_out(capacity);
            }
            table
        }

        fn lay_out(&mut self, capacity: usize) {
            let places = (capacity * 8).div_ceil(7).max(GROUP).next_power_of_two();
            self.control = vec![EMPTY; places + GROUP - 1];
            self.places = Vec::new();
            self.places.resize_with(places, || None);
            self.items = 0;
            self.room = places / 8 * 7;
        }

        /// The number of elements that fit before it grows.
        pub fn capacity(&self) -> usize {
            self.room
        }

        pub fn len(&self) -> usize {
            self.items
        }

        pub fn is_empty(&self) -> bool {
            self.items == 0
        }

        /// Takes all elements out and keeps the memory.
        pub fn clear(&mut self) {
            self.control.fill(EMPTY);
            self.places.fill_with(|| None);
            self.items = 0;
        }

        #[inline(always)]
        fn group(&self, at: usize) -> u64 {
            u64::from_le_bytes(self.control[at..at + GROUP].try_into().unwrap())
        }

        fn put(&mut self, at: usize, tag: u8, value: T) {
            self.control[at] = tag;
            if at < GROUP - 1 {
                let again = at + self.places.len();
                self.control[again] = tag;
            }
            self.places[at] = Some(value);
            self.items += 1;
        }

        /// The first empty place on the hash's way.
        fn vacancy(&self, hash: u64) -> usize {
            let mask = self.places.len() - 1;
            let mut at = hash as usize & mask;
            loop {
                let empty = self.group(at) & HIGHS;
                if empty != 0 {
                    return (at + empty.trailing_zeros() as usize / 8) & mask;
                }
                at = (at + GROUP) & mask;
            }
        }

        fn find(&self, hash: u64, mut eq: impl FnMut(&T) -> bool) -> Option<usize> {
            let mask = self.places.len() - 1;
            let tag = tag_of(hash);
            let mut at = hash as usize & mask;
            loop {
                let group = self.group(at);
                let other = group ^ (LOWS * tag as u64);
                let mut hits = other.wrapping_sub(LOWS) & !other & HIGHS;
                while hits != 0 {
                    let here = (at + hits.trailing_zeros() as usize / 8) & mask;
                    if self.places[here].as_ref().is_some_and(&mut eq) {
                        return Some(here);
                    }
                    hits &= hits - 1;
                }
                if group & HIGHS != 0 {
                    return None;
                }
                at = (at + GROUP) & mask;
            }
        }

        fn grow(&mut self, hasher: impl Fn(&T) -> u64) {
            let old = std::mem::take(&mut self.places);
            self.lay_out((self.room + 1).max(3));
            for value in old.into_iter().flatten() {
                let hash = hasher(&value);
                let at = self.vacancy(hash);
                self.put(at, tag_of(hash), value);
            }
        }

        /// The entry of the element with this hash for which `eq` says yes. `hasher` is asked when the table grows.
        #[inline]
        pub fn entry(
            &mut self,
            hash: u64,
            eq: impl FnMut(&T) -> bool,
            hasher: impl Fn(&T) -> u64,
        ) -> Entry<'_, T> {
            if self.items == self.room {
                self.grow(hasher);
            }
            match self.find(hash, eq) {
                Some(at) => Entry::Occupied(OccupiedEntry { table: self, at }),
                None => {
                    let at = self.vacancy(hash);
                    let tag = tag_of(hash);
                    Entry::Vacant(VacantEntry {
                        table: self,
                        at,
                        tag,
                    })
                }
            }
        }
    }

    impl<T> Default for HashTable<T> {
        fn default() -> Self {
            Self::new()
        }
    }
}
