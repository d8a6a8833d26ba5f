//! Finding the place of a key in a list by its hash.

use std::hash::{Hash, Hasher};

const FREE: u32 = u32::MAX;
const FACTOR: u64 = 0x9e37_79b9_7f4a_7c15;

/// An open-addressed table of places in a list that its owner keeps.
#[derive(Clone, Debug)]
pub struct Index {
    slots: Vec<u32>,
    mask: usize,
}

impl Index {
    /// A table with room for `keys` keys at half load.
    pub fn for_keys(keys: usize) -> Index {
        let size = (2 * keys).next_power_of_two().max(8);
        Index { slots: vec![FREE; size], mask: size - 1 }
    }

    /// The place of the key, or else the slot where it goes.
    pub fn find(&self, hash: u64, same: impl Fn(usize) -> bool) -> Result<usize, usize> {
        let mut slot = (hash >> 32) as usize & self.mask;
        loop {
            match self.slots[slot] {
                FREE => return Err(slot),
                place if same(place as usize) => return Ok(place as usize),
                _ => slot = (slot + 1) & self.mask,
            }
        }
    }

    pub fn put(&mut self, slot: usize, place: usize) {
        self.slots[slot] = place as u32;
    }
}

/// A multiplicative hasher: quick, and good enough because a crowded table only costs time.
#[derive(Default)]
struct Mixer(u64);

impl Hasher for Mixer {
    fn finish(&self) -> u64 {
        self.0
    }

    fn write(&mut self, bytes: &[u8]) {
        for &byte in bytes {
            self.write_u64(u64::from(byte));
        }
    }

    fn write_u8(&mut self, value: u8) {
        self.write_u64(u64::from(value));
    }

    fn write_u32(&mut self, value: u32) {
        self.write_u64(u64::from(value));
    }

    fn write_u64(&mut self, value: u64) {
        self.0 = (self.0.rotate_left(23) ^ value).wrapping_mul(FACTOR);
    }

    fn write_usize(&mut self, value: usize) {
        self.write_u64(value as u64);
    }
}

pub fn hash_of(key: &impl Hash) -> u64 {
    let mut mixer = Mixer::default();
    key.hash(&mut mixer);
    mixer.finish()
}
