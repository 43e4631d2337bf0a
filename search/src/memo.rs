//! Tables of what was found for terms.
use std::cell::RefCell;
use std::collections::HashMap;
use std::hash::{BuildHasherDefault, Hash, Hasher};
use std::thread::LocalKey;

/// What was found, by terms: a map that hashes their small numbers alone.
pub type Memo<K, V> = HashMap<K, V, BuildHasherDefault<Mixer>>;

/// Such a map that all searches share.
pub type Table<K, V> = LocalKey<RefCell<Memo<K, V>>>;

/// Mixes the numbers of terms.
#[derive(Clone, Copy, Debug, Default)]
pub struct Mixer(u64);

const SPREAD: u64 = 0x9E37_79B9_7F4A_7C15;

impl Hasher for Mixer {
    fn write(&mut self, bytes: &[u8]) {
        for word in bytes.chunks(8) {
            let number = word.iter().rev().fold(0, |number, &byte| number << 8 | u64::from(byte));
            self.0 = (self.0.rotate_left(5) ^ number).wrapping_mul(SPREAD);
        }
    }

    fn finish(&self) -> u64 {
        self.0 ^ (self.0 >> 32)
    }
}

/// What a table keeps for a key; else what is found, which it keeps where `is_whole` says then that this is all that there is.
pub fn kept<K: Eq + Hash + Copy, V: Clone>(
    table: &'static Table<K, V>,
    key: K,
    is_whole: impl FnOnce() -> bool,
    find: impl FnOnce() -> V,
) -> V {
    if let Some(found) = table.with(|table| table.borrow().get(&key).cloned()) {
        return found;
    }
    let found = find();
    if is_whole() {
        table.with(|table| table.borrow_mut().insert(key, found.clone()));
    }
    found
}
