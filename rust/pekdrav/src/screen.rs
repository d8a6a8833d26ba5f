//! The memory that service screens are written into.

use std::cell::RefCell;

/// Enough bytes for any service screen of a controller.
pub const SCREEN_BYTES: usize = 32_768;

thread_local! {
    static MEMORY: RefCell<Vec<u8>> = RefCell::new(vec![0; SCREEN_BYTES]);
}

/// The text that `write` writes into memory of `SCREEN_BYTES` bytes, of the length that it answers; no text where it answers none.
pub(crate) fn with_memory(write: impl FnOnce(&mut [u8]) -> Option<usize>) -> String {
    MEMORY.with_borrow_mut(|memory| {
        let length = write(memory).unwrap_or(0);
        memory[..length].iter().map(|&byte| char::from(byte)).collect()
    })
}
