//! The rows of a schedule, and the service screens after it.

use std::cell::RefCell;

use crate::ffi;
use crate::screen::with_memory;

/// Enough bytes for the rows of any schedule.
pub const ROWS_MAX: usize = 2_621_504;

/// Writes the rows of a schedule from the start of `rows` and answers their length; `None`, with `rows` as it was, if they have no room.
///
/// With fewer than `ROWS_MAX` bytes the schedule is run twice, the first time to learn the length of its rows.
#[inline]
pub fn rows_into(schedule: &[u8], rows: &mut [u8]) -> Option<usize> {
    let length = ffi::schedule_rows(schedule, rows);
    // The header is always printed, so no rows have the length 0.
    (length > 0).then_some(length)
}

thread_local! {
    static ROWS: RefCell<Vec<u8>> = RefCell::new(vec![0; ROWS_MAX]);
}

/// The rows of a schedule.
pub fn rows(schedule: &[u8]) -> Vec<u8> {
    ROWS.with_borrow_mut(|rows| {
        let length = rows_into(schedule, rows).unwrap_or(0);
        rows[..length].to_vec()
    })
}

/// Writes the service screen that controller `number` has after the last line of a schedule from the start of `out`, and answers its length; `None`, with
/// `out` as it was, if that has fewer than `SCREEN_BYTES` bytes or the number is above 15.
#[inline]
pub fn screen_into(schedule: &[u8], number: u8, out: &mut [u8]) -> Option<usize> {
    let length = ffi::schedule_screen(schedule, number, out);
    (length > 0).then_some(length)
}

/// The service screen that controller `number` has after the last line of a schedule; no text for a number above 15.
pub fn screen(schedule: &[u8], number: u8) -> String {
    with_memory(|out| screen_into(schedule, number, out))
}
