//! The exported functions as they are, for callers that lend arrays of their own. `include/catrovindy.h` says of each function what it
//! takes, what it writes, and which refusals it gives. The parameters, the sizes and the places have the header's names.
//!
//! Each function but [`catrovindy_version`] returns a code: 0 where the call is accepted, else a refusal. [`number`] and [`place`] take a
//! code apart, and [`Refusal::check`](crate::Refusal::check) makes a `Result` of it.
//!
//! A list of length 0 may be null; no other pointer may. What is `written only` need not hold values, all else does. No array or list that a
//! function writes to overlaps another one of the same call.
use std::ptr::NonNull;

/// The numbers of a rule list: k, m and the zone set of each of eight slots.
pub const SLOTS: usize = 24;
/// The places of a step's answer.
pub const STEP_ANSWER: usize = 2;
/// The places of a batch's answer.
pub const BATCH_ANSWER: usize = 4;
/// The places of a bracket's answer.
pub const BRACKET_ANSWER: usize = 3;
/// The places of a table's figures.
pub const FIGURES: usize = 4;
/// The places of a plot record's kinds.
pub const KINDS: usize = 6;
/// The places of a plot record's values.
pub const VALUES: usize = 13;

/// In a step's answer: the count with this point in it.
pub const STEP_COUNT: usize = 0;
/// In a step's answer: the rules that hold, as the sum of 2^index; 0 for quiet.
pub const STEP_MASK: usize = 1;

/// In a batch's answer: how many readings were taken.
pub const BATCH_TAKEN: usize = 0;
/// In a batch's answer: the count with the last reading taken in it; where none was taken, the count as it was.
pub const BATCH_COUNT: usize = 1;
/// In a batch's answer: the rules that hold at the last reading taken; 0 where all were quiet.
pub const BATCH_MASK: usize = 2;
/// In a batch's answer: the number that the next reading would be refused by: 7 where the count is full, else 0.
pub const BATCH_REFUSAL: usize = 3;

/// In a table's figures: N, the number of states that differ.
pub const FIGURE_STATES: usize = 0;
/// In a table's figures: what is left at the horizon, in units.
pub const FIGURE_SURVIVAL: usize = 1;
/// In a table's figures: the whole part of the mean run length cut at the horizon.
pub const FIGURE_MEAN_WHOLE: usize = 2;
/// In a table's figures: its fraction in units.
pub const FIGURE_MEAN_FRACTION: usize = 3;

/// In a bracket's answer: one of the four kinds.
pub const BRACKET_KIND: usize = 0;
/// In a bracket's answer: the first of its two numbers.
pub const BRACKET_FIRST: usize = 1;
/// In a bracket's answer: the second of its two numbers.
pub const BRACKET_SECOND: usize = 2;

/// A kind: at the first number.
pub const AT: u32 = 1;
/// A kind: from the first number to the second.
pub const BETWEEN: u32 = 2;
/// A kind: the first number or more.
pub const OPEN: u32 = 3;
/// A kind: more than the first number.
pub const BEYOND: u32 = 4;

/// In a plot record's kinds: the percentile 5. The two values of item i have the places 2i and 2i + 1.
pub const P5: usize = 0;
/// In a plot record's kinds: the first quartile.
pub const P25: usize = 1;
/// In a plot record's kinds: the median.
pub const P50: usize = 2;
/// In a plot record's kinds: the third quartile.
pub const P75: usize = 3;
/// In a plot record's kinds: the percentile 95.
pub const P95: usize = 4;
/// In a plot record's kinds: 1 where there is an interquartile range, else 0.
pub const KIND_IQR: usize = 5;
/// In a plot record's values: the mean cut at the horizon is not less than this.
pub const VALUE_LOWER: usize = 10;
/// In a plot record's values: and not more than this.
pub const VALUE_UPPER: usize = 11;
/// In a plot record's values: the interquartile range, or 0.
pub const VALUE_IQR: usize = 12;

/// The number of a code: 0 for an accepted call, else the refusal's, 1 to 19.
#[must_use]
pub const fn number(code: u64) -> u32 {
    code as u32
}

/// The place of a code: the rule's index from 0 for 3 and 4, the line from 1 for 16 and 19, else 0.
#[must_use]
pub const fn place(code: u64) -> u32 {
    (code >> 32) as u32
}

/// The library's own functions, which take no null pointer.
mod exported {
    extern "C" {
        /// The version of the library, as major × 10000 + minor × 100 + patch. It is no code.
        ///
        /// # Safety
        /// Nothing is asked.
        #[must_use]
        pub fn catrovindy_version() -> u32;

        /// Whether the rules are accepted: the code.
        ///
        /// # Safety
        /// `slots` are [`SLOTS`](super::SLOTS) numbers.
        #[must_use]
        pub fn catrovindy_check(slots: *const u32, count: u32) -> u64;

        /// The zone of a reading: the code.
        ///
        /// # Safety
        /// `zone` is one number, written only.
        #[must_use]
        pub fn catrovindy_zone(reading: i32, centre: i32, sigma: u32, zone: *mut u32) -> u64;

        /// One point: the code.
        ///
        /// # Safety
        /// `slots` are [`SLOTS`](super::SLOTS) numbers; `state` and `points` are one number each, read and written; `answer` are
        /// [`STEP_ANSWER`](super::STEP_ANSWER), written only.
        #[must_use]
        pub fn catrovindy_step(slots: *const u32, count: u32, state: *mut u64, points: *mut u32, zone: u32, answer: *mut u32) -> u64;

        /// The weights of a shifted core: the code.
        ///
        /// # Safety
        /// `weights` are [`ZONES`](crate::ZONES) numbers, written only.
        #[must_use]
        pub fn catrovindy_shift_weights(shift: i32, weights: *mut u32) -> u64;
    }
}

pub use exported::{catrovindy_check, catrovindy_shift_weights, catrovindy_step, catrovindy_version, catrovindy_zone};

/// The start of a list that is read; for a list of length 0 a pointer that is not null.
const fn start<T>(list: *const T, length: usize) -> *const T {
    if length == 0 {
        NonNull::dangling().as_ptr()
    } else {
        list
    }
}

/// The start of a list that is written; for a list of length 0 a pointer that is not null.
const fn start_mut<T>(list: *mut T, length: usize) -> *mut T {
    start(list, length).cast_mut()
}

/// Declares functions of the library that take lists, and gives each of them with lists that may be null where they are empty. Behind `where`
/// stands by which function the start of a list is found, and which parameter is its length.
macro_rules! with_lists {
    ($($(#[$text:meta])* fn $name:ident($($parameter:ident: $kind:ty),* $(,)?) -> u64 where $($list:ident = $start:ident($length:ident)),*;)*) => {
        mod listed {
            extern "C" {
                $(pub fn $name($($parameter: $kind),*) -> u64;)*
            }
        }

        $($(#[$text])*
        #[must_use]
        pub unsafe extern "C" fn $name($($parameter: $kind),*) -> u64 {
            $(let $list = $start($list, $length);)*
            // SAFETY: as the caller's, and the lists are not null.
            unsafe { listed::$name($($parameter),*) }
        })*
    };
}

with_lists! {
    /// Readings one after another until one signals, the count is full, or none is left: the code.
    ///
    /// # Safety
    /// `slots` are [`SLOTS`] numbers and `readings` as many as `length` says; `state` and `points` are one number each, read and written;
    /// `answer` are [`BATCH_ANSWER`], written only.
    fn catrovindy_batch(
        slots: *const u32,
        count: u32,
        state: *mut u64,
        points: *mut u32,
        centre: i32,
        sigma: u32,
        readings: *const i32,
        length: usize,
        answer: *mut u64,
    ) -> u64 where readings = start(length);

    /// The run-length table: the code.
    ///
    /// # Safety
    /// `slots` are [`SLOTS`] numbers and `weights` [`ZONES`](crate::ZONES); `pmf` and `survival` are as many as their lengths say and `figures`
    /// [`FIGURES`], written only.
    fn catrovindy_table(
        slots: *const u32,
        count: u32,
        weights: *const u32,
        horizon: u32,
        pmf: *mut u64,
        pmf_length: usize,
        survival: *mut u64,
        survival_length: usize,
        figures: *mut u64,
    ) -> u64 where pmf = start_mut(pmf_length), survival = start_mut(survival_length);

    /// The bracket of a percentile: the code.
    ///
    /// # Safety
    /// `pmf` are as many numbers as its length says; `answer` are [`BRACKET_ANSWER`], written only.
    fn catrovindy_bracket(
        pmf: *const u64,
        pmf_length: usize,
        state_count: u32,
        percent: u32,
        answer: *mut u32,
    ) -> u64 where pmf = start(pmf_length);

    /// The plot record: the code.
    ///
    /// # Safety
    /// `slots` are [`SLOTS`] numbers and `weights` [`ZONES`](crate::ZONES); `pmf` and `survival` are as many as their lengths say, `kinds`
    /// [`KINDS`] and `values` [`VALUES`], written only.
    fn catrovindy_plot(
        slots: *const u32,
        count: u32,
        weights: *const u32,
        horizon: u32,
        pmf: *mut u64,
        pmf_length: usize,
        survival: *mut u64,
        survival_length: usize,
        kinds: *mut u32,
        values: *mut f64,
    ) -> u64 where pmf = start_mut(pmf_length), survival = start_mut(survival_length);

    /// The table program's lines for a text: the code.
    ///
    /// # Safety
    /// `text` are as many bytes as `length` says; `out` are [`TABLE_SIZE`](crate::TABLE_SIZE) bytes and `bytes` one number, written only.
    fn catrovindy_table_report(text: *const u8, length: usize, out: *mut u8, bytes: *mut u64) -> u64 where text = start(length);

    /// The monitor program's lines for a text: the code.
    ///
    /// # Safety
    /// `text` are as many bytes as `length` says; `out` are [`MONITOR_SIZE`](crate::MONITOR_SIZE) bytes and `bytes` one number, written only.
    fn catrovindy_monitor_report(text: *const u8, length: usize, out: *mut u8, bytes: *mut u64) -> u64 where text = start(length);

    /// The weights program's line for a text: the code.
    ///
    /// # Safety
    /// `text` are as many bytes as `length` says; `out` are [`WEIGHTS_SIZE`](crate::WEIGHTS_SIZE) bytes and `bytes` one number, written only.
    fn catrovindy_weights_report(text: *const u8, length: usize, out: *mut u8, bytes: *mut u64) -> u64 where text = start(length);
}

#[cfg(test)]
mod tests {
    use super::{start, start_mut};
    use std::ptr::{null, null_mut};

    #[test]
    fn an_empty_list_is_never_null() {
        assert!(!start(null::<i32>(), 0).is_null() && !start_mut(null_mut::<u64>(), 0).is_null());
        assert!(start(null::<u64>(), 0).is_aligned() && start_mut(null_mut::<u64>(), 0).is_aligned());
        let mut list = [1u64, 2];
        assert_eq!(start(list.as_ptr(), 2), list.as_ptr());
        assert_eq!(start_mut(list.as_mut_ptr(), 2), list.as_mut_ptr());
    }
}
