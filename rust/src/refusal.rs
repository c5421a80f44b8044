//! Refusals: a number, and the library's sentence of it.

use crate::answers::{judged, text};
use crate::ffi;
use crate::julian::JulianDate;
use std::fmt;

/// What a call answers that may refuse.
pub type TimeResult<T> = Result<T, Refusal>;

/// The source's name for what went wrong; here it is a number, and has no variants.
pub type TimeError = Refusal;

const SENTENCE_BYTES: usize = 57;

/// Why the library refused: one of 28 numbers, which include/celestial_time.h lists and docs/SENTENCES.md has the
/// sentences of.
///
/// ```
/// use celestial_time_proved::scales::utc::utc_from_calendar;
/// let refusal = utc_from_calendar(2000, 13, 1, 0, 0, 0.0).unwrap_err();
/// assert_eq!(refusal.number(), 2);
/// assert_eq!(refusal.to_string(), "refused 2: month is not 1 to 12");
/// assert_eq!(refusal.date_sentence(2000, 13, 1), "month is not 1 to 12: month 13");
/// ```
#[derive(Debug, Clone, Copy, PartialEq, Eq, Hash)]
pub struct Refusal(u32);

impl Refusal {
    /// The refusal of a number, as it stands in the numbers of a run. Refuses 18 for a number that is not 1 to 28.
    ///
    /// ```
    /// use celestial_time_proved::Refusal;
    /// assert_eq!(Refusal::new(9).unwrap().sentence(), "part or sum of a date is not finite");
    /// assert_eq!(Refusal::new(0).unwrap_err().number(), 18);
    /// ```
    pub fn new(number: u32) -> TimeResult<Self> {
        let mut sentence = [0; SENTENCE_BYTES];
        judged(ffi::ct_reason(number, &mut sentence)).map(|_| Self(number))
    }

    /// That of a code below zero, which is minus the number.
    pub(crate) fn of_code(code: i64) -> Self {
        Self(code.unsigned_abs() as u32)
    }

    /// The number, 1 to 28.
    pub fn number(&self) -> u32 {
        self.0
    }

    /// The sentence that names no field.
    pub fn sentence(&self) -> String {
        said(|out| ffi::ct_reason(self.0, out))
    }

    /// The sentence with the year, the month or the day at its end, where that fails the test of 1, 2 or 3.
    pub fn date_sentence(&self, year: i32, month: i32, day: i32) -> String {
        said(|out| ffi::ct_date_reason(self.0, year, month, day, out))
    }

    /// The sentence of 4 with the first wrong one of hour, minute and second; `leap` is the day's length less 86,400 s.
    pub fn time_sentence(&self, hour: u8, minute: u8, second: f64, leap: f64) -> String {
        said(|out| ffi::ct_time_reason(self.0, hour, minute, second, leap, out))
    }

    /// The sentence of 6 with the rounded sum, of 9 with the first part that is not finite.
    pub fn parts_sentence(&self, date: JulianDate) -> String {
        said(|out| ffi::ct_parts_reason(self.0, date.jd1(), date.jd2(), out))
    }

    /// The sentence of 7 with the fraction, of 10 with the offset.
    pub fn float_sentence(&self, x: f64) -> String {
        said(|out| ffi::ct_float_reason(self.0, x, out))
    }

    /// The sentence of 8 with the nanoseconds.
    pub fn count_sentence(&self, nanos: u32) -> String {
        said(|out| ffi::ct_count_reason(self.0, nanos, out))
    }

    /// The sentence of 12 with the second size of a block, of 13 with the size, of 14 with the whole length.
    pub fn block_sentence(&self, length: u64, size: u32, second_size: u32) -> String {
        said(|out| ffi::ct_block_reason(self.0, length, size, second_size, out))
    }
}

/// A sentence of a number from 1 to 28, of which there is one, in a buffer that holds the longest.
fn said(ask: impl FnOnce(&mut [u8]) -> i64) -> String {
    text::<SENTENCE_BYTES>(ask).unwrap_or_default()
}

impl fmt::Display for Refusal {
    fn fmt(&self, f: &mut fmt::Formatter<'_>) -> fmt::Result {
        write!(f, "refused {}: {}", self.0, self.sentence())
    }
}

impl std::error::Error for Refusal {}
