// The supplied utc/mod.rs names this module under cfg(test). Here it opens the
// file's private functions.

use crate::TimeResult;

impl crate::transforms::Opened {
    pub fn leap_at_end_of_day(year: i32, month: i32, day: i32) -> TimeResult<f64> {
        super::leap_at_end_of_day(year, month, day)
    }
    pub fn iso_string(year: i32, month: i32, day: i32, millis: i64) -> String {
        super::iso_string(year, month, day, millis)
    }
}
