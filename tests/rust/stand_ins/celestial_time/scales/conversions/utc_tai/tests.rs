// The supplied utc_tai/mod.rs names this module under cfg(test). Here it opens
// the file's private functions.

use crate::TimeResult;

impl crate::transforms::Opened {
    pub fn stretch_day_fraction(
        year: i32,
        month: i32,
        day: i32,
        day_fraction: f64,
    ) -> TimeResult<(f64, f64)> {
        super::stretch_day_fraction(year, month, day, day_fraction)
    }
    pub fn refine_utc_fraction(tai_int: f64, tai_frac: f64) -> TimeResult<f64> {
        super::refine_utc_fraction(tai_int, tai_frac)
    }
}
