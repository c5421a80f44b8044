// The supplied julian/mod.rs names this module under cfg(test). Here it opens
// the functions that are private to the crate or to the file.

use super::{day_fraction, exact_sum, finite_arg, finite_jd, JulianDate};
use crate::TimeResult;

impl crate::transforms::Opened {
    pub fn from_unix_time(seconds: i64, nanos: u32) -> JulianDate {
        JulianDate::from_unix_time(seconds, nanos)
    }
    pub fn exact_sum(a: f64, b: f64) -> (f64, f64) {
        exact_sum(a, b)
    }
    pub fn day_fraction(hour: u8, minute: u8, second: f64, leap: f64) -> TimeResult<f64> {
        day_fraction(hour, minute, second, leap)
    }
    pub fn finite_jd(jd: JulianDate) -> TimeResult<JulianDate> {
        finite_jd(jd)
    }
    pub fn finite_arg(value: f64) -> TimeResult<f64> {
        finite_arg("value", value)
    }
}
