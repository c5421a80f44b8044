//! Two-part Julian dates.

use crate::answers::{certain_date, date, judged};
use crate::constants::{J2000_JD, UNIX_EPOCH_JD};
use crate::ffi;
use crate::refusal::TimeResult;
use std::cmp::Ordering;
use std::ops::Sub;

/// A Julian date in days, the exact sum of two floats. Every float is taken, NaN and the infinities too.
///
/// `==` says whether two dates are one: with parts under 2^52 in size, whether their exact sums are, however they are
/// split. A date with a NaN equals none. `-` gives the days between two dates, rounded; 0.0 also for some that differ,
/// so that it is no order to sort by: [`compare`](Self::compare) is one.
///
/// ```
/// use celestial_time_proved::julian::JulianDate;
/// let noon = JulianDate::new(2451545.0, 0.0);
/// assert_eq!(noon, JulianDate::new(2451544.75, 0.25));
/// assert_eq!(JulianDate::new(2451545.0, 0.25) - JulianDate::new(2451544.0, 0.0), 1.25);
/// ```
#[derive(Debug, Clone, Copy)]
pub struct JulianDate {
    jd1: f64,
    jd2: f64,
}

impl JulianDate {
    /// The date of these two parts.
    pub fn new(jd1: f64, jd2: f64) -> Self {
        Self { jd1, jd2 }
    }

    /// The date with this first part, and 0.0 for the second.
    pub fn from_f64(jd: f64) -> Self {
        Self::new(jd, 0.0)
    }

    /// 2000-01-01 12h.
    pub fn j2000() -> Self {
        Self::new(J2000_JD, 0.0)
    }

    /// 1970-01-01 0h.
    pub fn unix_epoch() -> Self {
        Self::new(UNIX_EPOCH_JD, 0.0)
    }

    /// The first part.
    pub fn jd1(&self) -> f64 {
        self.jd1
    }

    /// The second part.
    pub fn jd2(&self) -> f64 {
        self.jd2
    }

    /// jd1 + jd2, rounded.
    pub fn to_f64(&self) -> f64 {
        ffi::ct_to_f64(self.jd1, self.jd2)
    }

    /// So many days later. Refuses nothing; an infinity gives two NaN.
    pub fn add_days(&self, days: f64) -> Self {
        certain_date(|out| ffi::ct_add_days(self.jd1, self.jd2, days, out))
    }

    /// So many seconds of 86,400 a day later. Refuses nothing; an infinity gives two NaN.
    ///
    /// ```
    /// # use celestial_time_proved::julian::JulianDate;
    /// let later = JulianDate::j2000().add_seconds(43200.0);
    /// assert_eq!((later.jd1(), later.jd2()), (2451545.0, 0.5));
    /// ```
    pub fn add_seconds(&self, seconds: f64) -> Self {
        certain_date(|out| ffi::ct_add_seconds(self.jd1, self.jd2, seconds, out))
    }

    /// The date of a Unix time, divided toward zero. Refuses nothing.
    pub fn from_unix_time(seconds: i64, nanos: u32) -> Self {
        certain_date(|out| ffi::ct_from_unix_time(seconds, nanos, out))
    }

    /// The date of a day and time, midnight in jd1 and the time of day in jd2. Refuses 1, 2, 3; then 4, which 23:59:60
    /// is too.
    ///
    /// ```
    /// # use celestial_time_proved::julian::JulianDate;
    /// assert_eq!(JulianDate::from_calendar(2000, 1, 1, 12, 0, 0.0), Ok(JulianDate::j2000()));
    /// assert_eq!(JulianDate::from_calendar(2000, 2, 30, 25, 0, 0.0).unwrap_err().number(), 3);
    /// ```
    pub fn from_calendar(year: i32, month: u8, day: u8, hour: u8, minute: u8, second: f64) -> TimeResult<Self> {
        date(|out| ffi::ct_from_calendar(year, month, day, hour, minute, second, out))
    }

    /// The Julian year of the date. Refuses nothing.
    pub fn to_julian_year(&self) -> f64 {
        ffi::ct_to_julian_year(self.jd1, self.jd2)
    }

    /// The date of a Julian year. Refuses nothing.
    pub fn from_julian_year(year: f64) -> Self {
        certain_date(|out| ffi::ct_from_julian_year(year, out))
    }

    /// Which of two dates is first, by their exact sums, however they are split. Refuses 9 where a part is not finite,
    /// or so large that the sum or its rounding error overflows; every date with parts under 2^52 in size is answered.
    ///
    /// ```
    /// # use celestial_time_proved::julian::JulianDate;
    /// use std::cmp::Ordering;
    /// let (noon, later) = (JulianDate::j2000(), JulianDate::new(2451545.0, 1e-300));
    /// assert_eq!(noon.compare(&later), Ok(Ordering::Less));
    /// assert_eq!(JulianDate::new(1.7e308, 1.7e308).compare(&noon).unwrap_err().number(), 9);
    /// ```
    pub fn compare(&self, other: &Self) -> TimeResult<Ordering> {
        let order = judged(ffi::ct_compare(self.jd1, self.jd2, other.jd1, other.jd2))?;
        Ok(order.cmp(&1)) // 0 before the other, 1 equal, 2 after it
    }
}

impl PartialEq for JulianDate {
    fn eq(&self, other: &Self) -> bool {
        ffi::ct_equal(self.jd1, self.jd2, other.jd1, other.jd2) == 1
    }
}

impl Sub for JulianDate {
    type Output = f64;

    fn sub(self, other: Self) -> f64 {
        ffi::ct_difference(self.jd1, self.jd2, other.jd1, other.jd2)
    }
}
