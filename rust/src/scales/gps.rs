//! GPS time, and its weeks.

use super::converted;
use super::tai::TAI;
use crate::answers::{date, judged, u32_at, written};
use crate::ffi;
use crate::julian::JulianDate;
use crate::refusal::TimeResult;

time_scale! {
    /// GPS time: TAI less 19 seconds.
    GPS
}

/// A week, counted from 1980-01-06 0h GPS, and a millisecond of it.
#[derive(Debug, Clone, Copy, PartialEq, Eq)]
pub struct Week {
    /// The week, 0 to 100,000.
    pub week: u32,
    /// The millisecond of the week, below 604,800,000.
    pub millis: u32,
}

impl GPS {
    /// TAI, 19 seconds later. Refuses 9.
    ///
    /// ```
    /// use celestial_time_proved::{julian::JulianDate, scales::gps::GPS};
    /// let tai = GPS::from_julian_date(JulianDate::new(2451545.0, 0.25)).to_tai().unwrap();
    /// assert_eq!(tai.to_julian_date(), JulianDate::new(2451545.0, 0.2502199074074074));
    /// let infinite = GPS::from_julian_date(JulianDate::new(f64::INFINITY, 0.0));
    /// assert_eq!(infinite.to_tai().unwrap_err().number(), 9);
    /// ```
    pub fn to_tai(&self) -> TimeResult<TAI> {
        converted(self.0, ffi::ct_gps_to_tai)
    }

    /// The date of a week and millisecond: the day's midnight in jd1, the part of the day in jd2. Refuses 18 for a week
    /// above 100,000 or a millisecond from 604,800,000 up.
    ///
    /// ```
    /// use celestial_time_proved::{julian::JulianDate, scales::gps::{Week, GPS}};
    /// let gps = GPS::from_week(Week { week: 2048, millis: 43_200_000 }).unwrap();
    /// assert_eq!(gps.to_julian_date(), JulianDate::new(2458580.5, 0.5));
    /// assert_eq!(GPS::from_week(Week { week: 100_001, millis: 0 }).unwrap_err().number(), 18);
    /// ```
    pub fn from_week(week: Week) -> TimeResult<Self> {
        date(|out| ffi::ct_gps_from_week(week.week, week.millis, out)).map(Self)
    }

    /// The week of the date and the nearest millisecond of it, a half going up. Refuses 9; then 6; then 18, where the
    /// rounded date is before week 0 or after week 100,000.
    ///
    /// ```
    /// use celestial_time_proved::{julian::JulianDate, scales::gps::{Week, GPS}};
    /// let week = GPS::from_julian_date(JulianDate::new(2458581.5, 0.5)).to_week();
    /// assert_eq!(week, Ok(Week { week: 2048, millis: 129_600_000 }));
    /// let huge = GPS::from_julian_date(JulianDate::new(1.7e308, 1.7e308));
    /// assert_eq!(huge.to_week().unwrap_err().number(), 6);
    /// ```
    pub fn to_week(&self) -> TimeResult<Week> {
        let out = written::<8>(|out| ffi::ct_gps_to_week(self.0.jd1(), self.0.jd2(), out))?;
        Ok(Week { week: u32_at(&out, 0), millis: u32_at(&out, 4) })
    }
}

/// The week whose ten lowest bits are `ten_bits` and that lies nearest the reference week and is not below 0. Refuses
/// 18 for ten bits above 1,023 or a reference above 99,000; then 19, where two weeks are equally near.
///
/// ```
/// use celestial_time_proved::scales::gps::gps_full_week;
/// assert_eq!(gps_full_week(1023, 0), Ok(1023));
/// assert_eq!(gps_full_week(1024, 512).unwrap_err().number(), 18);
/// assert_eq!(gps_full_week(0, 512).unwrap_err().number(), 19);
/// ```
pub fn gps_full_week(ten_bits: u32, reference: u32) -> TimeResult<u32> {
    judged(ffi::ct_gps_full_week(ten_bits, reference)).map(|week| week as u32)
}
