//! Terrestrial Time.

use super::tai::TAI;
use super::tcg::TCG;
use super::tdb::TDB;
use super::ut1::UT1;
use super::{converted, offset_by};
use crate::ffi;
use crate::julian::JulianDate;
use crate::refusal::TimeResult;

time_scale! {
    /// Terrestrial Time.
    TT
}

impl TT {
    /// TAI, 32.184 seconds earlier. Refuses 9.
    pub fn to_tai(&self) -> TimeResult<TAI> {
        converted(self.0, ffi::ct_tt_to_tai)
    }

    /// TCG. Refuses 9.
    pub fn to_tcg(&self) -> TimeResult<TCG> {
        converted(self.0, ffi::ct_tt_to_tcg)
    }

    /// TDB by TDB-TT in seconds. Refuses 9; then 10.
    ///
    /// ```
    /// use celestial_time_proved::{julian::JulianDate, scales::tt::TT};
    /// let neither = TT::from_julian_date(JulianDate::new(f64::NAN, 0.0));
    /// assert_eq!(neither.to_tdb_with_offset(f64::NAN).unwrap_err().number(), 9);
    /// ```
    pub fn to_tdb_with_offset(&self, dtr_seconds: f64) -> TimeResult<TDB> {
        offset_by(self.0, dtr_seconds, ffi::ct_tt_to_tdb_with_offset)
    }

    /// UT1 by TT-UT1 in seconds. Refuses 9; then 10.
    pub fn to_ut1_with_delta_t(&self, delta_t_seconds: f64) -> TimeResult<UT1> {
        offset_by(self.0, delta_t_seconds, ffi::ct_tt_to_ut1_with_delta_t)
    }
}
