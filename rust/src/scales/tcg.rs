//! Geocentric Coordinate Time.

use super::converted;
use super::tai::TAI;
use super::tt::TT;
use crate::ffi;
use crate::julian::JulianDate;
use crate::refusal::TimeResult;

time_scale! {
    /// Geocentric Coordinate Time.
    TCG
}

impl TCG {
    /// TAI, by way of TT. Refuses 9, also where the TT in between is not finite.
    ///
    /// ```
    /// use celestial_time_proved::{julian::JulianDate, scales::tcg::TCG};
    /// let huge = TCG::from_julian_date(JulianDate::new(1.7e308, 1.7e308));
    /// assert_eq!(huge.to_tai().unwrap_err().number(), 9);
    /// ```
    pub fn to_tai(&self) -> TimeResult<TAI> {
        converted(self.0, ffi::ct_tcg_to_tai)
    }

    /// TT. Refuses 9.
    pub fn to_tt(&self) -> TimeResult<TT> {
        converted(self.0, ffi::ct_tcg_to_tt)
    }
}
