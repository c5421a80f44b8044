//! Barycentric Coordinate Time.

use super::converted;
use super::tdb::TDB;
use crate::ffi;
use crate::julian::JulianDate;
use crate::refusal::TimeResult;

time_scale! {
    /// Barycentric Coordinate Time.
    TCB
}

impl TCB {
    /// TDB. Refuses 9; a part of what it gives may be an infinity.
    ///
    /// ```
    /// use celestial_time_proved::{julian::JulianDate, scales::tcb::TCB};
    /// let huge = TCB::from_julian_date(JulianDate::new(1.7e308, 1.7e308));
    /// assert_eq!(huge.tcb_to_tdb().unwrap().to_julian_date().jd1(), f64::NEG_INFINITY);
    /// ```
    pub fn tcb_to_tdb(&self) -> TimeResult<TDB> {
        converted(self.0, ffi::ct_tcb_to_tdb)
    }
}
