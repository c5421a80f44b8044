//! Universal Time.

use super::offset_by;
use super::tai::TAI;
use super::tt::TT;
use super::utc::UTC;
use crate::answers::date;
use crate::ffi;
use crate::julian::JulianDate;
use crate::refusal::TimeResult;
use crate::table::Table;

time_scale! {
    /// Universal Time, by the Earth's rotation.
    UT1
}

impl UT1 {
    /// TAI by UT1-TAI in seconds. Refuses 9; then 10.
    pub fn to_tai_with_offset(&self, ut1_tai_offset_seconds: f64) -> TimeResult<TAI> {
        offset_by(self.0, ut1_tai_offset_seconds, ffi::ct_ut1_to_tai_with_offset)
    }

    /// TT by TT-UT1 in seconds. Refuses 9; then 10.
    pub fn to_tt_with_delta_t(&self, delta_t_seconds: f64) -> TimeResult<TT> {
        offset_by(self.0, delta_t_seconds, ffi::ct_ut1_to_tt_with_delta_t)
    }

    /// UTC by UT1-UTC in seconds. Refuses 10; 9; then 6 or 1 by the days from one before to three after, as far as they
    /// are looked up.
    ///
    /// ```
    /// use celestial_time_proved::{julian::JulianDate, scales::ut1::UT1};
    /// let neither = UT1::from_julian_date(JulianDate::new(f64::NAN, 0.0));
    /// assert_eq!(neither.to_utc_with_dut1(f64::NAN).unwrap_err().number(), 10);
    /// assert_eq!(neither.to_utc_with_dut1(0.0).unwrap_err().number(), 9);
    /// ```
    pub fn to_utc_with_dut1(&self, dut1_seconds: f64) -> TimeResult<UTC> {
        self.to_utc_with_dut1_and_table(dut1_seconds, &Table::NONE)
    }

    /// [`to_utc_with_dut1`](Self::to_utc_with_dut1) under announced rows. Refuses 10; 9; then 6 or 1.
    pub fn to_utc_with_dut1_and_table(&self, dut1_seconds: f64, table: &Table) -> TimeResult<UTC> {
        let (jd1, jd2) = (self.0.jd1(), self.0.jd2());
        date(|out| ffi::ct_ut1_to_utc_with_dut1(jd1, jd2, dut1_seconds, table.as_bytes(), out))
            .map(UTC::from_julian_date)
    }
}
