//! International Atomic Time.

use super::gps::GPS;
use super::tcg::TCG;
use super::tt::TT;
use super::ut1::UT1;
use super::utc::UTC;
use super::{converted, offset_by};
use crate::answers::date;
use crate::ffi;
use crate::julian::JulianDate;
use crate::refusal::TimeResult;
use crate::table::Table;

time_scale! {
    /// International Atomic Time.
    TAI
}

impl TAI {
    /// GPS time, 19 seconds earlier. Refuses 9.
    pub fn to_gps(&self) -> TimeResult<GPS> {
        converted(self.0, ffi::ct_tai_to_gps)
    }

    /// TT, 32.184 seconds later. Refuses 9.
    pub fn to_tt(&self) -> TimeResult<TT> {
        converted(self.0, ffi::ct_tai_to_tt)
    }

    /// TCG, by way of TT. Refuses 9.
    pub fn to_tcg(&self) -> TimeResult<TCG> {
        converted(self.0, ffi::ct_tai_to_tcg)
    }

    /// UT1 by UT1-TAI in seconds. Refuses 9; then 10.
    pub fn to_ut1_with_offset(&self, ut1_tai_offset_seconds: f64) -> TimeResult<UT1> {
        offset_by(self.0, ut1_tai_offset_seconds, ffi::ct_tai_to_ut1_with_offset)
    }

    /// UTC. Refuses 6; then 1.
    ///
    /// ```
    /// use celestial_time_proved::{julian::JulianDate, scales::tai::TAI};
    /// let in_the_leap_second = TAI::from_julian_date(JulianDate::new(2457754.5, 36.5 / 86400.0));
    /// assert_eq!(in_the_leap_second.to_utc().unwrap().to_iso8601().unwrap(), "2016-12-31T23:59:60.500");
    /// let before = TAI::from_julian_date(JulianDate::new(-68571.0, 0.0));
    /// assert_eq!(before.to_utc().unwrap_err().number(), 6);
    /// ```
    pub fn to_utc(&self) -> TimeResult<UTC> {
        self.to_utc_with_table(&Table::NONE)
    }

    /// [`to_utc`](Self::to_utc) under announced rows. Refuses 6; then 1.
    pub fn to_utc_with_table(&self, table: &Table) -> TimeResult<UTC> {
        let (jd1, jd2) = (self.0.jd1(), self.0.jd2());
        date(|out| ffi::ct_tai_to_utc(jd1, jd2, table.as_bytes(), out)).map(UTC::from_julian_date)
    }
}
