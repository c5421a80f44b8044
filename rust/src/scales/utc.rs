//! Coordinated Universal Time: from Unix time, fields and text, and as text.
//!
//! On a day that ends in a leap second jd2 runs to the end of its 86,401 seconds; on one that ends in a step of -1 s,
//! which only an announced row can make, of its 86,399.

use super::tai::TAI;
use super::ut1::UT1;
use crate::answers::{date, date_at, float_at, rule_at, text, written};
use crate::ffi;
use crate::julian::JulianDate;
use crate::parsing::ParsedDateTime;
use crate::refusal::{Refusal, TimeResult};
use crate::table::{Rule, Table};
use std::str::FromStr;

time_scale! {
    /// Coordinated Universal Time.
    UTC
}

/// A form of text.
#[derive(Debug, Clone, Copy, PartialEq, Eq)]
pub enum Form {
    /// To the nearest millisecond, 23 to 26 bytes.
    Nearest,
    /// The same with a half millisecond to the even one.
    HalfEven,
    /// To the nearest millisecond, with a sign and seven digits for a year outside 0000 to 9999: 23 or 27 bytes.
    Expanded,
}

const LONGEST_TEXT: usize = 27;

impl UTC {
    /// The date of a Unix time, divided downward. Refuses 8; 6; then 1.
    ///
    /// ```
    /// use celestial_time_proved::scales::utc::UTC;
    /// assert_eq!(UTC::new(-1, 0).unwrap().to_iso8601().unwrap(), "1969-12-31T23:59:59.000");
    /// assert_eq!(UTC::new(i64::MAX, 1_000_000_000).unwrap_err().number(), 8);
    /// assert_eq!(UTC::new(i64::MIN, 0).unwrap_err().number(), 6);
    /// ```
    pub fn new(seconds: i64, nanos: u32) -> TimeResult<Self> {
        Self::new_with_table(seconds, nanos, &Table::NONE)
    }

    /// [`new`](Self::new) under announced rows. Refuses 8; 6; then 1; then 4, in the last second that Unix time counts
    /// in a day of 86,399 s.
    pub fn new_with_table(seconds: i64, nanos: u32, table: &Table) -> TimeResult<Self> {
        date(|out| ffi::ct_utc_new(seconds, nanos, table.as_bytes(), out)).map(Self)
    }

    /// TAI. Refuses 6; then 1.
    ///
    /// ```
    /// use celestial_time_proved::{julian::JulianDate, scales::utc::UTC};
    /// let tai = UTC::from_julian_date(JulianDate::new(2457753.5, 0.0)).to_tai().unwrap();
    /// assert_eq!(tai.to_julian_date(), JulianDate::new(2457753.5, 0.0004166666666666667));
    /// let before = UTC::from_julian_date(JulianDate::new(-31739.5, 0.0)); // -4800-12-31
    /// assert_eq!(before.to_tai().unwrap_err().number(), 1);
    /// ```
    pub fn to_tai(&self) -> TimeResult<TAI> {
        self.to_tai_with_table(&Table::NONE).map(|(tai, _)| tai)
    }

    /// [`to_tai`](Self::to_tai) under announced rows, and the rule of the day. Refuses 6; then 1.
    pub fn to_tai_with_table(&self, table: &Table) -> TimeResult<(TAI, Rule)> {
        let out = written::<24>(|out| ffi::ct_utc_to_tai(self.0.jd1(), self.0.jd2(), table.as_bytes(), out))?;
        Ok((TAI::from_julian_date(date_at(&out, 0)), rule_at(&out, 16)))
    }

    /// UT1 by UT1-UTC in seconds. Refuses 10; 6; then 1.
    ///
    /// ```
    /// use celestial_time_proved::{julian::JulianDate, scales::utc::UTC};
    /// let neither = UTC::from_julian_date(JulianDate::new(f64::NAN, 0.0));
    /// assert_eq!(neither.to_ut1_with_dut1(f64::NAN).unwrap_err().number(), 10);
    /// ```
    pub fn to_ut1_with_dut1(&self, dut1_seconds: f64) -> TimeResult<UT1> {
        self.to_ut1_with_dut1_and_table(dut1_seconds, &Table::NONE).map(|(ut1, _)| ut1)
    }

    /// [`to_ut1_with_dut1`](Self::to_ut1_with_dut1) under announced rows, and the rule of the day. Refuses 10; 6; then 1.
    pub fn to_ut1_with_dut1_and_table(&self, dut1_seconds: f64, table: &Table) -> TimeResult<(UT1, Rule)> {
        let (jd1, jd2) = (self.0.jd1(), self.0.jd2());
        let out = written::<24>(|out| ffi::ct_utc_to_ut1_with_dut1(jd1, jd2, dut1_seconds, table.as_bytes(), out))?;
        Ok((UT1::from_julian_date(date_at(&out, 0)), rule_at(&out, 16)))
    }

    /// The text of the date to the nearest millisecond. Refuses 6; then 1.
    ///
    /// ```
    /// use celestial_time_proved::{julian::JulianDate, scales::utc::{utc_from_calendar, UTC}};
    /// let leap = utc_from_calendar(2016, 12, 31, 23, 59, 60.0).unwrap();
    /// assert_eq!(leap.to_iso8601().unwrap(), "2016-12-31T23:59:60.000");
    /// let before = UTC::from_julian_date(JulianDate::new(-68571.0, 0.0));
    /// assert_eq!(before.to_iso8601().unwrap_err().number(), 6);
    /// ```
    pub fn to_iso8601(&self) -> TimeResult<String> {
        self.to_text_with_table(Form::Nearest, &Table::NONE).map(|(text, _)| text)
    }

    /// The text with a half millisecond to the even one. Refuses 6; then 1.
    ///
    /// ```
    /// use celestial_time_proved::{julian::JulianDate, scales::utc::UTC};
    /// let half = UTC::from_julian_date(JulianDate::new(2451544.5, 3.0 / 2048.0));
    /// assert_eq!(half.to_iso8601_half_even().unwrap(), "2000-01-01T00:02:06.562");
    /// assert_eq!(half.to_iso8601().unwrap(), "2000-01-01T00:02:06.563");
    /// ```
    pub fn to_iso8601_half_even(&self) -> TimeResult<String> {
        self.to_text_with_table(Form::HalfEven, &Table::NONE).map(|(text, _)| text)
    }

    /// The text with a sign and seven digits for a year outside 0000 to 9999. Refuses 6; then 1.
    ///
    /// ```
    /// use celestial_time_proved::scales::utc::utc_from_calendar;
    /// let (before, after) = (utc_from_calendar(-1, 12, 31, 0, 0, 0.0), utc_from_calendar(12000, 1, 1, 0, 0, 0.0));
    /// assert_eq!(before.unwrap().to_iso8601_expanded().unwrap(), "-0000001-12-31T00:00:00.000");
    /// assert_eq!(after.unwrap().to_iso8601_expanded().unwrap(), "+0012000-01-01T00:00:00.000");
    /// ```
    pub fn to_iso8601_expanded(&self) -> TimeResult<String> {
        self.to_text_with_table(Form::Expanded, &Table::NONE).map(|(text, _)| text)
    }

    /// The text in a form under announced rows, and the rule of its day: of the day before any carry, so a text that
    /// shows the next midnight has that of the day that ends there. Refuses 6; then 1.
    pub fn to_text_with_table(&self, form: Form, table: &Table) -> TimeResult<(String, Rule)> {
        let call = match form {
            Form::Nearest => ffi::ct_to_iso8601,
            Form::HalfEven => ffi::ct_to_iso8601_half_even,
            Form::Expanded => ffi::ct_to_iso8601_expanded,
        };
        let mut rule = [0; 8];
        let text = text::<LONGEST_TEXT>(|out| call(self.0.jd1(), self.0.jd2(), table.as_bytes(), out, &mut rule))?;
        Ok((text, rule_at(&rule, 0)))
    }

    /// The date of a text under announced rows, and the text's fields; the text may have one Z directly behind its
    /// second. Refuses 15; 16; 2, 3; then 4, where the limit at 23:59 is 60 plus the day's leap.
    pub fn from_iso8601_with_table(text: impl AsRef<[u8]>, table: &Table) -> TimeResult<(Self, ParsedDateTime)> {
        let out = written::<44>(|out| ffi::ct_utc_from_iso8601(text.as_ref(), table.as_bytes(), out))?;
        Ok((Self(date_at(&out, 28)), ParsedDateTime::of_bytes(&out)))
    }
}

/// The date of a text by the library's own rows. Refuses 15; 16; 2, 3; then 4.
///
/// ```
/// use celestial_time_proved::scales::utc::UTC;
/// let utc: UTC = "2016-12-31T23:59:60.5Z".parse().unwrap();
/// assert_eq!(utc.to_iso8601().unwrap(), "2016-12-31T23:59:60.500");
/// assert_eq!("2015-12-31T23:59:60".parse::<UTC>().unwrap_err().number(), 4);
/// assert_eq!("2000-13-01T24:00:00Z".parse::<UTC>().unwrap_err().number(), 2);
/// ```
impl FromStr for UTC {
    type Err = Refusal;

    fn from_str(text: &str) -> TimeResult<Self> {
        Self::from_iso8601_with_table(text, &Table::NONE).map(|(utc, _)| utc)
    }
}

/// The date of a day and time. Refuses 1, 2, 3; then 5; then 4, where the limit at 23:59 is 60 plus the day's leap.
///
/// ```
/// use celestial_time_proved::scales::utc::utc_from_calendar;
/// assert!(utc_from_calendar(2016, 12, 31, 23, 59, 60.0).is_ok());
/// assert_eq!(utc_from_calendar(2147483647, 12, 31, 25, 0, 0.0).unwrap_err().number(), 5);
/// ```
pub fn utc_from_calendar(year: i32, month: u8, day: u8, hour: u8, minute: u8, second: f64) -> TimeResult<UTC> {
    utc_from_calendar_with_table(year, month, day, hour, minute, second, &Table::NONE)
}

/// [`utc_from_calendar`] under announced rows. Refuses 1, 2, 3; then 5; then 4.
pub fn utc_from_calendar_with_table(
    year: i32,
    month: u8,
    day: u8,
    hour: u8,
    minute: u8,
    second: f64,
    table: &Table,
) -> TimeResult<UTC> {
    date(|out| ffi::ct_utc_from_calendar(year, month, day, hour, minute, second, table.as_bytes(), out)).map(UTC)
}

/// The step of TAI-UTC at the end of a day in seconds. On a day of 1960 to 1971 without a step it may be some last places
/// off zero. Refuses 1, 2, 3; then 5 on 2147483647-12-31.
///
/// ```
/// use celestial_time_proved::scales::utc::leap_at_end_of_day;
/// assert_eq!(leap_at_end_of_day(2016, 12, 31), Ok(1.0));
/// assert_eq!(leap_at_end_of_day(1960, 1, 1), Ok(-f64::EPSILON / 2.0));
/// assert_eq!(leap_at_end_of_day(2000, 13, 40).unwrap_err().number(), 2);
/// ```
pub fn leap_at_end_of_day(year: i32, month: i32, day: i32) -> TimeResult<f64> {
    leap_at_end_of_day_with_table(year, month, day, &Table::NONE)
}

/// [`leap_at_end_of_day`] under announced rows. Refuses 1, 2, 3; then 5.
pub fn leap_at_end_of_day_with_table(year: i32, month: i32, day: i32, table: &Table) -> TimeResult<f64> {
    written::<8>(|out| ffi::ct_leap_at_end_of_day(year, month, day, table.as_bytes(), out)).map(|out| float_at(&out, 0))
}
