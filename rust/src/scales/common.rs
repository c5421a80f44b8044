//! The calendar, the proleptic Gregorian one with years as in ISO 8601 (0 is 1 BC), and TAI-UTC.

use crate::answers::{float_at, i32_at, judged, rule_at, written};
use crate::bytes::{bytes, bytes_mut};
use crate::ffi;
use crate::refusal::TimeResult;
use crate::table::{Rule, Table};

/// Whether the year has a 29 February.
pub fn is_leap_year(year: i32) -> bool {
    ffi::ct_is_leap_year(year) == 1
}

/// How many days a month has, 28 to 31; none where there is no such month.
///
/// ```
/// use celestial_time_proved::scales::common::days_in_month;
/// assert_eq!((days_in_month(1900, 2), days_in_month(2000, 2), days_in_month(2000, 13)), (Some(28), Some(29), None));
/// ```
pub fn days_in_month(year: i32, month: i32) -> Option<i32> {
    match ffi::ct_days_in_month(year, month) {
        0 => None,
        days => Some(days as i32),
    }
}

/// Whether the three are a date. Refuses 1, 2, 3.
///
/// ```
/// use celestial_time_proved::scales::common::validate_calendar_date;
/// assert!(validate_calendar_date(2000, 2, 29).is_ok());
/// assert_eq!(validate_calendar_date(-4800, 13, 40).unwrap_err().number(), 1);
/// assert_eq!(validate_calendar_date(2000, 13, 40).unwrap_err().number(), 2);
/// ```
pub fn validate_calendar_date(year: i32, month: i32, day: i32) -> TimeResult<()> {
    judged(ffi::ct_validate_calendar_date(year, month, day)).map(|_| ())
}

/// The next day: year, month, day. Refuses 1, 2, 3; then 5 on 2147483647-12-31.
///
/// ```
/// use celestial_time_proved::scales::common::next_calendar_day;
/// assert_eq!(next_calendar_day(1999, 12, 31), Ok((2000, 1, 1)));
/// assert_eq!(next_calendar_day(1900, 2, 29).unwrap_err().number(), 3);
/// assert_eq!(next_calendar_day(2147483647, 12, 31).unwrap_err().number(), 5);
/// ```
pub fn next_calendar_day(year: i32, month: i32, day: i32) -> TimeResult<(i32, i32, i32)> {
    let out = written::<12>(|out| ffi::ct_next_calendar_day(year, month, day, out))?;
    Ok((i32_at(&out, 0), i32_at(&out, 4), i32_at(&out, 8)))
}

/// TAI-UTC in seconds at a fraction of a day. Refuses 7; then 1, 2, 3.
///
/// ```
/// use celestial_time_proved::scales::common::get_tai_utc_offset;
/// assert_eq!(get_tai_utc_offset(2017, 1, 1, 0.0), Ok(37.0));
/// assert_eq!(get_tai_utc_offset(2000, 13, 1, 1.5).unwrap_err().number(), 7);
/// ```
pub fn get_tai_utc_offset(year: i32, month: i32, day: i32, fraction: f64) -> TimeResult<f64> {
    get_tai_utc_offset_with_table(year, month, day, fraction, &Table::NONE).map(|(seconds, _)| seconds)
}

/// [`get_tai_utc_offset`] under announced rows, and its rule. Refuses 7; then 1, 2, 3.
pub fn get_tai_utc_offset_with_table(
    year: i32,
    month: i32,
    day: i32,
    fraction: f64,
    table: &Table,
) -> TimeResult<(f64, Rule)> {
    let out = written::<16>(|out| ffi::ct_get_tai_utc_offset(year, month, day, fraction, table.as_bytes(), out))?;
    Ok((float_at(&out, 0), rule_at(&out, 8)))
}

/// What a walk through the table gives.
#[derive(Debug, Clone)]
pub struct Walked {
    /// TAI-UTC in seconds at 0h of each date, in the dates' order.
    pub seconds: Vec<f64>,
    /// How many rows of the table were compared, at most the dates plus 58.
    pub compared: u64,
}

/// TAI-UTC at 0h of each of many dates in time order (year, month, day), in one walk through the table. Equal dates may
/// follow each other. Refuses date by date 1, 2, 3, and 17 for one earlier than the one before it.
///
/// ```
/// use celestial_time_proved::{scales::common::offsets_at_0h, Table};
/// let walked = offsets_at_0h(&[[2016, 12, 31], [2017, 1, 1]], &Table::NONE).unwrap();
/// assert_eq!((walked.seconds, walked.compared), (vec![36.0, 37.0], 43));
/// let back = offsets_at_0h(&[[2017, 1, 1], [2016, 12, 31], [1999, 2, 29]], &Table::NONE);
/// assert_eq!(back.unwrap_err().number(), 17);
/// ```
pub fn offsets_at_0h(dates: &[[i32; 3]], table: &Table) -> TimeResult<Walked> {
    let mut seconds = vec![0.0; dates.len()];
    let compared = judged(ffi::ct_offsets_at_0h(bytes(dates), table.as_bytes(), bytes_mut(&mut seconds)))?;
    Ok(Walked { seconds, compared })
}
