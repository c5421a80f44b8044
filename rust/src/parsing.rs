//! Text read: YYYY-MM-DDThh:mm:ss, or a blank for the T, with a point and 1 to 13 digits or none. Bytes 9 to 13 and 32
//! around it are dropped.

use crate::answers::{float_at, i32_at, u32_at, written};
use crate::ffi;
use crate::julian::JulianDate;
use crate::refusal::TimeResult;

/// The six fields of a text.
#[derive(Debug, Clone, Copy)]
#[allow(missing_docs)]
pub struct ParsedDateTime {
    pub year: i32,
    pub month: u8,
    pub day: u8,
    pub hour: u8,
    pub minute: u8,
    pub second: f64,
}

impl ParsedDateTime {
    /// The Julian date of the fields, as [`JulianDate::from_calendar`]. Refuses 1, 2, 3; then 4.
    pub fn to_julian_date(&self) -> TimeResult<JulianDate> {
        JulianDate::from_calendar(self.year, self.month, self.day, self.hour, self.minute, self.second)
    }

    /// The fields in the first 28 bytes of an answer; those of 4 bytes are at most 59, the year aside.
    pub(crate) fn of_bytes(bytes: &[u8]) -> Self {
        let small = |at| u32_at(bytes, at) as u8;
        Self {
            year: i32_at(bytes, 0),
            month: small(4),
            day: small(8),
            hour: small(12),
            minute: small(16),
            second: float_at(bytes, 20),
        }
    }
}

/// The fields of a text of any scale; its second is the float nearest to its decimal. Second 60 may stand in any minute;
/// a Z is 15. Refuses 15; 16, more than 13 digits; 2, 3; then 4, an hour above 23, a minute above 59 or a second from 61
/// up.
///
/// ```
/// use celestial_time_proved::parsing::parse_iso8601;
/// let fields = parse_iso8601(" 2000-01-01 12:30:45.5").unwrap();
/// assert_eq!((fields.year, fields.hour, fields.minute, fields.second), (2000, 12, 30, 45.5));
/// assert_eq!(parse_iso8601("2000-01-01T12:00:00Z").unwrap_err().number(), 15);
/// assert_eq!(parse_iso8601("2000-13-01T24:00:00").unwrap_err().number(), 2);
/// ```
pub fn parse_iso8601(text: impl AsRef<[u8]>) -> TimeResult<ParsedDateTime> {
    let out = written::<28>(|out| ffi::ct_parse_iso8601(text.as_ref(), out))?;
    Ok(ParsedDateTime::of_bytes(&out))
}
