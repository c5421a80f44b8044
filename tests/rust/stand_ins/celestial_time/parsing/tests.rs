// The supplied parsing/mod.rs names this module under cfg(test). Here it opens
// the reader of the six fields, which the crate keeps to itself.

use crate::TimeResult;

impl crate::transforms::Opened {
    pub fn parse_iso8601(text: &str) -> TimeResult<(i32, u8, u8, u8, u8, f64)> {
        let p = super::parse_iso8601(text)?;
        Ok((p.year, p.month, p.day, p.hour, p.minute, p.second))
    }
}
