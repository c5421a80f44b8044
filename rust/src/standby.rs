//! Crew standby by quarter hours.

use crate::answers::{u64_at, written};
use crate::ffi;
use crate::refusal::TimeResult;
use crate::table::Table;

/// A UTC time to the millisecond.
#[derive(Debug, Clone, Copy, PartialEq, Eq)]
#[allow(missing_docs)]
pub struct Moment {
    pub year: i32,
    pub month: u8,
    pub day: u8,
    pub hour: u8,
    pub minute: u8,
    pub second: u8,
    pub millis: u32,
}

/// What a quarter hour costs, and whose lines it is shared by.
#[derive(Debug, Clone, Copy, PartialEq, Eq)]
pub struct Tariff {
    /// Cents for each started quarter hour.
    pub rate: u32,
    /// Metres of line of the first owner.
    pub first_metres: u32,
    /// Metres of line of the second.
    pub second_metres: u32,
}

/// A bill.
#[derive(Debug, Clone, Copy, PartialEq, Eq)]
pub struct Bill {
    /// The started quarter hours.
    pub quarters: u64,
    /// The first owner's share in cents.
    pub first_cents: u64,
    /// The second's.
    pub second_cents: u64,
}

/// The bill between two UTC times: each started 900 s, leap seconds counted, shared by metres of line. Both shares are
/// rounded down, and a cent left over goes to the larger remainder, a tie to the first. Equal times cost 0.
///
/// Refuses of the start, then of the end: 1 for a year before 1972, 2, 3, 5, 4 as [`utc_from_calendar`], 4 also for a
/// millisecond over 999; 26 for an end before the start; 27 for a rate, a length or quarters over 1,000,000; 28 for both
/// lengths 0.
///
/// ```
/// use celestial_time_proved::{standby::{standby_bill, Bill, Moment, Tariff}, Table};
/// let start = Moment { year: 2016, month: 12, day: 31, hour: 23, minute: 45, second: 0, millis: 0 };
/// let end = Moment { year: 2017, month: 1, day: 1, hour: 0, minute: 0, second: 0, millis: 0 };
/// let tariff = Tariff { rate: 100, first_metres: 1, second_metres: 1 };
/// let bill = standby_bill(start, end, tariff, &Table::NONE);
/// assert_eq!(bill, Ok(Bill { quarters: 2, first_cents: 100, second_cents: 100 }));
/// assert_eq!(standby_bill(end, start, tariff, &Table::NONE).unwrap_err().number(), 26);
/// ```
///
/// [`utc_from_calendar`]: crate::scales::utc::utc_from_calendar
pub fn standby_bill(start: Moment, end: Moment, tariff: Tariff, table: &Table) -> TimeResult<Bill> {
    let out = written::<24>(|out| {
        ffi::ct_standby_bill(
            start.year,
            start.month,
            start.day,
            start.hour,
            start.minute,
            start.second,
            start.millis,
            end.year,
            end.month,
            end.day,
            end.hour,
            end.minute,
            end.second,
            end.millis,
            tariff.rate,
            tariff.first_metres,
            tariff.second_metres,
            table.as_bytes(),
            out,
        )
    })?;
    Ok(Bill { quarters: u64_at(&out, 0), first_cents: u64_at(&out, 8), second_cents: u64_at(&out, 16) })
}
