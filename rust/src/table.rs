//! Leap rows that were announced after the library was built, and the rules that TAI-UTC is read by.

use crate::answers::judged;
use crate::ffi;
use crate::refusal::{Refusal, TimeResult};
use crate::scales::common::validate_calendar_date;
use std::fmt;

const BYTES: usize = 136;
const MOST: usize = 16;

/// An announced row: the month from whose first day on TAI-UTC is so many whole seconds.
#[derive(Debug, Clone, Copy, PartialEq, Eq)]
pub struct Row {
    /// The year.
    pub year: i16,
    /// The month, 1 to 12.
    pub month: u8,
    /// TAI-UTC in seconds.
    pub seconds: i32,
}

/// 0 to 16 announced rows, which stand behind the library's own 42. It is tested when it is made, so that no call
/// refuses a table.
///
/// ```
/// use celestial_time_proved::{scales::common::get_tai_utc_offset_with_table, Row, Rule, Table};
/// let table = Table::new(&[Row { year: 2027, month: 1, seconds: 38 }]).unwrap(); // made up
/// assert_eq!(get_tai_utc_offset_with_table(2027, 1, 1, 0.0, &table), Ok((38.0, Rule::Whole(42))));
/// assert_eq!(table.rows(), 43);
/// ```
#[derive(Clone, Copy)]
pub struct Table([u8; BYTES]);

impl Table {
    /// The table of no rows, by which each call goes that is lent none.
    pub const NONE: Self = Self([0; BYTES]);

    /// The table of these rows. Refuses, of the rows one after the other, 1 for a year before -4799 and 2 for a month
    /// not 1 to 12; then 20 for more than 16 rows; 21 for a row that is not later than the one before it, the first
    /// than January 2017; 22 for one that is not one second more or less than the one before it, the first than 37.
    pub fn new(rows: &[Row]) -> TimeResult<Self> {
        let mut bytes = [0; BYTES];
        // More rows than there are places for are not written; their number alone refuses the table.
        let size = u32::try_from(rows.len()).unwrap_or(u32::MAX).to_le_bytes();
        bytes[..4].copy_from_slice(&size);
        bytes[4..8].copy_from_slice(&size);
        for (i, row) in rows.iter().enumerate() {
            validate_calendar_date(row.year.into(), row.month.into(), 1)?;
            if i < MOST {
                let month_start = 12 * i32::from(row.year) + i32::from(row.month) - 1;
                bytes[8 + 4 * i..][..4].copy_from_slice(&month_start.to_le_bytes());
                bytes[72 + 4 * i..][..4].copy_from_slice(&row.seconds.to_le_bytes());
            }
        }
        Self::from_bytes(&bytes)
    }

    /// The table of 136 bytes, as include/celestial_time.h describes them. Refuses 14 for another length; 20; 21; 22.
    pub fn from_bytes(bytes: &[u8]) -> TimeResult<Self> {
        judged(ffi::ct_check_table(bytes))?;
        let mut table = Self::NONE;
        table.0.copy_from_slice(bytes);
        Ok(table)
    }

    /// The table of a text's rows, and the Modified Julian Date until which it is known, 0 where the text tells none:
    /// lines as `2027-01 38`, or those of the IERS's leap-seconds.list. Refuses the first line at fault by its number,
    /// which comes with the line, counted from 1: 15 outside the form; 22 a row unlike the library's; 20; 21; 22.
    ///
    /// ```
    /// use celestial_time_proved::Table;
    /// let (table, known) = Table::read(b"#@ 4007750400\n2027-01 38\n").unwrap(); // made up
    /// assert_eq!((table.rows(), known), (43, 61406));
    /// assert_eq!(Table::read(b"2017-01 37\n2027-1 38\n").unwrap_err().0, 2);
    /// ```
    pub fn read(text: &[u8]) -> Result<(Self, u32), (u64, Refusal)> {
        let mut table = Self::NONE;
        let mut known = [0; 4];
        match judged(ffi::ct_read_table(text, &mut table.0, &mut known)) {
            Ok(_) => Ok((table, u32::from_le_bytes(known))),
            Err(refusal) => Err((judged(ffi::ct_table_fault(text)).unwrap_or_default(), refusal)),
        }
    }

    /// How many rows there are with the library's own: 42 to 58.
    pub fn rows(&self) -> u64 {
        judged(ffi::ct_check_table(&self.0)).unwrap_or_default()
    }

    /// The table's 136 bytes.
    pub fn as_bytes(&self) -> &[u8] {
        &self.0
    }
}

impl Default for Table {
    fn default() -> Self {
        Self::NONE
    }
}

impl fmt::Debug for Table {
    fn fmt(&self, f: &mut fmt::Formatter<'_>) -> fmt::Result {
        write!(f, "Table of {} rows", self.rows())
    }
}

/// Which row of the table TAI-UTC was read from, counted from 0: the rows 0 to 13 drift, 41 is that of 2017, and 42
/// the first announced one.
#[derive(Debug, Clone, Copy, PartialEq, Eq, Hash)]
pub enum Rule {
    /// Before 1960 there is no row.
    Absent,
    /// A row whose TAI-UTC drifts, 1960 to 1971.
    Drifting(u32),
    /// A row of whole seconds.
    Whole(u32),
}

impl Rule {
    /// The row, where there is one.
    pub fn row(&self) -> Option<u32> {
        match *self {
            Self::Absent => None,
            Self::Drifting(row) | Self::Whole(row) => Some(row),
        }
    }
}
