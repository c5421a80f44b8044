//! The dates and time scales of celestial-time over a proved library: two-part Julian dates, eight scales, the calendar,
//! TAI-UTC, UTC text, GPS weeks, runs of stamps and stamp blocks.
//!
//! Names and paths are those of celestial-time where it has them; docs/RUST.md has the list. Every decision is the
//! library's: this crate hands numbers and bytes on, compares no float, and is itself tested and not proved.
//!
//! ```
//! use celestial_time_proved::scales::utc::utc_from_calendar;
//! let utc = utc_from_calendar(2016, 12, 31, 23, 59, 60.5).unwrap();
//! let tt = utc.to_tai().unwrap().to_tt().unwrap();
//! assert_eq!(tt.to_tai().unwrap().to_utc().unwrap().to_iso8601().unwrap(), "2016-12-31T23:59:60.500");
//! ```
//!
//! A call that refuses answers a [`Refusal`], which has a number and a sentence. A doc comment lists the numbers in the
//! order in which the call tests. A call whose name ends in `with_table` or `and_table` goes by a [`Table`] of leap rows
//! that were announced after the library was built; the one without goes by none.
//!
//! The library assumes the processor's default float mode; [`float_mode`] asks for it.

#![forbid(unsafe_op_in_unsafe_fn)]
#![deny(missing_docs)]

mod answers;
pub mod blocks;
mod bytes;
pub mod constants;
mod ffi;
pub mod float_mode;
pub mod julian;
pub mod listing;
pub mod parsing;
pub mod refusal;
pub mod runs;
pub mod scales;
pub mod since_launch;
pub mod standby;
pub mod table;
pub mod ticks;

pub use julian::JulianDate;
pub use refusal::{Refusal, TimeError, TimeResult};
pub use table::{Row, Rule, Table};

/// The version of the library that is linked, as major * 1,000,000 + minor * 1,000 + patch. The crate has the same.
pub fn version() -> i64 {
    ffi::ct_version()
}
