//! The eight time scales: a type for each, so that a date of one can't be given where another is due.
//!
//! ```
//! use celestial_time_proved::{julian::JulianDate, scales::utc::UTC};
//! let utc = UTC::from_julian_date(JulianDate::new(2457753.5, 0.0));
//! let tt = utc.to_tai().unwrap().to_tt().unwrap();
//! assert_eq!(tt.to_julian_date().jd1(), 2457753.5);
//! ```
//!
//! TAI where UTC is due does not compile:
//!
//! ```compile_fail,E0308
//! use celestial_time_proved::{julian::JulianDate, scales::{tai::TAI, utc::UTC}};
//! fn shown(utc: UTC) -> String { utc.to_iso8601().unwrap() }
//! shown(TAI::from_julian_date(JulianDate::j2000()));
//! ```
//!
//! Nor do a conversion that goes to another scale, a comparison across scales, or `==` across them:
//!
//! ```compile_fail,E0308
//! use celestial_time_proved::{julian::JulianDate, scales::{gps::GPS, utc::UTC}};
//! let utc: UTC = GPS::from_julian_date(JulianDate::j2000()).to_tai().unwrap();
//! ```
//!
//! ```compile_fail,E0308
//! use celestial_time_proved::{julian::JulianDate, scales::{tai::TAI, tt::TT}};
//! let (tai, tt) = (TAI::from_julian_date(JulianDate::j2000()), TT::from_julian_date(JulianDate::j2000()));
//! tai.compare(&tt).unwrap();
//! ```
//!
//! ```compile_fail,E0308
//! use celestial_time_proved::{julian::JulianDate, scales::{tai::TAI, tt::TT}};
//! assert!(TAI::from_julian_date(JulianDate::j2000()) == TT::from_julian_date(JulianDate::j2000()));
//! ```
//!
//! Nor a conversion that the scale does not have:
//!
//! ```compile_fail,E0599
//! use celestial_time_proved::{julian::JulianDate, scales::tcb::TCB};
//! TCB::from_julian_date(JulianDate::j2000()).to_utc().unwrap();
//! ```

use crate::answers::date;
use crate::ffi;
use crate::julian::JulianDate;
use crate::refusal::TimeResult;

/// A scale's type, around a Julian date.
macro_rules! time_scale {
    ($(#[$note:meta])* $name:ident) => {
        $(#[$note])*
        #[derive(Debug, Clone, Copy, PartialEq)]
        pub struct $name(JulianDate);

        impl $name {
            /// This Julian date, counted in this scale. Refuses nothing.
            pub fn from_julian_date(jd: JulianDate) -> Self {
                Self(jd)
            }

            /// The Julian date of it.
            pub fn to_julian_date(&self) -> JulianDate {
                self.0
            }

            /// Which of two dates of the scale is first, as [`JulianDate::compare`]. Refuses 9.
            pub fn compare(&self, other: &Self) -> TimeResult<std::cmp::Ordering> {
                self.0.compare(&other.0)
            }

            /// Whether two stamps are the same: one scale, and both parts with the same bits, as [`same_bits`].
            ///
            /// [`same_bits`]: crate::scales::same_bits
            pub fn same_stamp<Other: $crate::scales::TimeScale>(&self, other: &Other) -> bool {
                let (a, b) = (self.0, other.to_julian_date());
                let (mine, others) = ([a.jd1().to_bits(), a.jd2().to_bits()], [b.jd1().to_bits(), b.jd2().to_bits()]);
                $crate::scales::same_bits($crate::scales::Scale::$name, mine, Other::SCALE, others)
            }
        }

        impl $crate::scales::TimeScale for $name {
            const SCALE: $crate::scales::Scale = $crate::scales::Scale::$name;

            fn from_julian_date(jd: JulianDate) -> Self {
                Self(jd)
            }

            fn to_julian_date(&self) -> JulianDate {
                self.0
            }
        }
    };
}

pub mod common;
pub mod conversions;
pub mod gps;
pub mod tai;
pub mod tcb;
pub mod tcg;
pub mod tdb;
pub mod tt;
pub mod ut1;
pub mod utc;

/// The scales by the numbers that the library has for them.
#[derive(Debug, Clone, Copy, PartialEq, Eq, Hash)]
#[repr(u32)]
#[allow(missing_docs)]
pub enum Scale {
    UTC,
    TAI,
    UT1,
    TT,
    GPS,
    TCG,
    TCB,
    TDB,
}

/// What the eight types have in common.
pub trait TimeScale: Copy {
    /// The scale that the type counts in.
    const SCALE: Scale;
    /// This Julian date, counted in the scale.
    fn from_julian_date(jd: JulianDate) -> Self;
    /// The Julian date of it.
    fn to_julian_date(&self) -> JulianDate;
}

/// Whether two stamps are the same: one scale, and both parts with the same bits. A NaN is the same as itself and not as
/// another NaN; 0.0 and -0.0 are two. Two divisions of one date are equal and not the same. Refuses nothing.
///
/// ```
/// use celestial_time_proved::scales::{same_bits, Scale};
/// let (zero, below) = (0.0_f64.to_bits(), (-0.0_f64).to_bits());
/// assert!(same_bits(Scale::TAI, [zero, zero], Scale::TAI, [zero, zero]));
/// assert!(!same_bits(Scale::TAI, [zero, zero], Scale::TAI, [zero, below]));
/// assert!(!same_bits(Scale::TAI, [zero, zero], Scale::TT, [zero, zero]));
/// ```
pub fn same_bits(scale: Scale, parts: [u64; 2], other_scale: Scale, other: [u64; 2]) -> bool {
    ffi::ct_same_stamp(scale as u32, parts[0], parts[1], other_scale as u32, other[0], other[1]) == 1
}

/// The date of the other scale that a call without an offset gives.
fn converted<To: TimeScale>(jd: JulianDate, call: fn(f64, f64, &mut [u8]) -> i64) -> TimeResult<To> {
    date(|out| call(jd.jd1(), jd.jd2(), out)).map(To::from_julian_date)
}

/// The date of the other scale that a call with an offset in seconds gives.
fn offset_by<To: TimeScale>(jd: JulianDate, seconds: f64, call: fn(f64, f64, f64, &mut [u8]) -> i64) -> TimeResult<To> {
    date(|out| call(jd.jd1(), jd.jd2(), seconds, out)).map(To::from_julian_date)
}
