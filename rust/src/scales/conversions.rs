//! The source's traits, at its paths: each method is the one of the same name that the scale's type has, so that a
//! trait need not be imported to call it.

use super::gps::GPS;
use super::tai::TAI;
use super::tcg::TCG;
use super::tt::TT;
use super::utc::UTC;
use crate::refusal::TimeResult;

/// A trait of one method, and the scales that have it; with an offset it is one scale.
macro_rules! conversion {
    ($(#[$note:meta])* $trait:ident, $method:ident() -> $to:ident, $($from:ident)+) => {
        $(#[$note])*
        pub trait $trait {
            /// As the method of the same name of the scale's type, with its refusals.
            fn $method(&self) -> TimeResult<$to>;
        }
        $(impl $trait for $from {
            fn $method(&self) -> TimeResult<$to> {
                <$from>::$method(self)
            }
        })+
    };
    ($(#[$note:meta])* $trait:ident, $method:ident($by:ident) -> $to:ident, $from:ident) => {
        $(#[$note])*
        pub trait $trait {
            /// As the method of the same name of the scale's type, with its refusals.
            fn $method(&self, $by: f64) -> TimeResult<$to>;
        }
        impl $trait for $from {
            fn $method(&self, $by: f64) -> TimeResult<$to> {
                <$from>::$method(self, $by)
            }
        }
    };
}

conversion! { /// To GPS.
ToGPS, to_gps() -> GPS, TAI }
conversion! { /// To TAI.
ToTAI, to_tai() -> TAI, GPS TT TCG UTC }
conversion! { /// To TCG.
ToTCG, to_tcg() -> TCG, TAI TT }
conversion! { /// To TT.
ToTT, to_tt() -> TT, TAI TCG }
conversion! { /// To UTC.
ToUTC, to_utc() -> UTC, TAI }

/// TCB and TDB.
pub mod tcb_tdb {
    use crate::refusal::TimeResult;
    use crate::scales::{tcb::TCB, tdb::TDB};

    conversion! { /// TCB to TDB.
    TcbToTdb, tcb_to_tdb() -> TDB, TCB }
    conversion! { /// TDB to TCB.
    TdbToTcb, tdb_to_tcb() -> TCB, TDB }
}

/// TT and TDB.
pub mod tt_tdb {
    use crate::refusal::TimeResult;
    use crate::scales::{tdb::TDB, tt::TT};

    conversion! { /// TT to TDB.
    ToTDB, to_tdb_with_offset(dtr_seconds) -> TDB, TT }
    conversion! { /// TDB to TT.
    ToTTFromTDB, to_tt_with_offset(dtr_seconds) -> TT, TDB }
}

/// UT1, TAI and TT.
pub mod ut1_tai {
    use crate::refusal::TimeResult;
    use crate::scales::{tai::TAI, tt::TT, ut1::UT1};

    conversion! { /// TAI to UT1.
    ToUT1WithOffset, to_ut1_with_offset(ut1_tai_offset_seconds) -> UT1, TAI }
    conversion! { /// UT1 to TAI.
    ToTAIWithOffset, to_tai_with_offset(ut1_tai_offset_seconds) -> TAI, UT1 }
    conversion! { /// UT1 to TT.
    ToTTWithDeltaT, to_tt_with_delta_t(delta_t_seconds) -> TT, UT1 }
    conversion! { /// TT to UT1.
    ToUT1WithDeltaT, to_ut1_with_delta_t(delta_t_seconds) -> UT1, TT }
}

/// The calendar and Julian dates, where the source has them.
pub mod utc_tai {
    use crate::answers::{float_at, i32_at, written};
    use crate::ffi;
    use crate::refusal::TimeResult;

    /// The day of a Julian date, and the part of it that has passed: year, month, day, fraction. Refuses 6. At the lowest
    /// end, (-68569.5, -2^-52), the date is -4900-02-30.
    ///
    /// ```
    /// use celestial_time_proved::scales::conversions::utc_tai::julian_to_calendar;
    /// assert_eq!(julian_to_calendar(2451545.0, 0.0), Ok((2000, 1, 1, 0.5)));
    /// assert_eq!(julian_to_calendar(f64::NAN, 0.0).unwrap_err().number(), 6);
    /// ```
    pub fn julian_to_calendar(jd1: f64, jd2: f64) -> TimeResult<(i32, i32, i32, f64)> {
        let out = written::<20>(|out| ffi::ct_julian_to_calendar(jd1, jd2, out))?;
        Ok((i32_at(&out, 0), i32_at(&out, 4), i32_at(&out, 8), float_at(&out, 12)))
    }

    /// The Julian date of a day's midnight: 2400000.5 and the Modified Julian Date. Refuses 1, 2, 3.
    ///
    /// ```
    /// use celestial_time_proved::scales::conversions::utc_tai::calendar_to_julian;
    /// assert_eq!(calendar_to_julian(2000, 1, 1), Ok((2400000.5, 51544.0)));
    /// assert_eq!(calendar_to_julian(-4800, 13, 40).unwrap_err().number(), 1);
    /// ```
    pub fn calendar_to_julian(year: i32, month: i32, day: i32) -> TimeResult<(f64, f64)> {
        let out = written::<16>(|out| ffi::ct_calendar_to_julian(year, month, day, out))?;
        Ok((float_at(&out, 0), float_at(&out, 8)))
    }
}

/// UTC and UT1.
pub mod utc_ut1 {
    use crate::refusal::TimeResult;
    use crate::scales::{ut1::UT1, utc::UTC};

    conversion! { /// UTC to UT1.
    ToUT1WithDUT1, to_ut1_with_dut1(dut1_seconds) -> UT1, UTC }
    conversion! { /// UT1 to UTC.
    ToUTCWithDUT1, to_utc_with_dut1(dut1_seconds) -> UTC, UT1 }
}
