// Stands in for scales/mod.rs and for the seven scale files, which were not
// supplied. Of the macro `time_scale!` the supplied files use these two calls.

macro_rules! time_scale {
    ($(#[$note:meta])* $name:ident, j2000_note = $text:literal) => {
        $(#[$note])*
        #[derive(Debug, Clone, Copy, PartialEq)]
        pub struct $name($crate::julian::JulianDate);

        impl $name {
            pub fn from_julian_date(jd: $crate::julian::JulianDate) -> Self {
                Self(jd)
            }
            pub fn to_julian_date(&self) -> $crate::julian::JulianDate {
                self.0
            }
        }
    };
}

pub mod conversions;
pub mod utc;

pub mod gps {
    time_scale! { GPS, j2000_note = "" }
}
pub mod tai {
    time_scale! { TAI, j2000_note = "" }
}
pub mod tcb {
    time_scale! { TCB, j2000_note = "" }
}
pub mod tcg {
    time_scale! { TCG, j2000_note = "" }
}
pub mod tdb {
    time_scale! { TDB, j2000_note = "" }
}
pub mod tt {
    time_scale! { TT, j2000_note = "" }
}
pub mod ut1 {
    time_scale! { UT1, j2000_note = "" }
}

// The supplied common.rs, unchanged, with its private functions opened.
pub mod common {
    include!("common.rs");

    impl crate::transforms::Opened {
        pub fn is_leap_year(year: i32) -> bool {
            is_leap_year(year)
        }
        pub fn days_in_month(year: i32, month: i32) -> Option<i32> {
            days_in_month(year, month)
        }
        pub fn validate_calendar_date(year: i32, month: i32, day: i32) -> TimeResult<()> {
            validate_calendar_date(year, month, day)
        }
        pub fn next_calendar_day(year: i32, month: i32, day: i32) -> TimeResult<(i32, i32, i32)> {
            next_calendar_day(year, month, day)
        }
        pub fn offset_table_index(year: i32, month: i32) -> Option<usize> {
            offset_table_index(year, month)
        }
    }
}
