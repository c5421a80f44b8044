// Stands in for the crate celestial_core, which was not supplied. The values
// are those of document 01 and of the constants' names.

pub mod constants {
    pub const J2000_JD: f64 = 2451545.0;
    pub const MJD_ZERO_POINT: f64 = 2400000.5;
    pub const DAYS_PER_JULIAN_YEAR: f64 = 365.25;
    pub const SECONDS_PER_DAY: i64 = 86_400;
    pub const SECONDS_PER_DAY_F64: f64 = 86_400.0;
    pub const NANOSECONDS_PER_SECOND: u32 = 1_000_000_000;
    pub const NANOSECONDS_PER_SECOND_F64: f64 = 1e9;
}

pub mod errors {
    #[derive(Debug)]
    pub struct AstroError;

    impl std::fmt::Display for AstroError {
        fn fmt(&self, f: &mut std::fmt::Formatter<'_>) -> std::fmt::Result {
            f.write_str("not supplied")
        }
    }
}

// Only the calls that need a place on Earth use what follows. They are left
// out of the comparison, so these are never run.
pub mod location {
    use crate::errors::AstroError;

    pub struct Location;

    impl Location {
        pub fn from_degrees(_: f64, _: f64, _: f64) -> Result<Self, AstroError> {
            unimplemented!()
        }
        pub fn to_geocentric_km(&self) -> (f64, f64) {
            unimplemented!()
        }
        pub fn longitude(&self) -> f64 {
            unimplemented!()
        }
    }
}

pub mod math {
    pub fn fmod(_: f64, _: f64) -> f64 {
        unimplemented!()
    }
}
