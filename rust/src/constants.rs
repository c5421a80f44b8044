//! The source's public constant.

/// The Julian date of 1970-01-01 0h.
pub const UNIX_EPOCH_JD: f64 = 2440587.5;

/// The Julian date of 2000-01-01 12h.
pub(crate) const J2000_JD: f64 = 2451545.0;
