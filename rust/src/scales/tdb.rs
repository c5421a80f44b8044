//! Barycentric Dynamical Time.

use super::tcb::TCB;
use super::tt::TT;
use super::{converted, offset_by};
use crate::ffi;
use crate::julian::JulianDate;
use crate::refusal::TimeResult;

time_scale! {
    /// Barycentric Dynamical Time.
    TDB
}

impl TDB {
    /// TCB. Refuses 9; a part of what it gives may be an infinity.
    pub fn tdb_to_tcb(&self) -> TimeResult<TCB> {
        converted(self.0, ffi::ct_tdb_to_tcb)
    }

    /// TT by TDB-TT in seconds. Refuses 9; then 10.
    pub fn to_tt_with_offset(&self, dtr_seconds: f64) -> TimeResult<TT> {
        offset_by(self.0, dtr_seconds, ffi::ct_tdb_to_tt_with_offset)
    }
}
