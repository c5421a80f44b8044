// Stands in for scales/conversions/mod.rs, which was not supplied: the traits
// that the supplied conversions implement.

use crate::scales::gps::GPS;
use crate::scales::tai::TAI;
use crate::scales::tcg::TCG;
use crate::scales::tt::TT;
use crate::scales::utc::UTC;
use crate::TimeResult;

pub mod gps_tai;
pub mod tai_tt;
pub mod tcb_tdb;
pub mod tt_tcg;
pub mod tt_tdb;
pub mod ut1_tai;
pub mod utc_tai;
pub mod utc_ut1;

pub trait ToGPS {
    fn to_gps(&self) -> TimeResult<GPS>;
}
pub trait ToTAI {
    fn to_tai(&self) -> TimeResult<TAI>;
}
pub trait ToTCG {
    fn to_tcg(&self) -> TimeResult<TCG>;
}
pub trait ToTT {
    fn to_tt(&self) -> TimeResult<TT>;
}
pub trait ToUTC {
    fn to_utc(&self) -> TimeResult<UTC>;
}
