//! The source's traits: each gives what the method of the same name gives, and generic code can ask for it.

use crate::at;
use celestial_time_proved::scales::conversions::tcb_tdb::{TcbToTdb, TdbToTcb};
use celestial_time_proved::scales::conversions::tt_tdb::{ToTDB, ToTTFromTDB};
use celestial_time_proved::scales::conversions::ut1_tai::{
    ToTAIWithOffset, ToTTWithDeltaT, ToUT1WithDeltaT, ToUT1WithOffset,
};
use celestial_time_proved::scales::conversions::utc_ut1::{ToUT1WithDUT1, ToUTCWithDUT1};
use celestial_time_proved::scales::conversions::{ToGPS, ToTAI, ToTCG, ToTT, ToUTC};
use celestial_time_proved::scales::gps::GPS;
use celestial_time_proved::scales::tai::TAI;
use celestial_time_proved::scales::tcb::TCB;
use celestial_time_proved::scales::tcg::TCG;
use celestial_time_proved::scales::tdb::TDB;
use celestial_time_proved::scales::tt::TT;
use celestial_time_proved::scales::ut1::UT1;
use celestial_time_proved::scales::utc::UTC;
use celestial_time_proved::TimeResult;

fn tai_of(date: impl ToTAI) -> TimeResult<TAI> {
    date.to_tai()
}

#[test]
fn without_an_offset() {
    let tai = at::<TAI>(2451545.0, 0.25);
    assert_eq!(tai_of(at::<GPS>(2451545.0, 0.25)), at::<GPS>(2451545.0, 0.25).to_tai());
    assert_eq!(tai_of(at::<TT>(2451545.0, 0.25)), at::<TT>(2451545.0, 0.25).to_tai());
    assert_eq!(tai_of(at::<TCG>(2451545.0, 0.25)), at::<TCG>(2451545.0, 0.25).to_tai());
    assert_eq!(tai_of(at::<UTC>(2451545.0, 0.25)), at::<UTC>(2451545.0, 0.25).to_tai());
    assert_eq!(ToGPS::to_gps(&tai), tai.to_gps());
    assert_eq!(ToTCG::to_tcg(&tai), tai.to_tcg());
    assert_eq!(ToTT::to_tt(&tai), tai.to_tt());
    assert_eq!(ToUTC::to_utc(&tai), tai.to_utc());
    let (tt, tcg) = (at::<TT>(2451545.0, 0.25), at::<TCG>(2451545.0, 0.25));
    assert_eq!((ToTCG::to_tcg(&tt), ToTT::to_tt(&tcg)), (tt.to_tcg(), tcg.to_tt()));
    let (tcb, tdb) = (at::<TCB>(2451545.0, 0.25), at::<TDB>(2451545.0, 0.25));
    assert_eq!((TcbToTdb::tcb_to_tdb(&tcb), TdbToTcb::tdb_to_tcb(&tdb)), (tcb.tcb_to_tdb(), tdb.tdb_to_tcb()));
}

#[test]
fn with_an_offset() {
    let (tai, tt, tdb) = (at::<TAI>(2451545.0, 0.25), at::<TT>(2451545.0, 0.25), at::<TDB>(2451545.0, 0.25));
    let (ut1, utc) = (at::<UT1>(2451545.0, 0.25), at::<UTC>(2451545.0, 0.25));
    assert_eq!(ToTDB::to_tdb_with_offset(&tt, 0.5), tt.to_tdb_with_offset(0.5));
    assert_eq!(ToTTFromTDB::to_tt_with_offset(&tdb, 0.5), tdb.to_tt_with_offset(0.5));
    assert_eq!(ToTAIWithOffset::to_tai_with_offset(&ut1, 0.5), ut1.to_tai_with_offset(0.5));
    assert_eq!(ToUT1WithOffset::to_ut1_with_offset(&tai, 0.5), tai.to_ut1_with_offset(0.5));
    assert_eq!(ToTTWithDeltaT::to_tt_with_delta_t(&ut1, 0.5), ut1.to_tt_with_delta_t(0.5));
    assert_eq!(ToUT1WithDeltaT::to_ut1_with_delta_t(&tt, 0.5), tt.to_ut1_with_delta_t(0.5));
    assert_eq!(ToUT1WithDUT1::to_ut1_with_dut1(&utc, 0.5), utc.to_ut1_with_dut1(0.5));
    assert_eq!(ToUTCWithDUT1::to_utc_with_dut1(&ut1, 0.5), ut1.to_utc_with_dut1(0.5));
}
