use crate::{at, number, parts};
use celestial_time_proved::scales::gps::GPS;
use celestial_time_proved::scales::tai::TAI;
use celestial_time_proved::scales::tcb::TCB;
use celestial_time_proved::scales::tcg::TCG;
use celestial_time_proved::scales::tdb::TDB;
use celestial_time_proved::scales::tt::TT;
use celestial_time_proved::scales::ut1::UT1;
use celestial_time_proved::scales::utc::UTC;
use celestial_time_proved::scales::{same_bits, Scale, TimeScale};
use celestial_time_proved::JulianDate;
use std::cmp::Ordering;

const DATE: (f64, f64) = (2451545.0, 0.25);

#[test]
fn without_an_offset() {
    let due = |jd2| (2451545.0, jd2);
    assert_eq!(parts(at::<GPS>(DATE.0, DATE.1).to_tai()), due(0.2502199074074074));
    assert_eq!(parts(at::<TAI>(DATE.0, DATE.1).to_gps()), due(0.2497800925925926));
    assert_eq!(parts(at::<TAI>(DATE.0, DATE.1).to_tt()), due(0.2503725));
    assert_eq!(parts(at::<TT>(DATE.0, DATE.1).to_tai()), due(0.2496275));
    assert_eq!(parts(at::<TAI>(DATE.0, DATE.1).to_tcg()), due(0.2503783547264134));
    assert_eq!(parts(at::<TCG>(DATE.0, DATE.1).to_tai()), due(0.24962164527385028));
    assert_eq!(parts(at::<TT>(DATE.0, DATE.1).to_tcg()), due(0.2500058547261538));
    assert_eq!(parts(at::<TCG>(DATE.0, DATE.1).to_tt()), due(0.24999414527385028));
    assert_eq!(parts(at::<TCB>(DATE.0, DATE.1).tcb_to_tdb()), due(0.24986974395826356));
    assert_eq!(parts(at::<TDB>(DATE.0, DATE.1).tdb_to_tcb()), due(0.2501302560437561));
}

#[test]
fn with_an_offset() {
    let due = |jd2| (2451545.0, jd2);
    assert_eq!(parts(at::<TT>(DATE.0, DATE.1).to_tdb_with_offset(0.001)), due(0.2500000115740741));
    assert_eq!(parts(at::<TDB>(DATE.0, DATE.1).to_tt_with_offset(0.001)), due(0.24999998842592594));
    assert_eq!(parts(at::<UT1>(DATE.0, DATE.1).to_tai_with_offset(-32.6659)), due(0.2503780775462963));
    assert_eq!(parts(at::<TAI>(DATE.0, DATE.1).to_ut1_with_offset(-32.6659)), due(0.2496219224537037));
    assert_eq!(parts(at::<UT1>(DATE.0, DATE.1).to_tt_with_delta_t(64.8499)), due(0.2507505775462963));
    assert_eq!(parts(at::<TT>(DATE.0, DATE.1).to_ut1_with_delta_t(64.8499)), due(0.2492494224537037));
}

#[test]
fn parts_that_are_not_finite() {
    for (jd1, jd2) in [(f64::INFINITY, 0.0), (2451545.0, f64::NAN), (f64::NEG_INFINITY, f64::NAN)] {
        assert_eq!(number(at::<GPS>(jd1, jd2).to_tai()), 9);
        assert_eq!(number(at::<TAI>(jd1, jd2).to_gps()), 9);
        assert_eq!(number(at::<TAI>(jd1, jd2).to_tt()), 9);
        assert_eq!(number(at::<TT>(jd1, jd2).to_tai()), 9);
        assert_eq!(number(at::<TAI>(jd1, jd2).to_tcg()), 9);
        assert_eq!(number(at::<TCG>(jd1, jd2).to_tai()), 9);
        assert_eq!(number(at::<TT>(jd1, jd2).to_tcg()), 9);
        assert_eq!(number(at::<TCG>(jd1, jd2).to_tt()), 9);
        assert_eq!(number(at::<TCB>(jd1, jd2).tcb_to_tdb()), 9);
        assert_eq!(number(at::<TDB>(jd1, jd2).tdb_to_tcb()), 9);
    }
    assert_eq!(number(at::<TCG>(1.7e308, 1.7e308).to_tai()), 9);
}

/// The date is tested before the offset.
#[test]
fn offsets_that_are_not_finite() {
    for (jd1, due) in [(2451545.0, 10), (f64::NAN, 9)] {
        for offset in [f64::NAN, f64::INFINITY] {
            assert_eq!(number(at::<TT>(jd1, 0.0).to_tdb_with_offset(offset)), due);
            assert_eq!(number(at::<TDB>(jd1, 0.0).to_tt_with_offset(offset)), due);
            assert_eq!(number(at::<UT1>(jd1, 0.0).to_tai_with_offset(offset)), due);
            assert_eq!(number(at::<TAI>(jd1, 0.0).to_ut1_with_offset(offset)), due);
            assert_eq!(number(at::<UT1>(jd1, 0.0).to_tt_with_delta_t(offset)), due);
            assert_eq!(number(at::<TT>(jd1, 0.0).to_ut1_with_delta_t(offset)), due);
        }
    }
}

fn one_scale<S: TimeScale + PartialEq + std::fmt::Debug>(scale: Scale, number: u32) {
    assert_eq!((S::SCALE, scale as u32), (scale, number));
    let date = at::<S>(2451544.75, 0.25);
    assert_eq!(date, at::<S>(2451545.0, 0.0));
    assert_eq!(date.to_julian_date().jd1(), 2451544.75);
}

/// The numbers are the header's.
#[test]
fn eight_scales() {
    one_scale::<UTC>(Scale::UTC, 0);
    one_scale::<TAI>(Scale::TAI, 1);
    one_scale::<UT1>(Scale::UT1, 2);
    one_scale::<TT>(Scale::TT, 3);
    one_scale::<GPS>(Scale::GPS, 4);
    one_scale::<TCG>(Scale::TCG, 5);
    one_scale::<TCB>(Scale::TCB, 6);
    one_scale::<TDB>(Scale::TDB, 7);
}

#[test]
fn order_and_sameness() {
    let (a, b) = (at::<TAI>(2451544.75, 0.25), at::<TAI>(2451545.0, 0.0));
    let later = at::<TAI>(2451545.0, 1e-300);
    assert_eq!((a.compare(&b), b.compare(&later)), (Ok(Ordering::Equal), Ok(Ordering::Less)));
    assert_eq!(number(a.compare(&at(f64::NAN, 0.0))), 9);
    assert!(a.same_stamp(&a) && !a.same_stamp(&b) && !b.same_stamp(&at::<TT>(2451545.0, 0.0)));
    let none = at::<UTC>(f64::NAN, -0.0);
    assert!(none.same_stamp(&none) && !none.same_stamp(&at::<UTC>(f64::NAN, 0.0)));
    let (nan, other) = (f64::NAN.to_bits(), f64::NAN.to_bits() | 1);
    assert!(same_bits(Scale::TAI, [nan, other], Scale::TAI, [nan, other]));
    assert!(!same_bits(Scale::TAI, [nan, other], Scale::TAI, [nan, nan]));
    assert_eq!(TAI::from_julian_date(JulianDate::j2000()).to_julian_date(), JulianDate::j2000());
}
