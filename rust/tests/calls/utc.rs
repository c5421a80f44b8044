use crate::{at, made_up, number, parts};
use celestial_time_proved::scales::tai::TAI;
use celestial_time_proved::scales::ut1::UT1;
use celestial_time_proved::scales::utc::*;
use celestial_time_proved::{JulianDate, Rule};

#[test]
fn unix_times() {
    assert_eq!(parts(UTC::new(86400, 0)), (2440588.5, 0.0));
    assert_eq!(parts(UTC::new(-43200, 0)), (2440586.5, 0.5));
    assert_eq!(number(UTC::new(i64::MAX, 1_000_000_000)), 8);
    assert_eq!(number(UTC::new(i64::MIN, 0)), 6);
    assert_eq!(number(UTC::new(-213_609_052_800, 0)), 1); // -4800-12-31
                                                          // a leap second left out at the end of 2026
    let last = 1_798_761_599;
    assert_eq!(number(UTC::new_with_table(last, 0, &made_up(36))), 4);
    assert_eq!(number(UTC::new_with_table(last - 1, 0, &made_up(36))), 0);
    assert_eq!(number(UTC::new(last, 0)), 0);
}

#[test]
fn fields() {
    assert_eq!(parts(utc_from_calendar(2016, 12, 31, 23, 59, 60.0)), (2457753.5, 86400.0 / 86401.0));
    assert_eq!(number(utc_from_calendar(-4800, 13, 40, 24, 0, 0.0)), 1);
    assert_eq!(number(utc_from_calendar(2000, 13, 40, 24, 0, 0.0)), 2);
    assert_eq!(number(utc_from_calendar(1900, 2, 29, 24, 0, 0.0)), 3);
    assert_eq!(number(utc_from_calendar(2147483647, 12, 31, 25, 0, 0.0)), 5);
    assert_eq!(number(utc_from_calendar(2016, 12, 31, 23, 59, 61.0)), 4);
    assert_eq!(number(utc_from_calendar(1961, 7, 31, 23, 59, 59.96)), 4);
    assert_eq!(number(utc_from_calendar(2026, 12, 31, 23, 59, 60.0)), 4);
    assert_eq!(number(utc_from_calendar_with_table(2026, 12, 31, 23, 59, 60.0, &made_up(38))), 0);
    assert_eq!(number(utc_from_calendar_with_table(2026, 12, 31, 23, 59, 59.0, &made_up(36))), 4);
}

#[test]
fn to_tai_and_back() {
    assert_eq!(parts(at::<UTC>(2457753.5, 0.0).to_tai()), (2457753.5, 0.0004166666666666667));
    assert_eq!(parts(at::<TAI>(2457754.5, 36.5 / 86400.0).to_utc()), (2457754.5, -5.786970058265298e-06));
    for (jd1, due) in [(f64::NAN, 6), (-68571.0, 6), (-31739.5, 1)] {
        assert_eq!(number(at::<UTC>(jd1, 0.0).to_tai()), due);
        assert_eq!(number(at::<TAI>(jd1, 0.0).to_utc()), due);
        assert_eq!(number(at::<UTC>(jd1, 0.0).to_tai_with_table(&made_up(38))), due);
        assert_eq!(number(at::<TAI>(jd1, 0.0).to_utc_with_table(&made_up(38))), due);
    }
    let (tai, rule) = at::<UTC>(2461406.5, 0.5).to_tai_with_table(&made_up(38)).unwrap(); // 2027-01-01
    assert_eq!((tai.to_julian_date(), rule), (JulianDate::new(2461406.5, 0.5 + 38.0 / 86400.0), Rule::Whole(42)));
    assert_eq!(tai.to_utc_with_table(&made_up(38)).unwrap().to_iso8601().unwrap(), "2027-01-01T12:00:00.000");
    assert_eq!(tai.to_utc().unwrap().to_iso8601().unwrap(), "2027-01-01T12:00:01.000");
}

#[test]
fn to_ut1_and_back() {
    assert_eq!(parts(at::<UTC>(2451545.0, 0.25).to_ut1_with_dut1(0.3341)), (2451545.0, 0.25000386689814813));
    assert_eq!(parts(at::<UT1>(2451545.0, 0.25).to_utc_with_dut1(0.3341)), (2451545.0, 0.24999613310185184));
    assert_eq!(number(at::<UTC>(f64::NAN, 0.0).to_ut1_with_dut1(f64::NAN)), 10);
    assert_eq!(number(at::<UTC>(f64::NAN, 0.0).to_ut1_with_dut1(0.0)), 6);
    assert_eq!(number(at::<UTC>(-31739.5, 0.0).to_ut1_with_dut1(0.0)), 1);
    assert_eq!(number(at::<UT1>(f64::NAN, 0.0).to_utc_with_dut1(f64::NAN)), 10);
    assert_eq!(number(at::<UT1>(f64::NAN, 0.0).to_utc_with_dut1(0.0)), 9);
    assert_eq!(number(at::<UT1>(-68571.0, 0.0).to_utc_with_dut1(0.0)), 6);
    let (table, leap) = (made_up(38), "2026-12-31T23:59:60.500");
    let (utc, _) = UTC::from_iso8601_with_table(leap, &table).unwrap();
    let (ut1, rule) = utc.to_ut1_with_dut1_and_table(-0.4, &table).unwrap();
    assert_eq!(rule, Rule::Whole(41));
    let back = |utc: UTC| utc.to_text_with_table(Form::Nearest, &table).unwrap().0;
    assert_eq!(back(ut1.to_utc_with_dut1_and_table(-0.4, &table).unwrap()), leap);
    assert_ne!(back(ut1.to_utc_with_dut1(-0.4).unwrap()), leap);
    assert_eq!(at::<UTC>(2461406.5, 0.5).to_ut1_with_dut1_and_table(0.0, &table).unwrap().1, Rule::Whole(42));
    assert_eq!(number(ut1.to_utc_with_dut1_and_table(f64::NAN, &made_up(38))), 10);
    assert_eq!(number(at::<UTC>(f64::NAN, 0.0).to_ut1_with_dut1_and_table(0.0, &made_up(38))), 6);
}

#[test]
fn leaps() {
    assert_eq!(leap_at_end_of_day(2016, 12, 31), Ok(1.0));
    assert_eq!(leap_at_end_of_day(2026, 12, 31), Ok(0.0));
    assert_eq!(leap_at_end_of_day_with_table(2026, 12, 31, &made_up(36)), Ok(-1.0));
    assert_eq!(number(leap_at_end_of_day(2000, 13, 40)), 2);
    assert_eq!(number(leap_at_end_of_day(2147483647, 12, 31)), 5);
    assert_eq!(number(leap_at_end_of_day_with_table(1900, 2, 29, &made_up(36))), 3);
}
