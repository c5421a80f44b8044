use crate::number;
use celestial_time_proved::constants::UNIX_EPOCH_JD;
use celestial_time_proved::JulianDate;
use std::cmp::Ordering;

fn parts(date: JulianDate) -> (f64, f64) {
    (date.jd1(), date.jd2())
}

#[test]
fn constructors_keep_the_parts() {
    assert_eq!(parts(JulianDate::new(1.5, -0.0)).1.to_bits(), (-0.0_f64).to_bits());
    assert_eq!(parts(JulianDate::from_f64(2451545.25)), (2451545.25, 0.0));
    assert_eq!(parts(JulianDate::j2000()), (2451545.0, 0.0));
    assert_eq!(parts(JulianDate::unix_epoch()), (UNIX_EPOCH_JD, 0.0));
    assert_eq!(JulianDate::new(2451545.0, 0.25).to_f64(), 2451545.25);
}

#[test]
fn later() {
    assert_eq!(parts(JulianDate::j2000().add_days(1.5)), (2451546.0, 0.5));
    assert_eq!(parts(JulianDate::j2000().add_seconds(-43200.0)), (2451545.0, -0.5));
    let lost = JulianDate::j2000().add_days(f64::INFINITY);
    assert!(lost.jd1().is_nan() && lost.jd2().is_nan());
}

#[test]
fn from_times() {
    assert_eq!(parts(JulianDate::from_unix_time(86400, 0)), (2440588.5, 0.0));
    assert_eq!(parts(JulianDate::from_unix_time(-43200, 0)), (2440587.5, -0.5));
    assert_eq!(parts(JulianDate::from_calendar(2000, 1, 1, 12, 0, 0.0).unwrap()), (2451544.5, 0.5));
    assert_eq!(number(JulianDate::from_calendar(2000, 2, 30, 25, 0, 0.0)), 3);
    assert_eq!(number(JulianDate::from_calendar(2016, 12, 31, 23, 59, 60.0)), 4);
    assert_eq!(number(JulianDate::from_calendar(2000, 1, 1, 0, 0, f64::NAN)), 4);
}

#[test]
fn julian_years() {
    assert_eq!(JulianDate::j2000().to_julian_year(), 2000.0);
    assert_eq!(parts(JulianDate::from_julian_year(2000.0)), (2400000.5, 51544.5));
    assert!(JulianDate::new(f64::NAN, 0.0).to_julian_year().is_nan());
}

#[test]
fn equal_whatever_the_split() {
    assert_eq!(JulianDate::new(0.0, 2451545.0), JulianDate::new(2451544.75, 0.25));
    assert_ne!(JulianDate::j2000(), JulianDate::new(2451545.0, 1e-300));
    let none = JulianDate::new(f64::NAN, 0.0);
    assert_ne!(none, none);
}

#[test]
fn differences() {
    assert_eq!(JulianDate::j2000() - JulianDate::new(2451544.0, 0.5), 0.5);
    let infinite = JulianDate::new(f64::INFINITY, 0.0);
    assert!((infinite - infinite).is_nan());
}

#[test]
fn an_order() {
    let (a, b) = (JulianDate::new(2451544.75, 0.25), JulianDate::new(2451545.0, 1e-300));
    assert_eq!(a.compare(&JulianDate::j2000()), Ok(Ordering::Equal));
    assert_eq!(a.compare(&b), Ok(Ordering::Less));
    assert_eq!(b.compare(&a), Ok(Ordering::Greater));
    assert_eq!(number(a.compare(&JulianDate::new(1.7e308, 1.7e308))), 9);
    assert_eq!(number(JulianDate::new(f64::NAN, 0.0).compare(&a)), 9);
}
