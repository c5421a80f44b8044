use crate::number;
use celestial_time_proved::scales::common::*;
use celestial_time_proved::scales::conversions::utc_tai::{calendar_to_julian, julian_to_calendar};

#[test]
fn leap_years_and_months() {
    assert!(is_leap_year(2000) && is_leap_year(0) && is_leap_year(-4));
    assert!(!is_leap_year(1900) && !is_leap_year(2023));
    let year = |y| (1..=12).map(|month| days_in_month(y, month).unwrap()).sum::<i32>();
    assert_eq!((year(1999), year(2000)), (365, 366));
    for month in [i32::MIN, -1, 0, 13, i32::MAX] {
        assert_eq!(days_in_month(2000, month), None);
    }
}

#[test]
fn dates_are_tested_year_first() {
    assert_eq!(number(validate_calendar_date(-4799, 1, 1)), 0);
    assert_eq!(number(validate_calendar_date(-4800, 13, 40)), 1);
    assert_eq!(number(validate_calendar_date(2000, 13, 40)), 2);
    assert_eq!(number(validate_calendar_date(1900, 2, 29)), 3);
}

#[test]
fn the_next_day() {
    assert_eq!(next_calendar_day(1900, 2, 28), Ok((1900, 3, 1)));
    assert_eq!(next_calendar_day(-1, 12, 31), Ok((0, 1, 1)));
    assert_eq!(number(next_calendar_day(-4800, 13, 40)), 1);
    assert_eq!(number(next_calendar_day(2147483647, 12, 31)), 5);
}

#[test]
fn midnights() {
    assert_eq!(calendar_to_julian(2000, 2, 29), Ok((2400000.5, 51603.0)));
    assert_eq!(calendar_to_julian(-4799, 1, 1), Ok((2400000.5, -2431739.0)));
    assert_eq!(number(calendar_to_julian(1900, 2, 29)), 3);
}

#[test]
fn days_of_dates() {
    assert_eq!(julian_to_calendar(2451544.75, 0.25), Ok((2000, 1, 1, 0.5)));
    assert_eq!(julian_to_calendar(-68569.5, 0.0), Ok((-4900, 3, 1, 0.0)));
    let (year, month, day, _) = julian_to_calendar(-68569.5, -f64::EPSILON).unwrap();
    assert_eq!((year, month, day), (-4900, 2, 30));
    for sum in [f64::NAN, f64::INFINITY, -68570.0, 1.1e9] {
        assert_eq!(number(julian_to_calendar(sum, 0.0)), 6);
    }
}
