use crate::number;
use celestial_time_proved::runs::Stamps;
use celestial_time_proved::scales::gps::{Week, GPS};
use celestial_time_proved::scales::tai::TAI;
use celestial_time_proved::since_launch::{milliseconds, milliseconds_of_run};
use celestial_time_proved::JulianDate;

fn tai(jd1: f64, jd2: f64) -> TAI {
    TAI::from_julian_date(JulianDate::new(jd1, jd2))
}

#[test]
fn milliseconds_to_one_stamp() {
    let launch = tai(2444244.5, 0.0);
    assert_eq!(milliseconds(launch, tai(2444244.5, 0.5)), Ok(43_200_000));
    assert_eq!(milliseconds(launch, tai(2444244.0, 1.0)), Ok(43_200_000));
    assert_eq!(number(milliseconds(launch, tai(2444244.5, -0.5))), 18);
    assert_eq!(number(milliseconds(launch, tai(3e9, 0.0))), 6);
    assert_eq!(number(milliseconds(tai(3e9, 0.0), tai(0.0, f64::INFINITY))), 9);
    let week = |millis| GPS::from_week(Week { week: 2000, millis }).unwrap();
    assert_eq!(milliseconds(week(1), week(604_799_999)), Ok(604_799_998));
    assert_eq!(milliseconds(week(1).to_tai().unwrap(), week(604_799_999).to_tai().unwrap()), Ok(604_799_998));
}

#[test]
fn milliseconds_to_a_run() {
    let launch = tai(2444244.5, 0.0);
    let (jd1, jd2) = ([2444245.5, f64::NAN, 2444243.5], [0.0, 0.0, 0.0]);
    let (mut millis, mut numbers) = ([7; 4], [7; 4]);
    let mut asked = |from, jd2| milliseconds_of_run(from, Stamps::new(&jd1, jd2), &mut millis, &mut numbers);
    assert_eq!(asked(launch, &jd2), Ok(2));
    assert_eq!(number(asked(tai(f64::NAN, 3e9), &jd2[1..])), 9);
    assert_eq!(number(asked(tai(3e9, 0.0), &jd2[1..])), 6);
    assert_eq!(number(asked(launch, &jd2[1..])), 12);
    assert_eq!((millis, numbers), ([86_400_000, 7, 7, 7], [0, 9, 18, 7]));
    assert_eq!(number(milliseconds_of_run(launch, Stamps::new(&jd1, &jd2), &mut millis[..2], &mut numbers)), 11);
}
