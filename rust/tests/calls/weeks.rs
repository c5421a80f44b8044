use crate::{at, number, parts};
use celestial_time_proved::scales::gps::{gps_full_week, Week, GPS};

#[test]
fn weeks_and_dates() {
    assert_eq!(parts(GPS::from_week(Week { week: 0, millis: 43_200_000 })), (2444244.5, 0.5));
    assert_eq!(at::<GPS>(2458581.5, 7.0).to_week(), Ok(Week { week: 2049, millis: 86_400_000 }));
    for week in [0, 1024, 2048, 100_000] {
        let last = Week { week, millis: 604_799_999 };
        assert_eq!(GPS::from_week(last).unwrap().to_week(), Ok(last));
    }
    assert_eq!(number(GPS::from_week(Week { week: 100_001, millis: 0 })), 18);
    assert_eq!(number(GPS::from_week(Week { week: 0, millis: 604_800_000 })), 18);
    assert_eq!(number(at::<GPS>(f64::INFINITY, f64::NEG_INFINITY).to_week()), 9);
    assert_eq!(number(at::<GPS>(1.7e308, 1.7e308).to_week()), 6);
    assert_eq!(number(at::<GPS>(2444244.5, -1.0).to_week()), 18);
}

#[test]
fn ten_bits() {
    assert_eq!((gps_full_week(2, 2400), gps_full_week(1023, 0)), (Ok(2050), Ok(1023)));
    assert_eq!(number(gps_full_week(1024, 512)), 18);
    assert_eq!(number(gps_full_week(0, 99_001)), 18);
    assert_eq!(number(gps_full_week(0, 512)), 19);
}
