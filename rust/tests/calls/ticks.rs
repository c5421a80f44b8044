use crate::number;
use celestial_time_proved::ticks::{place_readings, place_ticks};

#[test]
fn ticks_between_passes() {
    let (at, millis) = ([0, 1000, 3000], [0, 500, 501]);
    assert_eq!(place_ticks(&at, &millis, &[3000, 3, 1000, 2999, 0, 3]), Ok(vec![501, 1, 500, 500, 0, 1]));
    assert_eq!(place_ticks(&at, &millis, &[]), Ok(vec![]));
    assert_eq!(number(place_ticks(&at, &millis[..2], &[0])), 23);
    assert_eq!(number(place_ticks(&at[..1], &millis[..1], &[0])), 23);
    assert_eq!(number(place_ticks(&[0, 1 << 40], &[0, 1], &[0])), 23);
    assert_eq!(number(place_ticks(&[0, 0], &[0, 500], &[0, 1001])), 24);
    assert_eq!(number(place_ticks(&at, &millis, &[0, 3001])), 25);
}

#[test]
fn readings_between_passes() {
    let (at, marks, millis) = ([1000, 2000, 4000], [0, 500, 2500], [999, 1000, 1999, 2000, 3001, 4000, 4001]);
    let (mut places, mut numbers) = ([7; 8], [0, 0, 9, 0, 0, 0, 0]);
    assert_eq!(place_readings(&at, &marks, &millis, &mut places, &mut numbers), Ok(3));
    assert_eq!((places, numbers), ([7, 0, 7, 500, 1501, 2500, 7, 7], [25, 0, 9, 0, 0, 0, 25]));
    assert_eq!(place_readings(&at, &marks, &[], &mut [], &mut []), Ok(0));
    assert_eq!(number(place_readings(&at, &marks, &millis, &mut places, &mut numbers[1..])), 12);
    assert_eq!(number(place_readings(&at, &marks, &millis, &mut places[2..], &mut numbers)), 11);
    assert_eq!(number(place_readings(&at[1..], &marks, &millis, &mut places, &mut numbers)), 23);
    assert_eq!(number(place_readings(&[1, 1], &[0, 1], &[], &mut [], &mut [])), 24);
    assert_eq!((places, numbers), ([7, 0, 7, 500, 1501, 2500, 7, 7], [25, 0, 9, 0, 0, 0, 25]));
}
