use celestial_time_proved::{JulianDate, Refusal, TimeError};
use std::error::Error;

fn refusal(number: u32) -> Refusal {
    Refusal::new(number).unwrap()
}

#[test]
fn numbers_and_sentences() {
    for number in 1..=28 {
        let one: TimeError = refusal(number);
        assert_eq!(one.number(), number);
        assert!(!one.sentence().is_empty() && one.sentence().len() <= 57);
        assert_eq!(one.to_string(), format!("refused {number}: {}", one.sentence()));
    }
    for number in [0, 29, u32::MAX] {
        assert_eq!(Refusal::new(number), Err(refusal(18)));
    }
    let boxed: Box<dyn Error> = Box::new(refusal(5));
    assert_eq!(boxed.to_string(), "refused 5: there is no next day");
}

#[test]
fn sentences_that_name_a_field() {
    assert_eq!(refusal(1).date_sentence(-5000, 1, 1), "year is before -4799, in a bill 1972: year -5000");
    assert_eq!(refusal(3).date_sentence(1900, 2, 30), "day is not in the month: day 30");
    assert_eq!(refusal(3).date_sentence(2000, 1, 1), "day is not in the month");
    assert_eq!(refusal(4).time_sentence(24, 60, 0.0, 0.0), "time is not in the day: hour 24");
    assert_eq!(refusal(4).time_sentence(23, 59, 60.0, 0.0), "time is not in the day: seconds 404e000000000000");
    assert_eq!(refusal(4).time_sentence(23, 59, 60.0, 1.0), "time is not in the day");
    let none = JulianDate::new(2451545.0, f64::NAN);
    assert_eq!(refusal(6).parts_sentence(none), "date is outside the calendar: sum 7ff8000000000000");
    assert_eq!(refusal(9).parts_sentence(none), "part or sum of a date is not finite: jd2 7ff8000000000000");
    assert_eq!(refusal(7).float_sentence(1.5), "fraction is not 0 to 1: fraction 3ff8000000000000");
    assert_eq!(refusal(10).float_sentence(f64::INFINITY), "offset is not finite: offset 7ff0000000000000");
    assert_eq!(refusal(8).count_sentence(1_000_000_000), "nanoseconds are a second or more: nanoseconds 1000000000");
    assert_eq!(refusal(12).block_sentence(8, 1, 7), "the two sizes differ: second size 7");
    assert_eq!(refusal(13).block_sentence(8, 4001, 4001), "there are too many stamps: size 4001");
    assert_eq!(refusal(14).block_sentence(64010, 1, 1), "the number of bytes is wrong: length 64010");
}
