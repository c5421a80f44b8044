// The refusal number of document 01 for an error of the Rust. The variant alone
// does not tell (InvalidDate stands for five numbers, ConversionError for four),
// but the message does: each test of the source has its own words. So the number
// is that of the test which the Rust itself failed first, and the order of the
// tests is compared too. A message not known here stops the program.

use celestial_time::TimeError;

pub const NOT_ASKED: u64 = 255;
pub const TEXT_TOO_LONG: u64 = 11;

pub fn refusal(error: &TimeError) -> u64 {
    match error {
        TimeError::InvalidDate(text) => invalid_date(text),
        TimeError::ConversionError(text) => conversion_error(text),
        TimeError::InvalidEpoch(_) => 9,
        other => panic!("unexpected error: {:?}", other),
    }
}

fn invalid_date(text: &str) -> u64 {
    if text.ends_with(": year is before -4799") {
        1
    } else if text.ends_with(": month is out of range") {
        2
    } else if text.ends_with(": day is out of range") {
        3
    } else if text.starts_with("time ") {
        4
    } else if text.ends_with(": the next day is out of range") {
        5
    } else {
        panic!("unexpected message: {}", text)
    }
}

fn conversion_error(text: &str) -> u64 {
    if text.starts_with("Julian Date ") {
        6
    } else if text.starts_with("Day fraction ") {
        7
    } else if text.starts_with("nanos ") {
        8
    } else if text.contains(" must be finite, got ") {
        10
    } else {
        panic!("unexpected message: {}", text)
    }
}
