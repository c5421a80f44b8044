//! Every call of the crate: an answer and a refusal at the least, and the order of refusals where two hold.

mod blocks;
mod calendar;
mod julian;
mod line_up;
mod offsets;
mod refusals;
mod runs;
mod scales;
mod since_launch;
mod standby;
mod tables;
mod texts;
mod threads;
mod ticks;
mod traits;
mod utc;
mod weeks;

use celestial_time_proved::scales::TimeScale;
use celestial_time_proved::{JulianDate, Row, Table, TimeResult};

#[test]
fn the_version_is_the_crates() {
    let parts = [env!("CARGO_PKG_VERSION_MAJOR"), env!("CARGO_PKG_VERSION_MINOR"), env!("CARGO_PKG_VERSION_PATCH")];
    let number = parts.iter().fold(0, |sum, part| sum * 1000 + part.parse::<i64>().unwrap());
    assert_eq!(celestial_time_proved::version(), number);
}

/// The number that a call refuses by.
fn number<T>(answer: TimeResult<T>) -> u32 {
    match answer {
        Ok(_) => 0,
        Err(refusal) => refusal.number(),
    }
}

/// A date of a scale.
fn at<S: TimeScale>(jd1: f64, jd2: f64) -> S {
    S::from_julian_date(JulianDate::new(jd1, jd2))
}

/// The parts that a call answers.
fn parts<S: TimeScale>(answer: TimeResult<S>) -> (f64, f64) {
    let date = answer.unwrap().to_julian_date();
    (date.jd1(), date.jd2())
}

/// A table with one row in January 2027, which nobody announced.
fn made_up(seconds: i32) -> Table {
    Table::new(&[Row { year: 2027, month: 1, seconds }]).unwrap()
}

/// A block of stamps as its bytes.
fn block(sizes: [u32; 2], parts: &[f64]) -> Vec<u8> {
    let sizes = sizes.iter().flat_map(|size| size.to_le_bytes());
    sizes.chain(parts.iter().flat_map(|part| part.to_le_bytes())).collect()
}
