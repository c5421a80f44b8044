//! Whole milliseconds from the launch to a stamp of the same uniform scale, and to each stamp of a run.

use crate::answers::judged;
use crate::bytes::{bytes, bytes_mut};
use crate::ffi;
use crate::refusal::TimeResult;
use crate::runs::Stamps;
use crate::scales::gps::GPS;
use crate::scales::tai::TAI;
use crate::scales::tcb::TCB;
use crate::scales::tcg::TCG;
use crate::scales::tdb::TDB;
use crate::scales::tt::TT;
use crate::scales::TimeScale;

/// A scale whose days all have 86,400 s: not UTC, and not UT1.
pub trait Uniform: TimeScale {}

impl Uniform for TAI {}
impl Uniform for GPS {}
impl Uniform for TT {}
impl Uniform for TCG {}
impl Uniform for TCB {}
impl Uniform for TDB {}

/// The whole milliseconds from one date to another, to the nearest, a half going up. Refuses 9 for a part of either that is
/// not finite; then 6; then 18, where the milliseconds are not 0 to 2^40 - 1.
///
/// ```
/// use celestial_time_proved::{since_launch::milliseconds, scales::{gps::GPS, TimeScale}, JulianDate};
/// let launch = GPS::from_julian_date(JulianDate::new(2444244.5, 0.0));
/// let stamp = GPS::from_julian_date(JulianDate::new(2444244.5, 27.0 / 86400000.0));
/// assert_eq!(milliseconds(launch, stamp), Ok(27));
/// assert_eq!(milliseconds(stamp, launch).unwrap_err().number(), 18);
/// ```
///
/// Of UTC it is not taken:
///
/// ```compile_fail,E0277
/// use celestial_time_proved::{since_launch::milliseconds, scales::{utc::UTC, TimeScale}, JulianDate};
/// let date = UTC::from_julian_date(JulianDate::new(2444244.5, 0.0));
/// let none = milliseconds(date, date);
/// ```
pub fn milliseconds<S: Uniform>(from: S, to: S) -> TimeResult<u64> {
    let (from, to) = (from.to_julian_date(), to.to_julian_date());
    judged(ffi::ct_milliseconds(from.jd1(), from.jd2(), to.jd1(), to.jd2()))
}

/// The milliseconds from one launch to each stamp of a run: those of stamp i go into `millis[i]`, and into `numbers[i]` 0 or
/// the number of its refusal, 9, 6 or 18. A refused stamp's place stays, and what lies behind the last stamp's places.
///
/// Answers how many stamps are refused. Refuses 9, then 6, for the launch; 12 for another number of second parts than of
/// first ones; 11 for fewer places than stamps. A refused call writes nothing.
///
/// ```
/// use celestial_time_proved::{runs::Stamps, since_launch::milliseconds_of_run};
/// use celestial_time_proved::{scales::{tai::TAI, TimeScale}, JulianDate};
/// let launch = TAI::from_julian_date(JulianDate::new(2451545.0, 0.0));
/// let stamps = Stamps::<TAI>::new(&[2451545.0, f64::NAN, 2451544.0], &[0.25, 0.0, 0.0]);
/// let (mut millis, mut numbers) = ([7; 3], [7; 3]);
/// assert_eq!(milliseconds_of_run(launch, stamps, &mut millis, &mut numbers), Ok(2));
/// assert_eq!((millis, numbers), ([21_600_000, 7, 7], [0, 9, 18]));
/// ```
pub fn milliseconds_of_run<S: Uniform>(
    launch: S,
    stamps: Stamps<S>,
    millis: &mut [u64],
    numbers: &mut [u8],
) -> TimeResult<u64> {
    let from = launch.to_julian_date();
    let (jd1, jd2) = stamps.parts();
    judged(ffi::ct_milliseconds_of_run(from.jd1(), from.jd2(), bytes(jd1), bytes(jd2), bytes_mut(millis), numbers))
}
