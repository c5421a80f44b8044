//! Ticks and readings between marker passes.

use crate::answers::judged;
use crate::bytes::{bytes, bytes_mut};
use crate::ffi;
use crate::refusal::TimeResult;

/// Each tick's TAI millisecond on the straight line between the passes beside it, rounded down, in the ticks' order. Pass
/// i is `pass_ticks[i]` at `pass_millis[i]`. Ticks stand in any order and may repeat; a tick at a pass has that pass's
/// millisecond.
///
/// Refuses 23 for lists of passes that are unequal, under 2 or over 2,000, or have a number of 2^40 or more; 24 for passes
/// that do not rise strictly in both; 25 for a tick before the first pass or after the last.
///
/// ```
/// use celestial_time_proved::ticks::place_ticks;
/// assert_eq!(place_ticks(&[0, 1000], &[0, 500], &[0, 3, 1000]), Ok(vec![0, 1, 500]));
/// assert_eq!(place_ticks(&[0, 1000], &[0, 500], &[0, 1001]).unwrap_err().number(), 25);
/// assert_eq!(place_ticks(&[0, 0], &[0, 500], &[0, 1001]).unwrap_err().number(), 24);
/// ```
pub fn place_ticks(pass_ticks: &[u64], pass_millis: &[u64], ticks: &[u64]) -> TimeResult<Vec<u64>> {
    let mut millis = vec![0_u64; ticks.len()];
    judged(ffi::ct_place_ticks(bytes(pass_ticks), bytes(pass_millis), bytes(ticks), bytes_mut(&mut millis)))?;
    Ok(millis)
}

/// The place along the pipe of each reading of a run: that of its TAI millisecond on the straight line between the passes
/// beside it, rounded down to the millimetre, into `places[i]`. Pass i is at `pass_millis[i]` by `pass_places[i]`. Into
/// `numbers`, in and out: any number but 0 says by what reading i was refused before, and stays; a 0 becomes 25 outside
/// the passes, and else stays. The places of readings with a number stay, and what lies behind.
///
/// Answers how many readings have a number other than 0. Refuses 12 for another count of numbers than of readings; 11 for
/// fewer places; 23 and 24 for the passes, as [`place_ticks`]. A refused call writes nothing.
///
/// ```
/// use celestial_time_proved::ticks::place_readings;
/// let (mut places, mut numbers) = ([7; 4], [0, 9, 0, 0]);
/// assert_eq!(place_readings(&[1000, 2000], &[0, 500], &[1003, 1003, 2001, 2000], &mut places, &mut numbers), Ok(2));
/// assert_eq!((places, numbers), ([1, 7, 7, 500], [0, 9, 25, 0]));
/// assert_eq!(place_readings(&[1000], &[0, 500], &[1003], &mut places, &mut [0]).unwrap_err().number(), 23);
/// ```
pub fn place_readings(
    pass_millis: &[u64],
    pass_places: &[u64],
    millis: &[u64],
    places: &mut [u64],
    numbers: &mut [u8],
) -> TimeResult<u64> {
    judged(ffi::ct_place_readings(bytes(pass_millis), bytes(pass_places), bytes(millis), bytes_mut(places), numbers))
}
