//! The answers of the calls: a code, and the bytes that a call wrote.

use crate::julian::JulianDate;
use crate::refusal::{Refusal, TimeResult};
use crate::table::Rule;

/// The value of a code: below zero it is minus the number of the refusal.
pub(crate) fn judged(code: i64) -> TimeResult<u64> {
    u64::try_from(code).map_err(|_| Refusal::of_code(code))
}

/// The N bytes that a call writes into a buffer of that size.
pub(crate) fn written<const N: usize>(ask: impl FnOnce(&mut [u8]) -> i64) -> TimeResult<[u8; N]> {
    let mut out = [0; N];
    judged(ask(&mut out))?;
    Ok(out)
}

/// The date that a call writes.
pub(crate) fn date(ask: impl FnOnce(&mut [u8]) -> i64) -> TimeResult<JulianDate> {
    written::<16>(ask).map(|out| date_at(&out, 0))
}

/// The date of a call that refuses nothing but a short buffer: this one has the 16 bytes.
pub(crate) fn certain_date(ask: impl FnOnce(&mut [u8]) -> i64) -> JulianDate {
    let mut out = [0; 16];
    ask(&mut out);
    date_at(&out, 0)
}

/// The text that a call writes, of at most N bytes of ASCII.
pub(crate) fn text<const N: usize>(ask: impl FnOnce(&mut [u8]) -> i64) -> TimeResult<String> {
    let mut out = [0; N];
    let length = judged(ask(&mut out))?;
    Ok(out.iter().zip(0..length).map(|(byte, _)| char::from(*byte)).collect())
}

/// The N bytes from `at` on.
fn bytes_at<const N: usize>(bytes: &[u8], at: usize) -> [u8; N] {
    let mut taken = [0; N];
    taken.copy_from_slice(&bytes[at..at + N]);
    taken
}

pub(crate) fn u64_at(bytes: &[u8], at: usize) -> u64 {
    u64::from_le_bytes(bytes_at(bytes, at))
}

pub(crate) fn u32_at(bytes: &[u8], at: usize) -> u32 {
    u32::from_le_bytes(bytes_at(bytes, at))
}

pub(crate) fn i32_at(bytes: &[u8], at: usize) -> i32 {
    i32::from_le_bytes(bytes_at(bytes, at))
}

pub(crate) fn float_at(bytes: &[u8], at: usize) -> f64 {
    f64::from_le_bytes(bytes_at(bytes, at))
}

pub(crate) fn date_at(bytes: &[u8], at: usize) -> JulianDate {
    JulianDate::new(float_at(bytes, at), float_at(bytes, at + 8))
}

/// The rule in the 8 bytes from `at` on: its kind, and its row, which is -1 for an absent rule.
pub(crate) fn rule_at(bytes: &[u8], at: usize) -> Rule {
    let row = u32_at(bytes, at + 4);
    match u32_at(bytes, at) {
        0 => Rule::Absent,
        1 => Rule::Drifting(row),
        _ => Rule::Whole(row),
    }
}
