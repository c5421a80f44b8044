//! The listing of up to three recorders in one line, from the bytes of their runs: that of the program line_up, but that a
//! run's line counts the stamps that are not finite apart.

use crate::answers::judged;
use crate::ffi;
use crate::refusal::TimeResult;
use crate::scales::Scale;
use crate::table::Table;

const RECORD: usize = 32;
const PART: usize = 1 << 14;
const SUMMARY: usize = 832;

/// A listing of up to three runs.
#[derive(Debug, Clone, PartialEq, Eq)]
pub struct Listing {
    /// Its lines: a line for each run, one for each stamp, and the last.
    pub text: Vec<u8>,
    /// The first and the last stamp of each run, the table, and what to look at.
    pub summary: Vec<u8>,
    /// What to look at, in bits: 1 stamps are left out, 2 a named run has no stamp, 4 stamps lie after the day until which
    /// the table is known, 8 two runs begin and end apart as two scales do.
    pub look: u64,
}

/// The listing of the runs that are named, each stamp blocks one after the other; with `reasons` each refusal has its
/// sentence. `known` is the Modified Julian Date until which the table is known, 0 where its text told none.
///
/// Refuses 13 for more than 4,294,967,295 stamps.
///
/// ```
/// use celestial_time_proved::{listing::listing_of_runs, Table};
/// let listing = listing_of_runs(None, Some(&[]), None, &Table::NONE, 0, false).unwrap();
/// assert_eq!(listing.text, b"line up 1 runs\ntai 0 not finite 0 refused 0 left out 0\nlined up 0 without text 0\n");
/// assert_eq!(listing.look, 2);
/// ```
pub fn listing_of_runs(
    gps: Option<&[u8]>,
    tai: Option<&[u8]>,
    utc: Option<&[u8]>,
    table: &Table,
    known: u32,
    reasons: bool,
) -> TimeResult<Listing> {
    let named = [(Scale::GPS, gps), (Scale::TAI, tai), (Scale::UTC, utc)];
    let (mut runs, mut counts) = ([0; 3 * RECORD], [0; 3]);
    for (k, (_, run)) in named.iter().enumerate() {
        let record = &mut runs[RECORD * k..RECORD * (k + 1)];
        if let Some(run) = run {
            judged(ffi::ct_run_size(run, record))?;
        }
        counts[k] = record[..8].iter().rev().fold(0, |sum, byte| 256 * sum + usize::from(*byte));
    }
    let n = counts.iter().sum::<usize>();
    let (mut jd1, mut jd2, mut numbers, mut at) = (vec![0; 8 * n], vec![0; 8 * n], vec![0; n], 0);
    for ((scale, run), count) in named.into_iter().zip(counts) {
        let (low, high, end) = (8 * at, 8 * (at + count), at + count);
        if let Some(run) = run {
            let (jd1, jd2) = (&mut jd1[low..high], &mut jd2[low..high]);
            judged(ffi::ct_take_run(scale as u32, run, table.as_bytes(), jd1, jd2, &mut numbers[at..end]))?;
        }
        at = end;
    }
    let (mut order, mut work1, mut work2) = (vec![0; 4 * n], vec![0; 4 * n], vec![0; 4 * n]);
    let (first, second) = (counts[0] as u64, counts[1] as u64);
    judged(ffi::ct_lines_in_order(&jd1, &jd2, &mut numbers, first, second, &mut order, &mut work1, &mut work2))?;
    let table = table.as_bytes();
    let (mut text, mut cursor, mut part) = (Vec::new(), [0; 16], vec![0; PART]);
    loop {
        let reasons = u32::from(reasons);
        let written = judged(ffi::ct_line_listing_part(
            reasons,
            &runs,
            &jd1,
            &jd2,
            &numbers,
            &order,
            table,
            &mut cursor,
            &mut part,
        ))?;
        if written == 0 {
            break;
        }
        text.extend_from_slice(&part[..written as usize]);
    }
    let mut summary = vec![0; SUMMARY];
    let written = judged(ffi::ct_line_summary(&runs, &jd1, &jd2, &numbers, table, known, &mut summary))?;
    summary.truncate(written as usize);
    let look = judged(ffi::ct_line_look(&runs, &jd1, &jd2, &numbers, table, known))?;
    Ok(Listing { text, summary, look })
}
