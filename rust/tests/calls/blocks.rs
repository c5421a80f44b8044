use crate::{block, made_up, number};
use celestial_time_proved::blocks::{
    block_stamps, listing_part, reason_listing_part, LISTING_ROOM, REASON_LISTING_ROOM,
};
use celestial_time_proved::{Table, TimeResult};

const LISTING: &str = "utc listing 3 refused 1\n0 2000-01-01T12:00:00.000\n1 2000-01-01T00:00:00.000\n2 refused 6\n";

fn three_stamps() -> Vec<u8> {
    block([3, 3], &[2451545.0, 2400000.5, f64::NAN, 0.0, 51544.0, 0.0])
}

/// The whole listing, by parts of so many bytes.
fn listed(room: usize, mut part: impl FnMut(u32, &mut [u8]) -> TimeResult<usize>) -> String {
    let (mut all, mut line, mut out) = (Vec::new(), 0, vec![0; room]);
    loop {
        let length = part(line, &mut out).unwrap();
        if length == 0 {
            return String::from_utf8(all).unwrap();
        }
        line += out[..length].iter().filter(|byte| **byte == b'\n').count() as u32;
        all.extend_from_slice(&out[..length]);
    }
}

#[test]
fn sizes_of_blocks() {
    assert_eq!(block_stamps(&three_stamps()), Ok(3));
    assert_eq!(number(block_stamps(&[0; 7])), 14);
    assert_eq!(number(block_stamps(&block([4001, 4002], &[]))), 12);
    assert_eq!(number(block_stamps(&block([4001, 4001], &[]))), 13);
    assert_eq!(number(block_stamps(&three_stamps()[..55])), 14);
}

#[test]
fn listings() {
    let stamps = three_stamps();
    for room in [LISTING_ROOM, 40, 4096] {
        assert_eq!(listed(room, |line, out| listing_part(&stamps, line, &Table::NONE, out)), LISTING);
    }
    assert_eq!(listed(99, |line, out| listing_part(&stamps[..9], line, &Table::NONE, out)), "block refused 14\n");
    assert_eq!(number(listing_part(&stamps, 0, &Table::NONE, &mut [0; LISTING_ROOM - 1])), 11);
}

#[test]
fn listings_with_sentences() {
    let stamps = three_stamps();
    let due = LISTING.replace("2 refused 6", "2 date is outside the calendar: sum 7ff8000000000000");
    let length = stamps.len() as u64;
    for room in [REASON_LISTING_ROOM, 4096] {
        assert_eq!(listed(room, |line, out| reason_listing_part(&stamps, length, line, &Table::NONE, out)), due);
    }
    let refused = listed(99, |line, out| reason_listing_part(&stamps[..9], 70000, line, &Table::NONE, out));
    assert_eq!(refused, "block the number of bytes is wrong: length 70000\n");
    assert_eq!(number(reason_listing_part(&stamps, 56, 0, &Table::NONE, &mut [0; REASON_LISTING_ROOM - 1])), 11);
}

/// A stamp in the leap second of an announced row.
#[test]
fn listings_under_announced_rows() {
    let (stamps, table) = (block([1, 1], &[2461405.5, 86400.5 / 86401.0]), made_up(38));
    let due = "utc listing 1 refused 0\n0 2026-12-31T23:59:60.500\n";
    assert_eq!(listed(99, |line, out| listing_part(&stamps, line, &table, out)), due);
    assert_eq!(listed(99, |line, out| reason_listing_part(&stamps, 24, line, &table, out)), due);
}
