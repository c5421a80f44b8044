//! Stamp blocks: two sizes of 4 bytes, all jd1, then all jd2, the lowest byte first; and their listings.

use crate::answers::judged;
use crate::ffi;
use crate::refusal::TimeResult;
use crate::table::Table;

/// The fewest bytes that a part of a listing needs.
pub const LISTING_ROOM: usize = 33;

/// The fewest bytes that a part of a listing with sentences needs.
pub const REASON_LISTING_ROOM: usize = 64;

/// The number of stamps of a block, 0 to 4,000. Refuses 14 under 8 bytes; 12 for sizes that differ; 13 for one above
/// 4,000; then 14 for any other length than 8 + 16 times the size.
///
/// ```
/// use celestial_time_proved::blocks::block_stamps;
/// assert_eq!(block_stamps(&[0; 8]), Ok(0));
/// assert_eq!(block_stamps(&[0; 7]).unwrap_err().number(), 14);
/// assert_eq!(block_stamps(&[0xa1, 0x0f, 0, 0, 0xa2, 0x0f, 0, 0]).unwrap_err().number(), 12); // 4001 and 4002
/// ```
pub fn block_stamps(block: &[u8]) -> TimeResult<u32> {
    judged(ffi::ct_block_stamps(block)).map(|stamps| stamps as u32)
}

/// A part of a block's listing, from line `line` on: as many whole lines as surely fit. Line 0 is the header and line
/// i + 1 stamp i's; a refused block has line 0 alone. Answers the number of bytes, 0 past the last line. The next part
/// begins at `line` plus the line ends in this one. Refuses 11, where `out` has fewer than 33 bytes.
///
/// ```
/// use celestial_time_proved::{blocks::listing_part, Table};
/// let mut out = [0; 100];
/// let length = listing_part(&[0; 8], 0, &Table::NONE, &mut out).unwrap();
/// assert_eq!(&out[..length], b"utc listing 0 refused 0\n");
/// assert_eq!(listing_part(&[0; 8], 0, &Table::NONE, &mut out[..32]).unwrap_err().number(), 11);
/// ```
pub fn listing_part(block: &[u8], line: u32, table: &Table, out: &mut [u8]) -> TimeResult<usize> {
    judged(ffi::ct_listing_part(block, line, table.as_bytes(), out)).map(|length| length as usize)
}

/// As [`listing_part`], with a sentence in the place of `refused` and the number. `input_len` says how many bytes came in
/// all, of which the block has the first; a block that is refused by 14 names it. Refuses 11, where `out` has fewer than
/// 64 bytes.
///
/// ```
/// use celestial_time_proved::{blocks::reason_listing_part, Table};
/// let mut out = [0; 100];
/// let length = reason_listing_part(&[0; 7], 7, 0, &Table::NONE, &mut out).unwrap();
/// assert_eq!(&out[..length], b"block the number of bytes is wrong: length 7\n");
/// ```
pub fn reason_listing_part(
    block: &[u8],
    input_len: u64,
    line: u32,
    table: &Table,
    out: &mut [u8],
) -> TimeResult<usize> {
    judged(ffi::ct_reason_listing_part(block, input_len, line, table.as_bytes(), out)).map(|length| length as usize)
}
