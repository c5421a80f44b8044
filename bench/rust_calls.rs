// The supplied Rust's calls for C, in the shape of the port's: the answer's bytes go into a lent
// buffer, and the call returns their number, or minus the number of the refusal.

#[path = "../tests/rust/refusal.rs"]
mod refusal;

use celestial_time::julian::JulianDate;
use celestial_time::scales::common::get_tai_utc_offset;
use celestial_time::scales::conversions::tcb_tdb::{TcbToTdb, TdbToTcb};
use celestial_time::scales::conversions::tt_tdb::{ToTDB, ToTTFromTDB};
use celestial_time::scales::conversions::ut1_tai::{
    ToTAIWithOffset, ToTTWithDeltaT, ToUT1WithDeltaT, ToUT1WithOffset,
};
use celestial_time::scales::conversions::utc_tai::{calendar_to_julian, julian_to_calendar};
use celestial_time::scales::conversions::utc_ut1::{ToUT1WithDUT1, ToUTCWithDUT1};
use celestial_time::scales::conversions::{ToGPS, ToTAI, ToTCG, ToTT, ToUTC};
use celestial_time::scales::utc::{utc_from_calendar, UTC};
use celestial_time::scales::{gps::GPS, tai::TAI, tcb::TCB, tcg::TCG, tdb::TDB, tt::TT, ut1::UT1};
use celestial_time::transforms::Opened;
use celestial_time::TimeResult;
use refusal::{refusal, TEXT_TOO_LONG};

// The caller lends `len` bytes at `out`.
fn put(answer: TimeResult<impl AsRef<[u8]>>, out: *mut u8, len: usize) -> i64 {
    match answer {
        Err(error) => -(refusal(&error) as i64),
        Ok(bytes) => put_bytes(bytes.as_ref(), out, len),
    }
}

fn put_bytes(bytes: &[u8], out: *mut u8, len: usize) -> i64 {
    if len < bytes.len() {
        return -(TEXT_TOO_LONG as i64);
    }
    unsafe { std::ptr::copy_nonoverlapping(bytes.as_ptr(), out, bytes.len()) };
    bytes.len() as i64
}

fn two((x, y): (f64, f64)) -> [u8; 16] {
    let mut bytes = [0; 16];
    bytes[..8].copy_from_slice(&x.to_le_bytes());
    bytes[8..].copy_from_slice(&y.to_le_bytes());
    bytes
}

fn date(jd: JulianDate) -> [u8; 16] {
    two((jd.jd1(), jd.jd2()))
}

fn ymd((year, month, day): (i32, i32, i32)) -> [u8; 12] {
    let mut bytes = [0; 12];
    bytes[..4].copy_from_slice(&year.to_le_bytes());
    bytes[4..8].copy_from_slice(&month.to_le_bytes());
    bytes[8..].copy_from_slice(&day.to_le_bytes());
    bytes
}

fn ymd_fraction((year, month, day, fraction): (i32, i32, i32, f64)) -> [u8; 20] {
    let mut bytes = [0; 20];
    bytes[..12].copy_from_slice(&ymd((year, month, day)));
    bytes[12..].copy_from_slice(&fraction.to_le_bytes());
    bytes
}

#[no_mangle]
pub extern "C" fn rs_is_leap_year(y: i32) -> i64 {
    Opened::is_leap_year(y) as i64
}

#[no_mangle]
pub extern "C" fn rs_days_in_month(y: i32, m: i32) -> i64 {
    Opened::days_in_month(y, m).unwrap_or(0) as i64
}

#[no_mangle]
pub extern "C" fn rs_validate_calendar_date(y: i32, m: i32, d: i32) -> i64 {
    match Opened::validate_calendar_date(y, m, d) {
        Err(error) => -(refusal(&error) as i64),
        Ok(()) => 0,
    }
}

#[no_mangle]
pub extern "C" fn rs_calendar_to_julian(y: i32, m: i32, d: i32, out: *mut u8, len: usize) -> i64 {
    put(calendar_to_julian(y, m, d).map(two), out, len)
}

#[no_mangle]
pub extern "C" fn rs_next_calendar_day(y: i32, m: i32, d: i32, out: *mut u8, len: usize) -> i64 {
    put(Opened::next_calendar_day(y, m, d).map(ymd), out, len)
}

#[no_mangle]
pub extern "C" fn rs_leap_at_end_of_day(y: i32, m: i32, d: i32, out: *mut u8, len: usize) -> i64 {
    put(Opened::leap_at_end_of_day(y, m, d).map(f64::to_le_bytes), out, len)
}

#[no_mangle]
pub extern "C" fn rs_get_tai_utc_offset(y: i32, m: i32, d: i32, f: f64, out: *mut u8, len: usize) -> i64 {
    put(get_tai_utc_offset(y, m, d, f).map(f64::to_le_bytes), out, len)
}

#[no_mangle]
pub extern "C" fn rs_julian_to_calendar(jd1: f64, jd2: f64, out: *mut u8, len: usize) -> i64 {
    put(julian_to_calendar(jd1, jd2).map(ymd_fraction), out, len)
}

#[no_mangle]
pub extern "C" fn rs_from_calendar(y: i32, m: u8, d: u8, h: u8, min: u8, s: f64, out: *mut u8, len: usize) -> i64 {
    put(JulianDate::from_calendar(y, m, d, h, min, s).map(date), out, len)
}

#[no_mangle]
pub extern "C" fn rs_to_f64(jd1: f64, jd2: f64) -> f64 {
    JulianDate::new(jd1, jd2).to_f64()
}

#[no_mangle]
pub extern "C" fn rs_add_days(jd1: f64, jd2: f64, days: f64, out: *mut u8, len: usize) -> i64 {
    put_bytes(&date(JulianDate::new(jd1, jd2).add_days(days)), out, len)
}

#[no_mangle]
pub extern "C" fn rs_add_seconds(jd1: f64, jd2: f64, seconds: f64, out: *mut u8, len: usize) -> i64 {
    put_bytes(&date(JulianDate::new(jd1, jd2).add_seconds(seconds)), out, len)
}

#[no_mangle]
pub extern "C" fn rs_from_unix_time(seconds: i64, nanos: u32, out: *mut u8, len: usize) -> i64 {
    put_bytes(&date(Opened::from_unix_time(seconds, nanos)), out, len)
}

#[no_mangle]
pub extern "C" fn rs_to_julian_year(jd1: f64, jd2: f64) -> f64 {
    JulianDate::new(jd1, jd2).to_julian_year()
}

#[no_mangle]
pub extern "C" fn rs_from_julian_year(year: f64, out: *mut u8, len: usize) -> i64 {
    put_bytes(&date(JulianDate::from_julian_year(year)), out, len)
}

#[no_mangle]
pub extern "C" fn rs_equal(jd1: f64, jd2: f64, other1: f64, other2: f64) -> i64 {
    (JulianDate::new(jd1, jd2) == JulianDate::new(other1, other2)) as i64
}

#[no_mangle]
pub extern "C" fn rs_difference(jd1: f64, jd2: f64, other1: f64, other2: f64) -> f64 {
    JulianDate::new(jd1, jd2) - JulianDate::new(other1, other2)
}

#[no_mangle]
pub extern "C" fn rs_utc_from_calendar(y: i32, m: u8, d: u8, h: u8, min: u8, s: f64, out: *mut u8, len: usize) -> i64 {
    put(utc_from_calendar(y, m, d, h, min, s).map(|t| date(t.to_julian_date())), out, len)
}

#[no_mangle]
pub extern "C" fn rs_utc_new(seconds: i64, nanos: u32, out: *mut u8, len: usize) -> i64 {
    put(UTC::new(seconds, nanos).map(|t| date(t.to_julian_date())), out, len)
}

#[no_mangle]
pub extern "C" fn rs_to_iso8601(jd1: f64, jd2: f64, out: *mut u8, len: usize) -> i64 {
    put(UTC::from_julian_date(JulianDate::new(jd1, jd2)).to_iso8601(), out, len)
}

// The caller lends `len` bytes at `text`. What is no UTF-8 is none of the driver's texts.
fn text_of(text: *const u8, len: usize) -> &'static str {
    unsafe { std::str::from_utf8_unchecked(std::slice::from_raw_parts(text, len)) }
}

fn fields((y, m, d, h, n, s): (i32, u8, u8, u8, u8, f64)) -> [u8; 28] {
    let mut bytes = [0; 28];
    bytes[..12].copy_from_slice(&ymd((y, m as i32, d as i32)));
    bytes[12..16].copy_from_slice(&(h as i32).to_le_bytes());
    bytes[16..20].copy_from_slice(&(n as i32).to_le_bytes());
    bytes[20..].copy_from_slice(&s.to_le_bytes());
    bytes
}

#[no_mangle]
pub extern "C" fn rs_parse_iso8601(text: *const u8, text_len: usize, out: *mut u8, len: usize) -> i64 {
    put(Opened::parse_iso8601(text_of(text, text_len)).map(fields), out, len)
}

#[no_mangle]
pub extern "C" fn rs_utc_from_iso8601(text: *const u8, text_len: usize, out: *mut u8, len: usize) -> i64 {
    put(text_of(text, text_len).parse::<UTC>().map(|t| date(t.to_julian_date())), out, len)
}

macro_rules! conversions {
    ($($name:ident: $from:ident $method:ident;)*) => {$(
        #[no_mangle]
        pub extern "C" fn $name(jd1: f64, jd2: f64, out: *mut u8, len: usize) -> i64 {
            let from = $from::from_julian_date(JulianDate::new(jd1, jd2));
            put(from.$method().map(|t| date(t.to_julian_date())), out, len)
        }
    )*};
}

conversions! {
    rs_gps_to_tai: GPS to_tai;
    rs_tai_to_gps: TAI to_gps;
    rs_tai_to_tt: TAI to_tt;
    rs_tt_to_tai: TT to_tai;
    rs_tai_to_tcg: TAI to_tcg;
    rs_tcg_to_tai: TCG to_tai;
    rs_tt_to_tcg: TT to_tcg;
    rs_tcg_to_tt: TCG to_tt;
    rs_tcb_to_tdb: TCB tcb_to_tdb;
    rs_tdb_to_tcb: TDB tdb_to_tcb;
    rs_utc_to_tai: UTC to_tai;
    rs_tai_to_utc: TAI to_utc;
}

macro_rules! conversions_with_offset {
    ($($name:ident: $from:ident $method:ident;)*) => {$(
        #[no_mangle]
        pub extern "C" fn $name(jd1: f64, jd2: f64, seconds: f64, out: *mut u8, len: usize) -> i64 {
            let from = $from::from_julian_date(JulianDate::new(jd1, jd2));
            put(from.$method(seconds).map(|t| date(t.to_julian_date())), out, len)
        }
    )*};
}

conversions_with_offset! {
    rs_tt_to_tdb_with_offset: TT to_tdb_with_offset;
    rs_tdb_to_tt_with_offset: TDB to_tt_with_offset;
    rs_ut1_to_tai_with_offset: UT1 to_tai_with_offset;
    rs_tai_to_ut1_with_offset: TAI to_ut1_with_offset;
    rs_ut1_to_tt_with_delta_t: UT1 to_tt_with_delta_t;
    rs_tt_to_ut1_with_delta_t: TT to_ut1_with_delta_t;
    rs_utc_to_ut1_with_dut1: UTC to_ut1_with_dut1;
    rs_ut1_to_utc_with_dut1: UT1 to_utc_with_dut1;
}

// The fields of the Rust's text without its String: year, month, day and the milliseconds of the
// day. It is the body of `to_iso8601` up to `iso_string`, so that the driver can write the digits.
fn text_fields(jd1: f64, jd2: f64) -> TimeResult<(i32, i32, i32, i64)> {
    let (year, month, day, fraction) = julian_to_calendar(jd1, jd2)?;
    let leap = Opened::leap_at_end_of_day(year, month, day)?;
    let leap = if leap.abs() > 0.5 { leap } else { 0.0 };
    let seconds = 86400.0 * (fraction + fraction * leap / 86400.0);
    let millis = (1000.0 * seconds).round() as i64;
    if millis < if leap > 0.0 { 86_401_000 } else { 86_400_000 } {
        return Ok((year, month, day, millis));
    }
    let (year, month, day) = Opened::next_calendar_day(year, month, day)?;
    Ok((year, month, day, 0))
}

// 0, or minus the number of the refusal.
#[no_mangle]
pub extern "C" fn rs_text_fields(jd1: f64, jd2: f64, fields: &mut [i32; 4]) -> i64 {
    match text_fields(jd1, jd2) {
        Err(error) => -(refusal(&error) as i64),
        Ok((year, month, day, millis)) => {
            *fields = [year, month, day, millis as i32];
            0
        }
    }
}
