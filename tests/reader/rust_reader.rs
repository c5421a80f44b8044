// A filter over the supplied Rust's reader: texts on standard input, each with
// one byte of its length in front; a line for each on standard output, as
// tests/reader/port_reader.c writes it.

use celestial_time::scales::utc::UTC;
use celestial_time::transforms::Opened;
use celestial_time::TimeError;
use std::io::{Read, Write};

// The words tell which test refused a text: form 15, date 2 or 3, time 4.
fn number(error: &TimeError) -> u32 {
    match error {
        TimeError::InvalidDate(text) if text.ends_with(": month is out of range") => 2,
        TimeError::InvalidDate(text) if text.ends_with(": day is out of range") => 3,
        TimeError::InvalidDate(text) if text.starts_with("time ") => 4,
        TimeError::ParseError(text) if text.contains(" out of range: ") => 4,
        TimeError::ParseError(_) => 15,
        other => panic!("unexpected error: {:?}", other),
    }
}

fn line(text: &[u8], out: &mut Vec<u8>) {
    let Ok(text) = std::str::from_utf8(text) else {
        writeln!(out, "no text").unwrap();
        return;
    };
    match Opened::parse_iso8601(text) {
        Ok((y, m, d, h, n, s)) => write!(out, "{} {} {} {} {} {:016x}", y, m, d, h, n, s.to_bits()),
        Err(error) => write!(out, "refused {}", number(&error)),
    }
    .unwrap();
    match text.parse::<UTC>() {
        Ok(utc) => {
            let date = utc.to_julian_date();
            writeln!(out, " | {:016x} {:016x}", date.jd1().to_bits(), date.jd2().to_bits())
        }
        Err(error) => writeln!(out, " | refused {}", number(&error)),
    }
    .unwrap();
}

fn main() {
    let mut all = Vec::new();
    std::io::stdin().read_to_end(&mut all).unwrap();
    let mut out = Vec::new();
    let mut at = 0;
    while at < all.len() {
        let end = at + 1 + all[at] as usize;
        line(&all[at + 1..end], &mut out);
        at = end;
    }
    std::io::stdout().write_all(&out).unwrap();
}
