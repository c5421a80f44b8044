// A filter over the public names of celestial-time: requests on standard input, answers on standard output, 64 bytes each;
// tests/calls.txt lists the calls. tests/rust_crate/compare compiles this file twice, with the supplied source and with the
// crate rust/ under the name of the source: all that is written here are names and paths that both have. The numbers of the
// refusals alone are read from each in its own way.

#![allow(unused_imports)] // the crate's methods need no trait

#[cfg(supplied)]
#[path = "../rust/refusal.rs"]
#[allow(dead_code)]
mod refusal;

#[cfg(not(supplied))]
mod refusal {
    pub fn refusal(error: &celestial_time::TimeError) -> u64 {
        error.number().into()
    }
}

use celestial_time::julian::JulianDate;
use celestial_time::scales::common::get_tai_utc_offset;
use celestial_time::scales::conversions::tcb_tdb::{TcbToTdb, TdbToTcb};
use celestial_time::scales::conversions::tt_tdb::{ToTDB, ToTTFromTDB};
use celestial_time::scales::conversions::ut1_tai::{ToTAIWithOffset, ToTTWithDeltaT, ToUT1WithDeltaT, ToUT1WithOffset};
use celestial_time::scales::conversions::utc_tai::{calendar_to_julian, julian_to_calendar};
use celestial_time::scales::conversions::utc_ut1::{ToUT1WithDUT1, ToUTCWithDUT1};
use celestial_time::scales::conversions::{ToGPS, ToTAI, ToTCG, ToTT, ToUTC};
use celestial_time::scales::utc::{utc_from_calendar, UTC};
use celestial_time::scales::{gps::GPS, tai::TAI, tcb::TCB, tcg::TCG, tdb::TDB, tt::TT, ut1::UT1};
use celestial_time::{constants, TimeError, TimeResult};
use std::io::{Read, Write};

type Record = [u64; 8];

struct Request(Record);

impl Request {
    fn float(&self, i: usize) -> f64 {
        f64::from_bits(self.0[i + 1])
    }

    fn whole<T: TryFrom<i64>>(&self, i: usize) -> T {
        T::try_from(self.0[i + 1] as i64).ok().expect("a request's number fits its argument")
    }

    fn date(&self, i: usize) -> JulianDate {
        JulianDate::new(self.float(i), self.float(i + 1))
    }
}

// Any NaN counts as any other.
fn bits(x: f64) -> u64 {
    if x.is_nan() {
        0x7ff8_0000_0000_0000
    } else {
        x.to_bits()
    }
}

fn values(list: &[u64]) -> Record {
    let mut record = [0; 8];
    record[1..=list.len()].copy_from_slice(list);
    record
}

fn answer<T>(result: TimeResult<T>, good: impl Fn(T) -> Record) -> Record {
    match result {
        Ok(value) => good(value),
        Err(error) => [refusal::refusal(&error), 0, 0, 0, 0, 0, 0, 0],
    }
}

fn jd(date: JulianDate) -> Record {
    values(&[bits(date.jd1()), bits(date.jd2())])
}

fn julian(call: u64, r: &Request) -> Record {
    let date = r.date(0);
    match call {
        24 => answer(calendar_to_julian(r.whole(0), r.whole(1), r.whole(2)), |(a, b)| values(&[bits(a), bits(b)])),
        25 => answer(julian_to_calendar(r.float(0), r.float(1)), |(year, month, day, fraction)| {
            values(&[year as u64, month as u64, day as u64, bits(fraction)])
        }),
        40 => jd(date),
        41 => jd(JulianDate::from_f64(r.float(0))),
        42 => jd(JulianDate::j2000()),
        43 => values(&[bits(JulianDate::unix_epoch().jd1()), bits(constants::UNIX_EPOCH_JD)]),
        46 => values(&[bits(date.to_f64())]),
        47 => jd(date.add_days(r.float(2))),
        48 => jd(date.add_seconds(r.float(2))),
        50 => {
            let (year, month, day, hour) = (r.whole(0), r.whole(1), r.whole(2), r.whole(3));
            answer(JulianDate::from_calendar(year, month, day, hour, r.whole(4), r.float(5)), jd)
        }
        51 => values(&[bits(date.to_julian_year())]),
        52 => jd(JulianDate::from_julian_year(r.float(0))),
        53 => values(&[(date == r.date(2)).into()]),
        54 => values(&[bits(date - r.date(2))]),
        60 => answer(get_tai_utc_offset(r.whole(0), r.whole(1), r.whole(2), r.float(3)), |x| values(&[bits(x)])),
        _ => panic!("no such call: {call}"),
    }
}

fn scales(call: u64, r: &Request) -> Record {
    let (date, offset) = (r.date(0), r.float(2));
    match call {
        100 => answer(GPS::from_julian_date(date).to_tai(), |t| jd(t.to_julian_date())),
        101 => answer(TAI::from_julian_date(date).to_gps(), |t| jd(t.to_julian_date())),
        102 => answer(TAI::from_julian_date(date).to_tt(), |t| jd(t.to_julian_date())),
        103 => answer(TT::from_julian_date(date).to_tai(), |t| jd(t.to_julian_date())),
        104 => answer(TAI::from_julian_date(date).to_tcg(), |t| jd(t.to_julian_date())),
        105 => answer(TCG::from_julian_date(date).to_tai(), |t| jd(t.to_julian_date())),
        106 => answer(TT::from_julian_date(date).to_tcg(), |t| jd(t.to_julian_date())),
        107 => answer(TCG::from_julian_date(date).to_tt(), |t| jd(t.to_julian_date())),
        108 => answer(TCB::from_julian_date(date).tcb_to_tdb(), |t| jd(t.to_julian_date())),
        109 => answer(TDB::from_julian_date(date).tdb_to_tcb(), |t| jd(t.to_julian_date())),
        110 => answer(TT::from_julian_date(date).to_tdb_with_offset(offset), |t| jd(t.to_julian_date())),
        111 => answer(TDB::from_julian_date(date).to_tt_with_offset(offset), |t| jd(t.to_julian_date())),
        112 => answer(UT1::from_julian_date(date).to_tai_with_offset(offset), |t| jd(t.to_julian_date())),
        113 => answer(TAI::from_julian_date(date).to_ut1_with_offset(offset), |t| jd(t.to_julian_date())),
        114 => answer(UT1::from_julian_date(date).to_tt_with_delta_t(offset), |t| jd(t.to_julian_date())),
        115 => answer(TT::from_julian_date(date).to_ut1_with_delta_t(offset), |t| jd(t.to_julian_date())),
        123 => answer(UTC::from_julian_date(date).to_tai(), |t| jd(t.to_julian_date())),
        124 => answer(TAI::from_julian_date(date).to_utc(), |t| jd(t.to_julian_date())),
        125 => answer(UTC::from_julian_date(date).to_ut1_with_dut1(offset), |t| jd(t.to_julian_date())),
        126 => answer(UT1::from_julian_date(date).to_utc_with_dut1(offset), |t| jd(t.to_julian_date())),
        _ => julian(call, r),
    }
}

// The text in four words, and the parts of the date that it is read as, where it is one.
fn text(text: String) -> Record {
    let mut bytes = [0; 32];
    bytes[..text.len()].copy_from_slice(text.as_bytes());
    let mut record = [0; 8];
    for (word, eight) in record[1..5].iter_mut().zip(bytes.chunks(8)) {
        *word = u64::from_le_bytes(eight.try_into().unwrap());
    }
    if let Ok(read) = text.parse::<UTC>() {
        record[5] = 1;
        record[6] = bits(read.to_julian_date().jd1());
        record[7] = bits(read.to_julian_date().jd2());
    }
    record
}

fn utc(call: u64, r: &Request) -> Record {
    match call {
        120 => answer(UTC::new(r.whole(0), r.whole(1)), |t| jd(t.to_julian_date())),
        121 => {
            let (year, month, day, hour) = (r.whole(0), r.whole(1), r.whole(2), r.whole(3));
            answer(utc_from_calendar(year, month, day, hour, r.whole(4), r.float(5)), |t| jd(t.to_julian_date()))
        }
        122 => answer(UTC::from_julian_date(r.date(0)).to_iso8601(), text),
        _ => scales(call, r),
    }
}

fn main() -> std::io::Result<()> {
    let mut input = std::io::BufReader::with_capacity(1 << 16, std::io::stdin().lock());
    let mut output = std::io::BufWriter::with_capacity(1 << 16, std::io::stdout().lock());
    let mut bytes = [0u8; 64];
    while input.read_exact(&mut bytes).is_ok() {
        let mut request = [0; 8];
        for (word, chunk) in request.iter_mut().zip(bytes.chunks(8)) {
            *word = u64::from_le_bytes(chunk.try_into().unwrap());
        }
        for word in utc(request[0], &Request(request)) {
            output.write_all(&word.to_le_bytes())?;
        }
    }
    output.flush()
}
