// A filter over the supplied Rust: requests on standard input, answers on
// standard output, 64 bytes each. tests/calls.txt lists the calls.

mod refusal;

use celestial_time::julian::JulianDate;
use celestial_time::scales::common::get_tai_utc_offset;
use celestial_time::scales::conversions::tcb_tdb::{TcbToTdb, TdbToTcb};
use celestial_time::scales::conversions::tt_tdb::{ToTDB, ToTTFromTDB};
use celestial_time::scales::conversions::ut1_tai::{
    ToTAIWithOffset, ToTTWithDeltaT, ToUT1WithDeltaT, ToUT1WithOffset,
};
use celestial_time::scales::conversions::utc_tai::{calendar_to_julian, julian_to_calendar};
use celestial_time::scales::conversions::utc_ut1::{ToUT1WithDUT1, ToUTCWithDUT1};
use celestial_time::scales::conversions::{ToGPS, ToTAI, ToTCG, ToTT, ToUTC};
use celestial_time::scales::utc::{utc_from_calendar, UTC};
use celestial_time::scales::{gps::GPS, tai::TAI, tcb::TCB, tcg::TCG, tdb::TDB, tt::TT, ut1::UT1};
use celestial_time::transforms::Opened;
use celestial_time::TimeResult;
use refusal::{refusal, NOT_ASKED, TEXT_TOO_LONG};
use std::io::{Read, Write};

type Record = [u64; 8];

struct Request(Record);

impl Request {
    fn float(&self, i: usize) -> f64 {
        f64::from_bits(self.0[i + 1])
    }
    fn i64(&self, i: usize) -> i64 {
        self.0[i + 1] as i64
    }
    fn i32(&self, i: usize) -> i32 {
        self.0[i + 1] as i32
    }
    fn u32(&self, i: usize) -> u32 {
        self.0[i + 1] as u32
    }
    fn u8(&self, i: usize) -> u8 {
        self.0[i + 1] as u8
    }
    fn date(&self, i: usize) -> JulianDate {
        JulianDate::new(self.float(i), self.float(i + 1))
    }
}

// Every NaN is written alike: document 01 counts any NaN as any other.
fn bits(x: f64) -> u64 {
    if x.is_nan() {
        0x7ff8_0000_0000_0000
    } else {
        x.to_bits()
    }
}

fn values(list: &[u64]) -> Record {
    let mut record = [0; 8];
    record[1..=list.len()].copy_from_slice(list);
    record
}

fn refused(number: u64) -> Record {
    [number, 0, 0, 0, 0, 0, 0, 0]
}

fn answer<T>(result: TimeResult<T>, good: impl Fn(T) -> Record) -> Record {
    match result {
        Ok(value) => good(value),
        Err(error) => refused(refusal(&error)),
    }
}

fn float(x: f64) -> Record {
    values(&[bits(x)])
}

fn jd(date: JulianDate) -> Record {
    values(&[bits(date.jd1()), bits(date.jd2())])
}

fn ymd((year, month, day): (i32, i32, i32)) -> Record {
    values(&[year as u64, month as u64, day as u64])
}

const FILL: u8 = 0xaa;
const BUFFER: usize = 32;

fn text_record(number: u64, length: u64, buffer: [u8; BUFFER]) -> Record {
    let mut record = [number, length, 0, 0, 0, 0, 0, 0];
    for (word, bytes) in record[2..6].iter_mut().zip(buffer.chunks(8)) {
        *word = u64::from_le_bytes(bytes.try_into().unwrap());
    }
    record
}

// The Rust gives a string; the buffer and refusal 11 are document 01's.
fn text(result: TimeResult<String>, room: usize) -> Record {
    let mut buffer = [FILL; BUFFER];
    match result {
        Err(error) => text_record(refusal(&error), 0, buffer),
        Ok(text) if text.len() > room.min(BUFFER) => text_record(TEXT_TOO_LONG, 0, buffer),
        Ok(text) => {
            buffer[..text.len()].copy_from_slice(text.as_bytes());
            text_record(0, text.len() as u64, buffer)
        }
    }
}

fn floats(call: u64, r: &Request) -> Record {
    let x = r.float(0);
    match call {
        1 => float(libm::floor(x)),
        2 => float(libm::ceil(x)),
        3 => float(libm::trunc(x)),
        4 => float(libm::round(x)),
        5 => float(libm::fabs(x)),
        6 => values(&[x.is_finite() as u64]),
        7 => values(&[(x as i64) as u64]),
        8 => float(Opened::nearest_int(x)),
        9 => float(libm::fmin(x, 1.0)),
        _ => refused(NOT_ASKED),
    }
}

fn calendar(call: u64, r: &Request) -> Record {
    let (year, month, day) = (r.i32(0), r.i32(1), r.i32(2));
    let (x, y) = (r.float(0), r.float(1));
    match call {
        20 => values(&[Opened::is_leap_year(year) as u64]),
        21 => values(&[Opened::days_in_month(year, month).unwrap_or(0) as u64]),
        22 => answer(Opened::validate_calendar_date(year, month, day), |()| values(&[])),
        23 => answer(Opened::next_calendar_day(year, month, day), ymd),
        24 => answer(calendar_to_julian(year, month, day), |(a, b)| values(&[bits(a), bits(b)])),
        25 => answer(julian_to_calendar(x, y), |(year, month, day, fraction)| {
            values(&[year as u64, month as u64, day as u64, bits(fraction)])
        }),
        // The source calls these two only inside the range.
        26 => answer(Opened::check_julian_range(x + y), |()| {
            let (day, fraction) = Opened::day_number_and_fraction(x, y);
            values(&[day as u64, bits(fraction)])
        }),
        27 if !(-68570..=1_000_000_000).contains(&r.i64(0)) => refused(NOT_ASKED),
        27 => ymd(Opened::gregorian_date(r.i64(0))),
        28 => answer(Opened::check_julian_range(x), |()| values(&[])),
        29 => {
            let (carry, sum, correction) = Opened::sum_fractions(x, y);
            values(&[carry as u64, bits(sum), bits(correction)])
        }
        30 => {
            let (days, fraction) = Opened::normalize_fraction(x, y);
            values(&[days as u64, bits(fraction)])
        }
        31 => {
            let (borrow, sum, correction, fraction) = Opened::borrow_day(x, y);
            values(&[borrow as u64, bits(sum), bits(correction), bits(fraction)])
        }
        32 => {
            let (carry, fraction) = Opened::carry_day(x, y, r.float(2));
            values(&[carry as u64, bits(fraction)])
        }
        _ => refused(NOT_ASKED),
    }
}

fn julian(call: u64, r: &Request) -> Record {
    match call {
        40 => jd(r.date(0)),
        41 => jd(JulianDate::from_f64(r.float(0))),
        42 => jd(JulianDate::j2000()),
        43 => jd(JulianDate::unix_epoch()),
        44 => float(r.date(0).jd1()),
        45 => float(r.date(0).jd2()),
        46 => float(r.date(0).to_f64()),
        47 => jd(r.date(0).add_days(r.float(2))),
        48 => jd(r.date(0).add_seconds(r.float(2))),
        49 => jd(Opened::from_unix_time(r.i64(0), r.u32(1))),
        50 => answer(
            JulianDate::from_calendar(r.i32(0), r.u8(1), r.u8(2), r.u8(3), r.u8(4), r.float(5)),
            jd,
        ),
        51 => float(r.date(0).to_julian_year()),
        52 => jd(JulianDate::from_julian_year(r.float(0))),
        53 => values(&[(r.date(0) == r.date(2)) as u64]),
        54 => float(r.date(0) - r.date(2)),
        55 => {
            let (sum, error) = Opened::exact_sum(r.float(0), r.float(1));
            values(&[bits(sum), bits(error)])
        }
        56 => answer(Opened::day_fraction(r.u8(0), r.u8(1), r.float(2), r.float(3)), float),
        57 => answer(Opened::finite_jd(r.date(0)), jd),
        58 => answer(Opened::finite_arg(r.float(0)), float),
        _ => refused(NOT_ASKED),
    }
}

fn tai_utc(call: u64, r: &Request) -> Record {
    let (year, month, day) = (r.i32(0), r.i32(1), r.i32(2));
    match call {
        60 => answer(get_tai_utc_offset(year, month, day, r.float(3)), float),
        61 => values(&[Opened::offset_table_index(year, month).map_or(-1, |i| i as i64) as u64]),
        62 => answer(Opened::leap_at_end_of_day(year, month, day), float),
        63 => answer(
            Opened::stretch_day_fraction(year, month, day, r.float(3)),
            |(offset, stretched)| values(&[bits(offset), bits(stretched)]),
        ),
        _ => refused(NOT_ASKED),
    }
}

fn scales(call: u64, r: &Request) -> Record {
    let (date, offset) = (r.date(0), r.float(2));
    match call {
        80 | 88 => jd(UTC::from_julian_date(date).to_julian_date()),
        81 | 89 => jd(TAI::from_julian_date(date).to_julian_date()),
        82 | 90 => jd(UT1::from_julian_date(date).to_julian_date()),
        83 | 91 => jd(TT::from_julian_date(date).to_julian_date()),
        84 | 92 => jd(GPS::from_julian_date(date).to_julian_date()),
        85 | 93 => jd(TCG::from_julian_date(date).to_julian_date()),
        86 | 94 => jd(TCB::from_julian_date(date).to_julian_date()),
        87 | 95 => jd(TDB::from_julian_date(date).to_julian_date()),
        100 => answer(GPS::from_julian_date(date).to_tai(), |t| jd(t.to_julian_date())),
        101 => answer(TAI::from_julian_date(date).to_gps(), |t| jd(t.to_julian_date())),
        102 => answer(TAI::from_julian_date(date).to_tt(), |t| jd(t.to_julian_date())),
        103 => answer(TT::from_julian_date(date).to_tai(), |t| jd(t.to_julian_date())),
        104 => answer(TAI::from_julian_date(date).to_tcg(), |t| jd(t.to_julian_date())),
        105 => answer(TCG::from_julian_date(date).to_tai(), |t| jd(t.to_julian_date())),
        106 => answer(TT::from_julian_date(date).to_tcg(), |t| jd(t.to_julian_date())),
        107 => answer(TCG::from_julian_date(date).to_tt(), |t| jd(t.to_julian_date())),
        108 => answer(TCB::from_julian_date(date).tcb_to_tdb(), |t| jd(t.to_julian_date())),
        109 => answer(TDB::from_julian_date(date).tdb_to_tcb(), |t| jd(t.to_julian_date())),
        110 => answer(TT::from_julian_date(date).to_tdb_with_offset(offset), |t| {
            jd(t.to_julian_date())
        }),
        111 => answer(TDB::from_julian_date(date).to_tt_with_offset(offset), |t| {
            jd(t.to_julian_date())
        }),
        112 => answer(UT1::from_julian_date(date).to_tai_with_offset(offset), |t| {
            jd(t.to_julian_date())
        }),
        113 => answer(TAI::from_julian_date(date).to_ut1_with_offset(offset), |t| {
            jd(t.to_julian_date())
        }),
        114 => answer(UT1::from_julian_date(date).to_tt_with_delta_t(offset), |t| {
            jd(t.to_julian_date())
        }),
        115 => answer(TT::from_julian_date(date).to_ut1_with_delta_t(offset), |t| {
            jd(t.to_julian_date())
        }),
        _ => refused(NOT_ASKED),
    }
}

fn utc(call: u64, r: &Request) -> Record {
    let (date, offset) = (r.date(0), r.float(2));
    match call {
        120 => answer(UTC::new(r.i64(0), r.u32(1)), |t| jd(t.to_julian_date())),
        121 => answer(
            utc_from_calendar(r.i32(0), r.u8(1), r.u8(2), r.u8(3), r.u8(4), r.float(5)),
            |t| jd(t.to_julian_date()),
        ),
        122 => text(UTC::from_julian_date(date).to_iso8601(), r.i64(2) as usize),
        123 => answer(UTC::from_julian_date(date).to_tai(), |t| jd(t.to_julian_date())),
        124 => answer(TAI::from_julian_date(date).to_utc(), |t| jd(t.to_julian_date())),
        125 => answer(UTC::from_julian_date(date).to_ut1_with_dut1(offset), |t| {
            jd(t.to_julian_date())
        }),
        126 => answer(UT1::from_julian_date(date).to_utc_with_dut1(offset), |t| {
            jd(t.to_julian_date())
        }),
        127 => answer(Opened::refine_utc_fraction(r.float(0), r.float(1)), float),
        128 => answer(
            Opened::adjust_dut1_for_leap_second(r.float(0), r.float(1), offset),
            float,
        ),
        129 => text(Ok(Opened::iso_string(r.i32(0), r.i32(1), r.i32(2), r.i64(3))), BUFFER),
        _ => refused(NOT_ASKED),
    }
}

fn answer_to(record: Record) -> Record {
    let request = Request(record);
    match record[0] {
        call @ 1..=19 => floats(call, &request),
        call @ 20..=39 => calendar(call, &request),
        call @ 40..=59 => julian(call, &request),
        call @ 60..=79 => tai_utc(call, &request),
        call @ 80..=119 => scales(call, &request),
        call @ 120..=139 => utc(call, &request),
        _ => refused(NOT_ASKED),
    }
}

fn main() -> std::io::Result<()> {
    let mut input = std::io::BufReader::with_capacity(1 << 16, std::io::stdin().lock());
    let mut output = std::io::BufWriter::with_capacity(1 << 16, std::io::stdout().lock());
    let mut bytes = [0u8; 64];
    while input.read_exact(&mut bytes).is_ok() {
        let mut request = [0; 8];
        for (word, chunk) in request.iter_mut().zip(bytes.chunks(8)) {
            *word = u64::from_le_bytes(chunk.try_into().unwrap());
        }
        for word in answer_to(request) {
            output.write_all(&word.to_le_bytes())?;
        }
    }
    output.flush()
}
