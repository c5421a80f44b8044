use crate::{at, made_up, number, parts};
use celestial_time_proved::runs::{convert_run, dates_of_texts, formula_run, texts_of_run, Dates, Stamps};
use celestial_time_proved::scales::gps::GPS;
use celestial_time_proved::scales::tai::TAI;
use celestial_time_proved::scales::tcb::TCB;
use celestial_time_proved::scales::tcg::TCG;
use celestial_time_proved::scales::tdb::TDB;
use celestial_time_proved::scales::tt::TT;
use celestial_time_proved::scales::ut1::UT1;
use celestial_time_proved::scales::utc::{Form, UTC};
use celestial_time_proved::scales::TimeScale;
use celestial_time_proved::{Table, TimeResult};

const FILL: f64 = -1.0;

struct Answered {
    code: TimeResult<u64>,
    jd1: Vec<f64>,
    jd2: Vec<f64>,
    numbers: Vec<u8>,
}

/// A call with so many places for dates of a scale and for numbers.
fn answered<To: TimeScale>(
    places: usize,
    numbers: usize,
    call: impl FnOnce(&mut Dates<To>) -> TimeResult<u64>,
) -> Answered {
    let (mut jd1, mut jd2, mut numbers) = (vec![FILL; places], vec![FILL; places], vec![99; numbers]);
    let code = call(&mut Dates::new(&mut jd1, &mut jd2, &mut numbers));
    Answered { code, jd1, jd2, numbers }
}

#[test]
fn a_run_is_the_single_calls() {
    let (jd1, jd2) = (vec![2457754.5, f64::NAN, 2461406.5, -31739.5], vec![0.5; 4]);
    let (stamps, table) = (Stamps::<UTC>::new(&jd1, &jd2), made_up(38));
    let run = answered::<TT>(5, 6, |dates| convert_run(stamps, &table, dates));
    assert_eq!((run.code, &run.numbers[..]), (Ok(2), &[0, 6, 0, 1, 99, 99][..]));
    for i in 0..5 {
        let due = match run.numbers[i] {
            0 => parts(at::<UTC>(jd1[i], jd2[i]).to_tai_with_table(&table).unwrap().0.to_tt()),
            _ => (FILL, FILL),
        };
        assert_eq!((run.jd1[i], run.jd2[i]), due);
    }
}

/// What a run wrote is a run of the other scale.
#[test]
fn one_run_after_the_other() {
    let (mut jd1, mut jd2, mut numbers) = ([FILL; 2], [FILL; 2], [99; 2]);
    let mut dates = Dates::<TAI>::new(&mut jd1, &mut jd2, &mut numbers);
    let stamps = Stamps::<GPS>::new(&[2451545.0, f64::NAN], &[0.25, 0.0]);
    assert_eq!(convert_run(stamps, &Table::NONE, &mut dates), Ok(1));
    let (run, numbers) = dates.into_run();
    assert_eq!(numbers, [0, 9]);
    let tt = answered::<TT>(2, 2, |dates| convert_run(run, &Table::NONE, dates));
    assert_eq!((tt.jd1[0], tt.jd2[0]), parts(at::<GPS>(2451545.0, 0.25).to_tai().unwrap().to_tt()));
}

fn refused_run<From: TimeScale>(stamps: Stamps<From>, places: usize, numbers: usize, due: u32) {
    let run = answered::<UTC>(places, numbers, |dates| convert_run(stamps, &Table::NONE, dates));
    assert_eq!(number(run.code), due);
    assert_eq!(run.jd1[0] == FILL && run.jd2[0] == FILL && run.numbers[0] == 99, due != 0);
}

#[test]
fn refused_runs_write_nothing() {
    let (jd1, jd2) = ([2457754.5; 2], [0.0; 2]);
    refused_run(Stamps::<UT1>::new(&jd1, &jd2[..1]), 1, 1, 18);
    refused_run(Stamps::<TAI>::new(&jd1, &jd2[..1]), 1, 1, 12);
    refused_run(Stamps::<TAI>::new(&jd1, &jd2), 1, 2, 11);
    refused_run(Stamps::<TAI>::new(&jd1, &jd2), 2, 1, 11);
    refused_run(Stamps::<TAI>::new(&jd1, &jd2), 2, 2, 0);
}

#[test]
fn from_a_scale_to_itself() {
    let stamps = Stamps::<GPS>::new(&[-0.0, f64::NAN], &[1.7e308, 0.0]);
    let run = answered::<GPS>(2, 2, |dates| convert_run(stamps, &Table::NONE, dates));
    assert_eq!((run.code, run.numbers), (Ok(1), vec![0, 9]));
    assert_eq!(run.jd1[0].to_bits(), (-0.0_f64).to_bits());
}

#[test]
fn a_run_by_a_formula() {
    let (jd1, jd2) = ([2451545.0, f64::NAN, 2451545.0], [0.25; 3]);
    let tt = Stamps::<TT>::new(&jd1, &jd2);
    let run = answered::<TDB>(3, 3, |dates| formula_run(tt, &[0.001, 0.001, f64::NAN], dates));
    assert_eq!((run.code, run.numbers), (Ok(2), vec![0, 9, 10]));
    assert_eq!((run.jd1[0], run.jd2[0]), parts(at::<TT>(2451545.0, 0.25).to_tdb_with_offset(0.001)));
    let run = answered::<TAI>(3, 3, |dates| formula_run(Stamps::<GPS>::new(&jd1, &jd2), &[], dates));
    assert_eq!((run.code, run.jd2[0]), (Ok(1), 0.2502199074074074));
}

#[test]
fn refused_runs_by_a_formula() {
    let (jd1, jd2) = ([2451545.0; 3], [0.25; 3]);
    let tdb = Stamps::<TDB>::new(&jd1, &jd2);
    let tai = Stamps::<TAI>::new(&jd1, &jd2[..1]);
    assert_eq!(number(answered::<TCG>(0, 3, |dates| formula_run(tai, &[], dates)).code), 18);
    assert_eq!(number(answered::<GPS>(0, 3, |dates| formula_run(tai, &[], dates)).code), 12);
    assert_eq!(number(answered::<TCB>(0, 3, |dates| formula_run(tdb, &[0.0], dates)).code), 12);
    assert_eq!(number(answered::<TT>(0, 3, |dates| formula_run(tdb, &[], dates)).code), 12);
    assert_eq!(number(answered::<TCB>(2, 3, |dates| formula_run(tdb, &[], dates)).code), 11);
}

#[test]
fn texts_of_a_run_are_the_single_calls() {
    let (jd1, jd2) = (vec![2457753.5, f64::NAN, 6104057.5, -31739.5], vec![0.9999999; 4]);
    let (stamps, table) = (Stamps::<UTC>::new(&jd1, &jd2), made_up(38));
    for form in [Form::Nearest, Form::HalfEven, Form::Expanded] {
        let (mut texts, mut lengths, mut numbers) = (vec![99; 110], vec![99; 5], vec![99; 4]);
        assert_eq!(texts_of_run(form, stamps, &table, &mut texts, &mut lengths, &mut numbers), Ok(2));
        assert_eq!((numbers, lengths[4]), (vec![0, 6, 0, 1], 99));
        for i in 0..4 {
            let mut due = vec![99; 27];
            if let Ok((text, _)) = at::<UTC>(jd1[i], jd2[i]).to_text_with_table(form, &table) {
                due[..text.len()].copy_from_slice(text.as_bytes());
                assert_eq!(lengths[i] as usize, text.len());
            } else {
                assert_eq!(lengths[i], 0);
            }
            assert_eq!(texts[27 * i..27 * i + 27], due);
        }
        assert_eq!(texts[108..], [99, 99]);
    }
}

#[test]
fn refused_texts_of_a_run() {
    let refused = |stamps: Stamps<UTC>, texts: usize, lengths: usize, numbers: usize| {
        let (mut texts, mut lengths, mut numbers) = (vec![99; texts], vec![99; lengths], vec![99; numbers]);
        let code = texts_of_run(Form::Nearest, stamps, &Table::NONE, &mut texts, &mut lengths, &mut numbers);
        assert!(texts.iter().chain(&lengths).chain(&numbers).all(|byte| *byte == 99));
        number(code)
    };
    let (jd1, jd2) = ([2451545.0; 2], [0.25; 2]);
    assert_eq!(refused(Stamps::new(&jd1, &jd2[..1]), 0, 0, 0), 12);
    assert_eq!(refused(Stamps::new(&jd1, &jd2), 53, 2, 2), 11);
    assert_eq!(refused(Stamps::new(&jd1, &jd2), 54, 1, 2), 11);
    assert_eq!(refused(Stamps::new(&jd1, &jd2), 54, 2, 1), 11);
}

#[test]
fn dates_of_a_run_of_texts() {
    let written =
        ["2016-12-31T23:59:60.5", "2016-12-31T23:59:61", "2017-01-01T00:00:00Z", "2026-12-31T23:59:59", "never"];
    let (mut texts, table) = (vec![99; 27 * 5], made_up(36));
    for (i, text) in written.iter().enumerate() {
        texts[27 * i..27 * i + text.len()].copy_from_slice(text.as_bytes());
    }
    let lengths = written.map(|text| text.len() as u8);
    let run = answered::<UTC>(6, 6, |dates| dates_of_texts(&texts, &lengths, &table, dates));
    assert_eq!((run.code, run.numbers), (Ok(3), vec![0, 4, 0, 4, 15, 99]));
    assert_eq!(run.jd1, [2457753.5, FILL, 2457754.5, FILL, FILL, FILL]);
    assert_eq!(run.jd2, [86400.5 / 86401.0, FILL, 0.0, FILL, FILL, FILL]);
}

#[test]
fn refused_dates_of_texts() {
    let refused = |texts: usize, lengths: usize, places: usize, numbers: usize| {
        let run = answered::<UTC>(places, numbers, |dates| {
            dates_of_texts(&vec![32; texts], &vec![27; lengths], &Table::NONE, dates)
        });
        assert!(run.jd1.iter().chain(&run.jd2).all(|part| *part == FILL) && run.numbers.iter().all(|byte| *byte == 99));
        number(run.code)
    };
    assert_eq!(refused(26, 0, 0, 0), 14);
    assert_eq!(refused(27, 2, 0, 0), 12);
    assert_eq!(refused(54, 2, 1, 2), 11);
    assert_eq!(refused(54, 2, 2, 1), 11);
}

#[test]
fn runs_of_no_stamp() {
    let run = answered::<TAI>(0, 0, |dates| convert_run(Stamps::<UTC>::new(&[], &[]), &Table::NONE, dates));
    assert_eq!(run.code, Ok(0));
    let run = answered::<GPS>(0, 0, |dates| formula_run(Stamps::<TAI>::new(&[], &[]), &[], dates));
    assert_eq!(run.code, Ok(0));
}
