use crate::{at, made_up, number};
use celestial_time_proved::parsing::{parse_iso8601, ParsedDateTime};
use celestial_time_proved::scales::utc::{utc_from_calendar, Form, UTC};
use celestial_time_proved::{JulianDate, Rule, Table};

#[test]
fn three_forms() {
    let half = at::<UTC>(2451544.5, 3.0 / 2048.0);
    assert_eq!(half.to_iso8601().unwrap(), "2000-01-01T00:02:06.563");
    assert_eq!(half.to_iso8601_half_even().unwrap(), "2000-01-01T00:02:06.562");
    assert_eq!(half.to_iso8601_expanded().unwrap(), "2000-01-01T00:02:06.563");
    let far = utc_from_calendar(12000, 1, 1, 0, 0, 0.0).unwrap();
    assert_eq!(far.to_iso8601().unwrap(), "12000-01-01T00:00:00.000");
    assert_eq!(far.to_iso8601_expanded().unwrap(), "+0012000-01-01T00:00:00.000");
    for (jd1, due) in [(f64::NAN, 6), (-68571.0, 6), (-31739.5, 1)] {
        assert_eq!(number(at::<UTC>(jd1, 0.0).to_iso8601()), due);
        assert_eq!(number(at::<UTC>(jd1, 0.0).to_iso8601_half_even()), due);
        assert_eq!(number(at::<UTC>(jd1, 0.0).to_iso8601_expanded()), due);
    }
}

/// A text that shows the next midnight has the rule of the day that ends there.
#[test]
fn rules_of_texts() {
    let last = utc_from_calendar(2016, 12, 31, 23, 59, 60.9996).unwrap();
    for form in [Form::Nearest, Form::HalfEven, Form::Expanded] {
        let (text, rule) = last.to_text_with_table(form, &Table::NONE).unwrap();
        assert_eq!((text.as_str(), rule), ("2017-01-01T00:00:00.000", Rule::Whole(40)));
        assert_eq!(number(at::<UTC>(f64::NAN, 0.0).to_text_with_table(form, &Table::NONE)), 6);
    }
    let old = utc_from_calendar(1959, 1, 1, 0, 0, 0.0).unwrap();
    assert_eq!(old.to_text_with_table(Form::Nearest, &Table::NONE).unwrap().1, Rule::Absent);
    let drifting = utc_from_calendar(1965, 7, 1, 0, 0, 0.0).unwrap();
    assert_eq!(drifting.to_text_with_table(Form::Nearest, &Table::NONE).unwrap().1.row(), Some(10));
}

#[test]
fn fields_of_texts() {
    let read = parse_iso8601("\t2000-02-29 23:58:60.25\r\n").unwrap();
    let ParsedDateTime { year, month, day, hour, minute, second } = read;
    assert_eq!((year, month, day, hour, minute, second), (2000, 2, 29, 23, 58, 60.25));
    assert_eq!(number(read.to_julian_date()), 4);
    let noon = parse_iso8601(b"2000-01-01T12:00:00").unwrap();
    assert_eq!(noon.to_julian_date(), Ok(JulianDate::j2000()));
    assert_eq!(number(parse_iso8601("2000-01-01T12:00:00Z")), 15);
    assert_eq!(number(parse_iso8601("2000-13-01T24:00:00.12345678901234")), 16);
    assert_eq!(number(parse_iso8601("2000-13-01T24:00:00")), 2);
    assert_eq!(number(parse_iso8601("2000-02-30T24:00:00")), 3);
    assert_eq!(number(parse_iso8601("2000-01-01T24:00:00")), 4);
    assert_eq!(number(parse_iso8601("")), 15);
}

#[test]
fn dates_of_texts() {
    let leap = "2016-12-31T23:59:60.5Z".parse::<UTC>().unwrap();
    assert_eq!(leap, utc_from_calendar(2016, 12, 31, 23, 59, 60.5).unwrap());
    assert_eq!(number("2015-12-31T23:59:60".parse::<UTC>()), 4);
    assert_eq!(number("2000-01-01T12:00:00ZZ".parse::<UTC>()), 15);
    let announced = "2026-12-31T23:59:60Z";
    assert_eq!(number(announced.parse::<UTC>()), 4);
    let (utc, fields) = UTC::from_iso8601_with_table(announced, &made_up(38)).unwrap();
    assert_eq!((fields.second, fields.minute), (60.0, 59));
    let (text, rule) = utc.to_text_with_table(Form::Nearest, &made_up(38)).unwrap();
    assert_eq!((text.as_str(), rule), ("2026-12-31T23:59:60.000", Rule::Whole(41)));
    assert_eq!(number(UTC::from_iso8601_with_table("2000-13-01T24:00:00Z", &made_up(38))), 2);
}
