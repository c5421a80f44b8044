use crate::{made_up, number};
use celestial_time_proved::scales::common::{get_tai_utc_offset, get_tai_utc_offset_with_table, offsets_at_0h, Walked};
use celestial_time_proved::{Rule, Table};

#[test]
fn single_offsets() {
    let offsets = [(1959, 12, 31, 0.0), (1972, 1, 1, 10.0), (2016, 12, 31, 36.0), (2017, 1, 1, 37.0)];
    for (year, month, day, due) in offsets {
        assert_eq!(get_tai_utc_offset(year, month, day, 0.0), Ok(due));
    }
    let ruled = |year, month, day| get_tai_utc_offset_with_table(year, month, day, 1.0, &made_up(36)).unwrap().1;
    assert_eq!(
        (ruled(1959, 1, 1), ruled(1965, 7, 1), ruled(2026, 12, 31)),
        (Rule::Absent, Rule::Drifting(10), Rule::Whole(41))
    );
    assert_eq!(get_tai_utc_offset_with_table(2027, 1, 1, 0.0, &made_up(36)), Ok((36.0, Rule::Whole(42))));
    assert_eq!((Rule::Absent.row(), Rule::Whole(42).row()), (None, Some(42)));
    for fraction in [1.5, -0.5, f64::NAN] {
        assert_eq!(number(get_tai_utc_offset(2000, 13, 1, fraction)), 7);
    }
    assert_eq!(number(get_tai_utc_offset(2000, 13, 1, 1.0)), 2);
    assert_eq!(number(get_tai_utc_offset_with_table(1900, 2, 29, 1.0, &made_up(36))), 3);
}

#[test]
fn one_walk() {
    let dates = [[1959, 12, 31], [2016, 12, 31], [2016, 12, 31], [2027, 1, 1]];
    let walked = offsets_at_0h(&dates, &made_up(38)).unwrap();
    assert_eq!(walked.seconds, [0.0, 36.0, 36.0, 38.0]);
    assert!(walked.compared <= 4 + 58);
    let Walked { seconds, compared } = offsets_at_0h(&[], &Table::NONE).unwrap();
    assert_eq!((seconds, compared), (vec![], 0));
    assert_eq!(number(offsets_at_0h(&[[1999, 2, 29]], &Table::NONE)), 3);
    assert_eq!(number(offsets_at_0h(&[[2017, 1, 1], [2016, 12, 31], [1999, 2, 29]], &Table::NONE)), 17);
    assert_eq!(number(offsets_at_0h(&[[2017, 1, 1], [-4800, 13, 40]], &Table::NONE)), 1);
}
