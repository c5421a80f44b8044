use crate::{made_up, number};
use celestial_time_proved::standby::{standby_bill, Bill, Moment, Tariff};
use celestial_time_proved::Table;

const NEW_YEAR: Moment = Moment { year: 2017, month: 1, day: 1, hour: 0, minute: 0, second: 0, millis: 0 };
const SILVESTER: Moment = Moment { year: 2016, month: 12, day: 31, hour: 23, minute: 45, ..NEW_YEAR };
const QUARTER_PAST: Moment = Moment { minute: 15, ..NEW_YEAR };
const CENT: Tariff = Tariff { rate: 1, first_metres: 1, second_metres: 2 };

fn billed(start: Moment, end: Moment, tariff: Tariff) -> (u64, u64, u64) {
    let Bill { quarters, first_cents, second_cents } = standby_bill(start, end, tariff, &Table::NONE).unwrap();
    (quarters, first_cents, second_cents)
}

fn refused(start: Moment, end: Moment, tariff: Tariff) -> u32 {
    number(standby_bill(start, end, tariff, &Table::NONE))
}

#[test]
fn bills() {
    assert_eq!(billed(SILVESTER, NEW_YEAR, Tariff { rate: 100, first_metres: 1, second_metres: 1 }), (2, 100, 100));
    assert_eq!(billed(NEW_YEAR, QUARTER_PAST, CENT), (1, 0, 1));
    let later = Moment { millis: 1, ..QUARTER_PAST };
    assert_eq!(billed(NEW_YEAR, later, Tariff { rate: 25, ..CENT }), (2, 17, 33));
    assert_eq!(billed(NEW_YEAR, NEW_YEAR, CENT), (0, 0, 0));
}

#[test]
fn refused_bills() {
    let old = Moment { year: 1971, month: 13, ..NEW_YEAR };
    let sixty = Moment { minute: 58, second: 60, ..SILVESTER };
    assert_eq!(refused(NEW_YEAR, old, CENT), 1);
    assert_eq!(refused(sixty, old, CENT), 4);
    assert_eq!(refused(Moment { month: 13, day: 32, ..NEW_YEAR }, old, CENT), 2);
    assert_eq!(refused(Moment { month: 2, day: 29, hour: 24, ..NEW_YEAR }, old, CENT), 3);
    assert_eq!(refused(Moment { year: 2147483647, month: 12, day: 31, hour: 24, ..NEW_YEAR }, old, CENT), 5);
    assert_eq!(refused(Moment { millis: 1000, ..NEW_YEAR }, NEW_YEAR, CENT), 4);
    assert_eq!(refused(NEW_YEAR, SILVESTER, Tariff { rate: 1_000_001, ..CENT }), 26);
    assert_eq!(refused(NEW_YEAR, NEW_YEAR, Tariff { rate: 1_000_001, first_metres: 0, second_metres: 0 }), 27);
    assert_eq!(refused(NEW_YEAR, NEW_YEAR, Tariff { first_metres: 0, second_metres: 0, ..CENT }), 28);
}

/// A leap second left out at the end of 2026: the last quarter has 899 s.
#[test]
fn a_day_that_ends_early() {
    let start = Moment { year: 2026, millis: 1, ..SILVESTER };
    let end = Moment { year: 2027, second: 1, millis: 1, ..NEW_YEAR };
    assert_eq!(standby_bill(start, end, CENT, &made_up(36)).unwrap().quarters, 1);
    assert_eq!(number(standby_bill(Moment { minute: 59, second: 59, ..start }, end, CENT, &made_up(36))), 4);
}
