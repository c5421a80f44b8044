use crate::{made_up, number};
use celestial_time_proved::{Row, Table};

fn rows(years: std::ops::Range<i16>) -> Vec<Row> {
    years.zip(38..).map(|(year, seconds)| Row { year, month: 1, seconds }).collect()
}

#[test]
fn tables_are_tested_when_they_are_made() {
    assert_eq!((Table::NONE.rows(), Table::default().rows(), made_up(36).rows()), (42, 42, 43));
    assert_eq!(Table::new(&rows(2027..2043)).unwrap().rows(), 58);
    assert_eq!(number(Table::new(&rows(2027..2044))), 20);
    let both = [Row { year: 2027, month: 1, seconds: 39 }, Row { year: 2027, month: 1, seconds: 40 }];
    assert_eq!(number(Table::new(&both)), 21);
    assert_eq!(number(Table::new(&both[..1])), 22);
    assert_eq!(number(Table::new(&[Row { year: 2017, month: 1, seconds: 38 }])), 21);
}

#[test]
fn months_of_rows() {
    assert_eq!(number(Table::new(&[Row { year: 2027, month: 12, seconds: 38 }])), 0);
    assert_eq!(number(Table::new(&[Row { year: 2027, month: 13, seconds: 38 }])), 2);
    assert_eq!(number(Table::new(&[Row { year: 2027, month: 0, seconds: 38 }])), 2);
    assert_eq!(number(Table::new(&[Row { year: -4800, month: 0, seconds: 38 }])), 1);
    assert_eq!(number(Table::new(&[Row { year: i16::MAX, month: 12, seconds: 38 }])), 0);
}

#[test]
fn tables_of_bytes() {
    let table = made_up(38);
    assert_eq!(Table::from_bytes(table.as_bytes()).unwrap().as_bytes(), table.as_bytes());
    assert_eq!(number(Table::from_bytes(&table.as_bytes()[1..])), 14);
    let mut bytes = table.as_bytes().to_vec();
    bytes[4] = 2;
    assert_eq!(number(Table::from_bytes(&bytes)), 20);
    assert_eq!(format!("{table:?}"), "Table of 43 rows");
}
