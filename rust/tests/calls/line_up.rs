use crate::number;
use celestial_time_proved::runs::{line_up, lines_in_order, Stamps};

/// Of a run with one stamp far too late that one is left out; one that is not finite gets 9; one that was refused stays so.
#[test]
fn three_runs() {
    let jd1 = [2451545.0, 2451600.0, 2451546.0, 2451547.0, 2451545.0, f64::NAN, 2451545.0, 2451547.0];
    let stamps = Stamps::new(&jd1, &[0.0, 0.0, 0.0, 0.0, 0.5, 0.0, 0.5, 0.0]);
    let mut numbers = [0, 0, 0, 0, 0, 0, 0, 6];
    assert_eq!(line_up(stamps, &mut numbers, 4, 2), Ok(vec![0, 4, 6, 2, 3]));
    assert_eq!(numbers, [0, 17, 0, 0, 0, 9, 0, 6]);
}

#[test]
fn refused_lines() {
    let stamps = Stamps::new(&[2451545.0, 2451544.0], &[0.0, 0.0]);
    assert_eq!(line_up(stamps, &mut [0, 0], 1, 1), Ok(vec![1, 0]));
    assert_eq!(number(line_up(stamps, &mut [0, 0], 3, 0)), 14);
    assert_eq!(number(line_up(stamps, &mut [0, 0], u64::MAX, 2)), 14);
    assert_eq!(number(line_up(stamps, &mut [0], 3, 0)), 12);
    assert_eq!(number(line_up(Stamps::new(&[0.0], &[0.0, 0.0]), &mut [0, 0], 3, 0)), 12);
    assert_eq!(line_up(Stamps::new(&[], &[]), &mut [], 0, 0), Ok(vec![]));
}

/// A stamp that is not ordered stands behind the last ordered one before it in its run, or before all.
#[test]
fn every_stamp_has_a_line() {
    let jd1 = [2451545.0, 2451600.0, 2451546.0, 2451547.0, f64::NAN, 2451545.0, 2451545.0, 2451547.0];
    let stamps = Stamps::new(&jd1, &[0.0, 0.0, 0.0, 0.0, 0.5, 0.5, 0.5, 0.0]);
    let mut numbers = [0, 0, 0, 0, 0, 0, 0, 6];
    assert_eq!(lines_in_order(stamps, &mut numbers, 4, 2), Ok(vec![4, 0, 1, 5, 6, 7, 2, 3]));
    assert_eq!(numbers, [0, 17, 0, 0, 9, 0, 0, 6]);
    assert_eq!(number(lines_in_order(stamps, &mut [0; 8], 9, 0)), 14);
    assert_eq!(number(lines_in_order(stamps, &mut [0; 7], 3, 0)), 12);
    assert_eq!(lines_in_order(Stamps::new(&[], &[]), &mut [], 0, 0), Ok(vec![]));
}

/// A block of two stamps in GPS time, of which one is not finite, and behind it a block that is cut.
#[test]
fn listing_of_three_runs() {
    use celestial_time_proved::{listing::listing_of_runs, Table};
    let mut run = vec![2, 0, 0, 0, 2, 0, 0, 0];
    for part in [2457754.5, f64::NAN, 0.25, 0.5] {
        run.extend_from_slice(&part.to_le_bytes());
    }
    run.push(1);
    let listing = listing_of_runs(Some(&run), None, None, &Table::NONE, 0, false).unwrap();
    let due = "line up 1 runs\ngps 2 not finite 1 refused 0 left out 0 block 1 refused 14\n\
               gps 0 2017-01-01T05:59:42.000\ngps 1 refused 9\nlined up 1 without text 0\n";
    assert_eq!(String::from_utf8(listing.text).unwrap(), due);
    assert_eq!(listing.look, 0);
    let told = listing_of_runs(Some(&run), None, None, &Table::NONE, 0, true).unwrap();
    assert!(String::from_utf8(told.text).unwrap().contains("refused 9: "));
}
