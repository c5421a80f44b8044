// The supplied utc_tai/calendar.rs, unchanged, with its private functions
// opened. The build puts the supplied file into this folder.

include!("calendar.rs");

impl crate::transforms::Opened {
    pub fn check_julian_range(dj: f64) -> TimeResult<()> {
        check_julian_range(dj)
    }
    pub fn nearest_int(a: f64) -> f64 {
        nearest_int(a)
    }
    pub fn day_number_and_fraction(jd1: f64, jd2: f64) -> (i64, f64) {
        day_number_and_fraction(jd1, jd2)
    }
    pub fn gregorian_date(jd: i64) -> (i32, i32, i32) {
        gregorian_date(jd)
    }
    pub fn sum_fractions(first: f64, second: f64) -> (i64, f64, f64) {
        let (carry, kahan) = sum_fractions([first, second]);
        (carry, kahan.sum, kahan.correction)
    }
    pub fn normalize_fraction(sum: f64, correction: f64) -> (i64, f64) {
        normalize_fraction(Kahan { sum, correction })
    }
    pub fn borrow_day(sum: f64, correction: f64) -> (i64, f64, f64, f64) {
        let (borrow, kahan, fraction) = borrow_day(Kahan { sum, correction });
        (borrow, kahan.sum, kahan.correction, fraction)
    }
    pub fn carry_day(sum: f64, correction: f64, fraction: f64) -> (i64, f64) {
        carry_day(Kahan { sum, correction }, fraction)
    }
}
