// Not supplied. Only the calls that need a place on Earth use it, and they are
// left out of the comparison.

pub fn calculate_tdb_tt_difference(_: f64, _: f64, _: f64, _: f64, _: f64, _: f64) -> f64 {
    unimplemented!()
}
