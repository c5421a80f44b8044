// The supplied utc_ut1/mod.rs names this module under cfg(test). Here it opens
// the file's private function.

use crate::TimeResult;

impl crate::transforms::Opened {
    pub fn adjust_dut1_for_leap_second(
        jd_big: f64,
        jd_small: f64,
        dut1: f64,
    ) -> TimeResult<f64> {
        super::adjust_dut1_for_leap_second(jd_big, jd_small, dut1)
    }
}
