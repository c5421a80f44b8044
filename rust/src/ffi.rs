//! The calls of include/celestial_time.h, each as it is declared there; a slice is the header's pointer and length.
//! tests/rust_crate/run holds this list against the header.

/// Makes each declared call a safe function of the same name.
macro_rules! calls {
    ($(fn $name:ident($($arguments:tt)*) -> $answer:ident;)*) => { $(call! { $name [] [] [] ($($arguments)*,) $answer })* };
}

/// One call: the function's arguments, those of the declaration for C, and what is passed, taken one by one.
macro_rules! call {
    ($name:ident [] [] [] (,) $answer:ident) => {
        call! { $name [] [] [] () $answer }
    };
    ($name:ident [$($taken:tt)*] [$($declared:tt)*] [$($passed:tt)*] ($arg:ident: &mut [u8], $($rest:tt)*) $answer:ident) => {
        call! { $name [$($taken)* $arg: &mut [u8],] [$($declared)* $arg: *mut u8, _: usize,]
        [$($passed)* $arg.as_mut_ptr(), $arg.len(),] ($($rest)*) $answer }
    };
    ($name:ident [$($taken:tt)*] [$($declared:tt)*] [$($passed:tt)*] ($arg:ident: &[u8], $($rest:tt)*) $answer:ident) => {
        call! { $name [$($taken)* $arg: &[u8],] [$($declared)* $arg: *const u8, _: usize,]
        [$($passed)* $arg.as_ptr(), $arg.len(),] ($($rest)*) $answer }
    };
    ($name:ident [$($taken:tt)*] [$($declared:tt)*] [$($passed:tt)*] ($arg:ident: $number:ident, $($rest:tt)*) $answer:ident) => {
        call! { $name [$($taken)* $arg: $number,] [$($declared)* $arg: $number,] [$($passed)* $arg,] ($($rest)*) $answer }
    };
    ($name:ident [$($taken:tt)*] [$($declared:tt)*] [$($passed:tt)*] () $answer:ident) => {
        #[allow(clippy::too_many_arguments)] // as many as the header has
        pub(crate) fn $name($($taken)*) -> $answer {
            extern "C" {
                fn $name($($declared)*) -> $answer;
            }
            // SAFETY: the declaration is the header's. Each pointer comes with the length of its slice, is never null,
            // and a slice that is written overlaps no other; the call stays inside them and keeps none.
            unsafe { $name($($passed)*) }
        }
    };
}

calls! {
    fn ct_version() -> i64;

    fn ct_is_leap_year(year: i32) -> i64;
    fn ct_days_in_month(year: i32, month: i32) -> i64;
    fn ct_validate_calendar_date(year: i32, month: i32, day: i32) -> i64;
    fn ct_next_calendar_day(year: i32, month: i32, day: i32, out: &mut [u8]) -> i64;
    fn ct_calendar_to_julian(year: i32, month: i32, day: i32, out: &mut [u8]) -> i64;
    fn ct_julian_to_calendar(jd1: f64, jd2: f64, out: &mut [u8]) -> i64;
    fn ct_from_calendar(year: i32, month: u8, day: u8, hour: u8, minute: u8, second: f64, out: &mut [u8]) -> i64;

    fn ct_to_f64(jd1: f64, jd2: f64) -> f64;
    fn ct_add_days(jd1: f64, jd2: f64, days: f64, out: &mut [u8]) -> i64;
    fn ct_add_seconds(jd1: f64, jd2: f64, seconds: f64, out: &mut [u8]) -> i64;
    fn ct_from_unix_time(seconds: i64, nanos: u32, out: &mut [u8]) -> i64;
    fn ct_to_julian_year(jd1: f64, jd2: f64) -> f64;
    fn ct_from_julian_year(year: f64, out: &mut [u8]) -> i64;
    fn ct_equal(jd1: f64, jd2: f64, other1: f64, other2: f64) -> i64;
    fn ct_same_stamp(scale: u32, jd1: u64, jd2: u64, other_scale: u32, other1: u64, other2: u64) -> i64;
    fn ct_compare(jd1: f64, jd2: f64, other1: f64, other2: f64) -> i64;
    fn ct_difference(jd1: f64, jd2: f64, other1: f64, other2: f64) -> f64;
    fn ct_line_up(
        jd1: &[u8], jd2: &[u8], numbers: &mut [u8], first_count: u64, second_count: u64, out: &mut [u8],
        tails: &mut [u8], ranks: &mut [u8]
    ) -> i64;
    fn ct_lines_in_order(
        jd1: &[u8], jd2: &[u8], numbers: &mut [u8], first_count: u64, second_count: u64, order: &mut [u8],
        work1: &mut [u8], work2: &mut [u8]
    ) -> i64;
    fn ct_run_size(run: &[u8], out: &mut [u8]) -> i64;
    fn ct_take_run(
        scale: u32, run: &[u8], table: &[u8], jd1: &mut [u8], jd2: &mut [u8], numbers: &mut [u8]
    ) -> i64;
    fn ct_line_listing_part(
        reasons: u32, runs: &[u8], jd1: &[u8], jd2: &[u8], numbers: &[u8], order: &[u8], table: &[u8],
        cursor: &mut [u8], out: &mut [u8]
    ) -> i64;
    fn ct_line_summary(
        runs: &[u8], jd1: &[u8], jd2: &[u8], numbers: &[u8], table: &[u8], known: u32, out: &mut [u8]
    ) -> i64;
    fn ct_line_look(
        runs: &[u8], jd1: &[u8], jd2: &[u8], numbers: &[u8], table: &[u8], known: u32
    ) -> i64;

    fn ct_check_table(table: &[u8]) -> i64;
    fn ct_read_table(text: &[u8], table: &mut [u8], known: &mut [u8]) -> i64;
    fn ct_table_fault(text: &[u8]) -> i64;
    fn ct_get_tai_utc_offset(
        year: i32, month: i32, day: i32, fraction: f64, table: &[u8], out: &mut [u8]
    ) -> i64;
    fn ct_leap_at_end_of_day(year: i32, month: i32, day: i32, table: &[u8], out: &mut [u8]) -> i64;
    fn ct_offsets_at_0h(dates: &[u8], table: &[u8], out: &mut [u8]) -> i64;

    fn ct_gps_to_tai(jd1: f64, jd2: f64, out: &mut [u8]) -> i64;
    fn ct_tai_to_gps(jd1: f64, jd2: f64, out: &mut [u8]) -> i64;
    fn ct_tai_to_tt(jd1: f64, jd2: f64, out: &mut [u8]) -> i64;
    fn ct_tt_to_tai(jd1: f64, jd2: f64, out: &mut [u8]) -> i64;
    fn ct_tai_to_tcg(jd1: f64, jd2: f64, out: &mut [u8]) -> i64;
    fn ct_tcg_to_tai(jd1: f64, jd2: f64, out: &mut [u8]) -> i64;
    fn ct_tt_to_tcg(jd1: f64, jd2: f64, out: &mut [u8]) -> i64;
    fn ct_tcg_to_tt(jd1: f64, jd2: f64, out: &mut [u8]) -> i64;
    fn ct_tcb_to_tdb(jd1: f64, jd2: f64, out: &mut [u8]) -> i64;
    fn ct_tdb_to_tcb(jd1: f64, jd2: f64, out: &mut [u8]) -> i64;
    fn ct_tt_to_tdb_with_offset(jd1: f64, jd2: f64, seconds: f64, out: &mut [u8]) -> i64;
    fn ct_tdb_to_tt_with_offset(jd1: f64, jd2: f64, seconds: f64, out: &mut [u8]) -> i64;
    fn ct_ut1_to_tai_with_offset(jd1: f64, jd2: f64, seconds: f64, out: &mut [u8]) -> i64;
    fn ct_tai_to_ut1_with_offset(jd1: f64, jd2: f64, seconds: f64, out: &mut [u8]) -> i64;
    fn ct_ut1_to_tt_with_delta_t(jd1: f64, jd2: f64, seconds: f64, out: &mut [u8]) -> i64;
    fn ct_tt_to_ut1_with_delta_t(jd1: f64, jd2: f64, seconds: f64, out: &mut [u8]) -> i64;

    fn ct_gps_from_week(week: u32, millis: u32, out: &mut [u8]) -> i64;
    fn ct_gps_to_week(jd1: f64, jd2: f64, out: &mut [u8]) -> i64;
    fn ct_gps_full_week(ten_bits: u32, reference: u32) -> i64;

    fn ct_utc_new(seconds: i64, nanos: u32, table: &[u8], out: &mut [u8]) -> i64;
    fn ct_utc_from_calendar(
        year: i32, month: u8, day: u8, hour: u8, minute: u8, second: f64, table: &[u8], out: &mut [u8]
    ) -> i64;
    fn ct_utc_to_tai(jd1: f64, jd2: f64, table: &[u8], out: &mut [u8]) -> i64;
    fn ct_tai_to_utc(jd1: f64, jd2: f64, table: &[u8], out: &mut [u8]) -> i64;
    fn ct_convert_run(
        from: u32, to: u32, jd1: &[u8], jd2: &[u8], table: &[u8], out1: &mut [u8], out2: &mut [u8],
        numbers: &mut [u8]
    ) -> i64;
    fn ct_formula_run(
        from: u32, to: u32, jd1: &[u8], jd2: &[u8], offsets: &[u8], out1: &mut [u8], out2: &mut [u8],
        numbers: &mut [u8]
    ) -> i64;
    fn ct_utc_to_ut1_with_dut1(jd1: f64, jd2: f64, dut1: f64, table: &[u8], out: &mut [u8]) -> i64;
    fn ct_ut1_to_utc_with_dut1(jd1: f64, jd2: f64, dut1: f64, table: &[u8], out: &mut [u8]) -> i64;
    fn ct_to_iso8601(jd1: f64, jd2: f64, table: &[u8], out: &mut [u8], rule: &mut [u8]) -> i64;
    fn ct_to_iso8601_half_even(jd1: f64, jd2: f64, table: &[u8], out: &mut [u8], rule: &mut [u8]) -> i64;
    fn ct_to_iso8601_expanded(jd1: f64, jd2: f64, table: &[u8], out: &mut [u8], rule: &mut [u8]) -> i64;
    fn ct_texts_of_run(
        text_form: u32, jd1: &[u8], jd2: &[u8], table: &[u8], texts: &mut [u8], lengths: &mut [u8],
        numbers: &mut [u8]
    ) -> i64;

    fn ct_parse_iso8601(text: &[u8], out: &mut [u8]) -> i64;
    fn ct_utc_from_iso8601(text: &[u8], table: &[u8], out: &mut [u8]) -> i64;
    fn ct_dates_of_texts(
        texts: &[u8], lengths: &[u8], table: &[u8], out1: &mut [u8], out2: &mut [u8], numbers: &mut [u8]
    ) -> i64;

    fn ct_block_stamps(block: &[u8]) -> i64;
    fn ct_listing_part(block: &[u8], line: u32, table: &[u8], out: &mut [u8]) -> i64;
    fn ct_reason_listing_part(block: &[u8], input_len: u64, line: u32, table: &[u8], out: &mut [u8]) -> i64;

    fn ct_reason(number: u32, out: &mut [u8]) -> i64;
    fn ct_date_reason(number: u32, year: i32, month: i32, day: i32, out: &mut [u8]) -> i64;
    fn ct_time_reason(number: u32, hour: u8, minute: u8, second: f64, leap: f64, out: &mut [u8]) -> i64;
    fn ct_parts_reason(number: u32, jd1: f64, jd2: f64, out: &mut [u8]) -> i64;
    fn ct_float_reason(number: u32, x: f64, out: &mut [u8]) -> i64;
    fn ct_count_reason(number: u32, n: u32, out: &mut [u8]) -> i64;
    fn ct_block_reason(number: u32, length: u64, size: u32, second_size: u32, out: &mut [u8]) -> i64;

    fn ct_milliseconds(from1: f64, from2: f64, jd1: f64, jd2: f64) -> i64;
    fn ct_milliseconds_of_run(
        from1: f64, from2: f64, jd1: &[u8], jd2: &[u8], millis: &mut [u8], numbers: &mut [u8]
    ) -> i64;
    fn ct_place_ticks(pass_ticks: &[u8], pass_millis: &[u8], ticks: &[u8], out: &mut [u8]) -> i64;
    fn ct_place_readings(
        pass_millis: &[u8], pass_places: &[u8], millis: &[u8], places: &mut [u8], numbers: &mut [u8]
    ) -> i64;
    fn ct_standby_bill(
        start_year: i32, start_month: u8, start_day: u8, start_hour: u8, start_minute: u8, start_second: u8,
        start_millis: u32, end_year: i32, end_month: u8, end_day: u8, end_hour: u8, end_minute: u8, end_second: u8,
        end_millis: u32, rate: u32, first_metres: u32, second_metres: u32, table: &[u8], out: &mut [u8]
    ) -> i64;
}
