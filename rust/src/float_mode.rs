//! The float mode that the library assumes: round to nearest, subnormal numbers kept. A program that loads a library which
//! was linked with -ffast-math may start in another.

use std::hint::black_box;

/// Sums are not rounded to nearest, ties to even.
pub const ROUNDING: u32 = 1;
/// Subnormal results are flushed to zero.
pub const RESULTS: u32 = 2;
/// Subnormal operands are read as zero.
pub const OPERANDS: u32 = 4;

/// A float that the compiler can't know.
fn opaque(pattern: u64) -> f64 {
    f64::from_bits(black_box(pattern))
}

/// The bits of a float, computed when the program runs.
fn bits(x: f64) -> u64 {
    black_box(x).to_bits()
}

/// 0 where the calling thread's float mode is as the library assumes, else the sum of the numbers above.
///
/// ```
/// assert_eq!(celestial_time_proved::float_mode::float_mode(), 0);
/// ```
pub fn float_mode() -> u32 {
    let one = opaque(0x3ff0_0000_0000_0000);
    let half_place = opaque(0x3ca0_0000_0000_0000); // 2^-53
    let three_quarters = opaque(0x3ca8_0000_0000_0000); // 3 * 2^-54
    let smallest_normal = opaque(0x0010_0000_0000_0000); // 2^-1022
    let smallest = opaque(1); // 2^-1074
    let half = opaque(0x3fe0_0000_0000_0000);
    let large = opaque(0x4330_0000_0000_0000); // 2^52
    let even = bits(one + half_place) == 0x3ff0_0000_0000_0000;
    let nearest = bits(one + three_quarters) == 0x3ff0_0000_0000_0001;
    let results = bits(smallest_normal * half) == 0x0008_0000_0000_0000;
    let operands = bits(smallest * large) == 0x0010_0000_0000_0000;
    let mode = |kept: bool, number: u32| if kept { 0 } else { number };
    mode(even && nearest, ROUNDING) | mode(results, RESULTS) | mode(operands, OPERANDS)
}
