//! Runs of stamps from one scale to another in one call, their UTC texts, and up to three runs in one order.

use crate::answers::judged;
use crate::bytes::{bytes, bytes_mut};
use crate::ffi;
use crate::refusal::TimeResult;
use crate::scales::tai::TAI;
use crate::scales::utc::{Form, UTC};
use crate::scales::TimeScale;
use crate::table::Table;
use std::marker::PhantomData;

/// The stamps of a run, counted in the scale `S`: stamp i is `jd1[i]` and `jd2[i]`.
#[derive(Debug, Clone, Copy)]
pub struct Stamps<'a, S> {
    jd1: &'a [f64],
    jd2: &'a [f64],
    scale: PhantomData<S>,
}

impl<'a, S: TimeScale> Stamps<'a, S> {
    /// The stamps of these parts. Nothing is tested: the calls refuse parts that are not of one length.
    pub fn new(jd1: &'a [f64], jd2: &'a [f64]) -> Self {
        Self { jd1, jd2, scale: PhantomData }
    }

    /// The first parts and the second parts.
    pub(crate) fn parts(&self) -> (&'a [f64], &'a [f64]) {
        (self.jd1, self.jd2)
    }
}

/// Where a run's answers go, dates of the scale `S`: that of stamp i into `jd1[i]` and `jd2[i]`, and into `numbers[i]` 0
/// or the number of its refusal. The parts of a refused stamp stay, and what lies behind the last stamp's places.
#[derive(Debug)]
pub struct Dates<'a, S> {
    jd1: &'a mut [f64],
    jd2: &'a mut [f64],
    numbers: &'a mut [u8],
    scale: PhantomData<S>,
}

impl<'a, S: TimeScale> Dates<'a, S> {
    /// These places. Nothing is tested: the calls refuse too few.
    pub fn new(jd1: &'a mut [f64], jd2: &'a mut [f64], numbers: &'a mut [u8]) -> Self {
        Self { jd1, jd2, numbers, scale: PhantomData }
    }

    /// What was written, as stamps of the scale, and their numbers.
    pub fn into_run(self) -> (Stamps<'a, S>, &'a mut [u8]) {
        (Stamps::new(self.jd1, self.jd2), self.numbers)
    }
}

/// A run of stamps of one scale in another, both of UTC, TAI, TT, GPS and TCG: through TAI, but TT to TCG and back at
/// once, with the bits that the single calls give. A stamp is refused by 1, 6 or 9. From a scale to the same a stamp with
/// finite parts passes with its bits, and any other is 9.
///
/// Answers how many stamps are refused. Refuses 18 for another scale; 12 for another number of second parts than of first
/// ones; 11 for fewer places than stamps. A refused call writes nothing.
///
/// ```
/// use celestial_time_proved::runs::{convert_run, Dates, Stamps};
/// use celestial_time_proved::{scales::{tai::TAI, utc::UTC}, Table};
/// let stamps = Stamps::<UTC>::new(&[2457754.5, f64::NAN], &[0.0, 0.0]);
/// let (mut jd1, mut jd2, mut numbers) = ([0.0; 2], [0.0; 2], [0; 2]);
/// let mut dates = Dates::<TAI>::new(&mut jd1, &mut jd2, &mut numbers);
/// assert_eq!(convert_run(stamps, &Table::NONE, &mut dates), Ok(1));
/// assert_eq!((jd1[0], jd2[0], numbers), (2457754.5, 37.0 / 86400.0, [0, 6]));
/// ```
///
/// A run that was converted to TAI is not one of UTC:
///
/// ```compile_fail,E0308
/// use celestial_time_proved::runs::{Dates, Stamps};
/// use celestial_time_proved::scales::{tai::TAI, utc::UTC};
/// let (mut jd1, mut jd2, mut numbers) = ([0.0], [0.0], [0]);
/// let run: Stamps<UTC> = Dates::<TAI>::new(&mut jd1, &mut jd2, &mut numbers).into_run().0;
/// ```
pub fn convert_run<From: TimeScale, To: TimeScale>(
    stamps: Stamps<From>,
    table: &Table,
    dates: &mut Dates<To>,
) -> TimeResult<u64> {
    judged(ffi::ct_convert_run(
        From::SCALE as u32,
        To::SCALE as u32,
        bytes(stamps.jd1),
        bytes(stamps.jd2),
        table.as_bytes(),
        bytes_mut(dates.jd1),
        bytes_mut(dates.jd2),
        dates.numbers,
    ))
}

/// A run of stamps by one conversion that reads no table. The two scales are, either way round, GPS and TAI, TAI and TT,
/// TT and TCG, or TCB and TDB; `offsets` is empty then. Or they are TAI and UT1, UT1 and TT, or TT and TDB; `offsets[i]`
/// is then the offset of stamp i in seconds, UT1-TAI, TT-UT1 or TDB-TT. A stamp is refused by 9 or 10.
///
/// Answers how many stamps are refused. Refuses 18 for two other scales; 12 for another number of second parts, or of
/// offsets, than is due beside the first parts; 11 for fewer places than stamps. A refused call writes nothing.
///
/// ```
/// use celestial_time_proved::runs::{formula_run, Dates, Stamps};
/// use celestial_time_proved::scales::{tcg::TCG, tdb::TDB, tt::TT, tai::TAI};
/// let (mut jd1, mut jd2, mut numbers) = ([0.0], [0.0], [0]);
/// let stamps = Stamps::<TT>::new(&[2451545.0], &[0.25]);
/// let mut dates = Dates::<TDB>::new(&mut jd1, &mut jd2, &mut numbers);
/// assert_eq!(formula_run(stamps, &[0.001], &mut dates), Ok(0));
/// assert_eq!((jd1, jd2, numbers), ([2451545.0], [0.2500000115740741], [0]));
/// let mut dates = Dates::<TCG>::new(&mut jd1, &mut jd2, &mut numbers);
/// assert_eq!(formula_run(Stamps::<TAI>::new(&[], &[]), &[], &mut dates).unwrap_err().number(), 18);
/// ```
pub fn formula_run<From: TimeScale, To: TimeScale>(
    stamps: Stamps<From>,
    offsets: &[f64],
    dates: &mut Dates<To>,
) -> TimeResult<u64> {
    judged(ffi::ct_formula_run(
        From::SCALE as u32,
        To::SCALE as u32,
        bytes(stamps.jd1),
        bytes(stamps.jd2),
        bytes(offsets),
        bytes_mut(dates.jd1),
        bytes_mut(dates.jd2),
        dates.numbers,
    ))
}

/// The texts of a run of UTC dates: that of stamp i, in the form, from `texts[27 * i]` on, its length in `lengths[i]`, and
/// in `numbers[i]` 0 or the number of its refusal, 6 or 1. Bytes behind a text stay as they were, and all 27 of a refused
/// stamp, whose length is 0.
///
/// Answers how many stamps are refused. Refuses 12 for another number of second parts than of first ones; 11 for fewer
/// places than stamps. A refused call writes nothing.
///
/// ```
/// use celestial_time_proved::runs::{texts_of_run, Stamps};
/// use celestial_time_proved::{scales::utc::{Form, UTC}, Table};
/// let stamps = Stamps::<UTC>::new(&[2457754.5, f64::NAN], &[0.5, 0.0]);
/// let (mut texts, mut lengths, mut numbers) = ([0; 54], [0; 2], [0; 2]);
/// assert_eq!(texts_of_run(Form::Nearest, stamps, &Table::NONE, &mut texts, &mut lengths, &mut numbers), Ok(1));
/// assert_eq!((lengths, numbers), ([23, 0], [0, 6]));
/// assert_eq!(&texts[..23], b"2017-01-01T12:00:00.000");
/// ```
pub fn texts_of_run(
    form: Form,
    stamps: Stamps<UTC>,
    table: &Table,
    texts: &mut [u8],
    lengths: &mut [u8],
    numbers: &mut [u8],
) -> TimeResult<u64> {
    judged(ffi::ct_texts_of_run(
        form as u32,
        bytes(stamps.jd1),
        bytes(stamps.jd2),
        table.as_bytes(),
        texts,
        lengths,
        numbers,
    ))
}

/// The dates of a run of UTC texts: text i is `lengths[i]` bytes from `texts[27 * i]` on, as [`texts_of_run`] writes it,
/// with the bits that the single call gives. A text is refused by 15, as is one of more than 27 bytes, 16, 2, 3 or 4.
///
/// Answers how many texts are refused. Refuses 14 for a length of `texts` that is no multiple of 27; 12 for another number
/// of lengths than of texts; 11 for fewer places than texts. A refused call writes nothing.
///
/// ```
/// use celestial_time_proved::runs::{dates_of_texts, Dates};
/// use celestial_time_proved::{scales::utc::UTC, Table};
/// let texts = b"2017-01-01T12:00:00.000    2017-01-01T12:00:60.000    ";
/// let (mut jd1, mut jd2, mut numbers) = ([0.0; 2], [0.0; 2], [0; 2]);
/// let mut dates = Dates::<UTC>::new(&mut jd1, &mut jd2, &mut numbers);
/// assert_eq!(dates_of_texts(texts, &[23, 23], &Table::NONE, &mut dates), Ok(1));
/// assert_eq!((jd1[0], jd2[0], numbers), (2457754.5, 0.5, [0, 4]));
/// ```
pub fn dates_of_texts(texts: &[u8], lengths: &[u8], table: &Table, dates: &mut Dates<UTC>) -> TimeResult<u64> {
    judged(ffi::ct_dates_of_texts(
        texts,
        lengths,
        table.as_bytes(),
        bytes_mut(dates.jd1),
        bytes_mut(dates.jd2),
        dates.numbers,
    ))
}

/// The stamps of up to three recorders in one order, by their exact sums, all in TAI. The runs stand one after
/// the other: `first_count` stamps, then `second_count`, then what is left. A stamp whose number is not 0 was refused
/// before, and has no place. Into `numbers` is written 9 for a stamp that came with 0 and that [`JulianDate::compare`]
/// would refuse, and 17 for one that is left out, so that of its own run the most that rise are ordered.
///
/// Answers the places of the ordered stamps, ties by run and then by place. Refuses 12 for another number of parts than
/// of numbers; 14 for counts past the length; 13 for more than 4,294,967,295 stamps. A refused call writes nothing.
///
/// ```
/// use celestial_time_proved::runs::{line_up, Stamps};
/// let jd1 = [2451545.0, 2451600.0, 2451546.0, 2451547.0, 2451545.0];
/// let mut numbers = [0; 5];
/// let line = line_up(Stamps::new(&jd1, &[0.0, 0.0, 0.0, 0.0, 0.5]), &mut numbers, 4, 1);
/// assert_eq!(line, Ok(vec![0, 4, 2, 3]));
/// assert_eq!(numbers, [0, 17, 0, 0, 0]);
/// ```
///
/// Stamps of UTC are not lined up as they are:
///
/// ```compile_fail,E0308
/// use celestial_time_proved::{runs::{line_up, Stamps}, scales::utc::UTC};
/// line_up(Stamps::<UTC>::new(&[], &[]), &mut [], 0, 0);
/// ```
///
/// [`JulianDate::compare`]: crate::julian::JulianDate::compare
pub fn line_up(stamps: Stamps<TAI>, numbers: &mut [u8], first_count: u64, second_count: u64) -> TimeResult<Vec<u32>> {
    let [mut places, mut tails, mut ranks] = [(); 3].map(|()| vec![0_u32; numbers.len()]);
    let ordered = judged(ffi::ct_line_up(
        bytes(stamps.jd1),
        bytes(stamps.jd2),
        numbers,
        first_count,
        second_count,
        bytes_mut(&mut places),
        bytes_mut(&mut tails),
        bytes_mut(&mut ranks),
    ))?;
    places.truncate(ordered as usize);
    Ok(places)
}

/// The places of all stamps in the order of a listing that has a line for each, as that of the program line_up: arguments,
/// numbers and refusals are those of [`line_up`]. First come those that are not ordered and have no ordered stamp before
/// them in their run, by run and then by place; then the ordered ones, and directly behind each the stamps of its run that
/// follow it, up to the next ordered one.
///
/// ```
/// use celestial_time_proved::runs::{lines_in_order, Stamps};
/// let mut numbers = [0; 4];
/// let order = lines_in_order(Stamps::new(&[2451545.0, 2451546.0, 2451545.5, 2451545.25], &[0.0; 4]), &mut numbers, 3, 1);
/// assert_eq!(order, Ok(vec![0, 1, 3, 2]));
/// assert_eq!(numbers, [0, 17, 0, 0]);
/// ```
pub fn lines_in_order(
    stamps: Stamps<TAI>,
    numbers: &mut [u8],
    first_count: u64,
    second_count: u64,
) -> TimeResult<Vec<u32>> {
    let [mut order, mut work1, mut work2] = [(); 3].map(|()| vec![0_u32; numbers.len()]);
    judged(ffi::ct_lines_in_order(
        bytes(stamps.jd1),
        bytes(stamps.jd2),
        numbers,
        first_count,
        second_count,
        bytes_mut(&mut order),
        bytes_mut(&mut work1),
        bytes_mut(&mut work2),
    ))?;
    Ok(order)
}
