use celestial_time_proved::float_mode::{float_mode, OPERANDS, RESULTS, ROUNDING};
use celestial_time_proved::scales::utc::UTC;
use celestial_time_proved::{JulianDate, Refusal, Table};

fn sent_and_shared<T: Send + Sync + Copy>() {}

/// No call has a state, so that every type may go to another thread.
#[test]
fn any_number_of_threads() {
    sent_and_shared::<(JulianDate, UTC, Table, Refusal)>();
    let texts = |day: i64| UTC::new(86400 * day, 0).unwrap().to_iso8601().unwrap();
    let alone: Vec<_> = (0..64).map(texts).collect();
    let threads: Vec<_> = (0..64).map(|day| std::thread::spawn(move || texts(day))).collect();
    let together: Vec<_> = threads.into_iter().map(|thread| thread.join().unwrap()).collect();
    assert_eq!(alone, together);
}

#[test]
fn the_mode_is_the_default() {
    assert_eq!(float_mode() & (ROUNDING | RESULTS | OPERANDS), 0);
}
