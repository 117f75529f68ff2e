//! For the benches in plain Rust: the processor's clock, and numbers that look random.

#[repr(C)]
struct Timespec {
    seconds: i64,
    nanos: i64,
}

unsafe extern "C" {
    fn clock_gettime(clock: i32, time: *mut Timespec) -> i32;
}

/// The processor time of the process in nanoseconds.
pub fn now() -> u64 {
    let mut time = Timespec {
        seconds: 0,
        nanos: 0,
    };
    unsafe { clock_gettime(2, &mut time) };
    time.seconds as u64 * 1_000_000_000 + time.nanos as u64
}

/// A number mixed into another (splitmix).
pub fn mix(number: u64) -> u64 {
    let start = number.wrapping_mul(0x9E3779B97F4A7C15);
    let first = (start ^ (start >> 30)).wrapping_mul(0xBF58476D1CE4E5B9);
    let second = (first ^ (first >> 27)).wrapping_mul(0x94D049BB133111EB);
    second ^ (second >> 31)
}
