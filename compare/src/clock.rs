//! Times of a process, and what a handful of them say.

extern "C" {
    fn clock_gettime(clock: i32, time: *mut [i64; 2]) -> i32;
}

/// The processor time that this process has used, in nanoseconds.
fn used() -> f64 {
    const PROCESS_TIME: i32 = 2;
    let mut time = [0; 2];
    unsafe { clock_gettime(PROCESS_TIME, &mut time) };
    time[0] as f64 * 1e9 + time[1] as f64
}

/// Runs it once; gives its nanoseconds and its answer.
pub fn timed<T>(run: impl FnOnce() -> T) -> (f64, T) {
    let before = used();
    let answer = run();
    (used() - before, answer)
}

/// The lowest quarter's end, the middle, the highest quarter's start.
pub fn quartiles(mut values: Vec<f64>) -> [f64; 3] {
    values.sort_by(f64::total_cmp);
    [1, 2, 3].map(|quarter| values[(values.len() - 1) * quarter / 4])
}

pub fn median(values: Vec<f64>) -> f64 {
    quartiles(values)[1]
}
