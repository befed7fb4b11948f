//! Measures the times of short pieces of work, which take turns.

use std::hint::black_box;
use std::time::{Duration, Instant};

/// How often each is measured.
pub const RUNS: usize = 31;
/// What is measured lasts at least about this long. A shorter call is repeated.
const LEAST_TIME: Duration = Duration::from_millis(1);

/// The median time of each piece of work, in microseconds. They take turns, so that a disturbance
/// of one run affects all of them.
pub fn medians<const N: usize>(mut works: [&mut dyn FnMut() -> usize; N]) -> [f64; N] {
    let repeats = works.each_mut().map(|work| repeats_of(*work));
    let mut times = [(); N].map(|()| Vec::new());
    for _ in 0..RUNS {
        for (place, work) in works.iter_mut().enumerate() {
            times[place].push(microseconds(*work, repeats[place]));
        }
    }
    times.map(median)
}

/// How often the work has to be repeated to last long enough.
fn repeats_of(work: &mut dyn FnMut() -> usize) -> u32 {
    let mut repeats = 1;
    while microseconds(work, repeats) * f64::from(repeats) < LEAST_TIME.as_micros() as f64 {
        repeats *= 2;
    }
    repeats
}

/// How long the work lasts in microseconds, as the mean of `repeats` repeats.
fn microseconds(work: &mut dyn FnMut() -> usize, repeats: u32) -> f64 {
    let began = Instant::now();
    for _ in 0..repeats {
        black_box(work());
    }
    began.elapsed().as_secs_f64() * 1e6 / f64::from(repeats)
}

/// The median of an odd number of times.
fn median(mut times: Vec<f64>) -> f64 {
    times.sort_by(f64::total_cmp);
    times[times.len() / 2]
}
