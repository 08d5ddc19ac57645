//! Times of calls: medians by turns, so that a slow moment of the machine meets all of them.

use std::time::{Duration, Instant};

/// In nanoseconds.
pub struct Times {
    pub median: f64,
    /// Of single calls, in processor time: what 99 of 100 keep to, and the worst.
    pub most: f64,
    pub worst: f64,
}

#[repr(C)]
struct Moment {
    seconds: i64,
    nanoseconds: i64,
}

extern "C" {
    fn clock_gettime(clock: i32, moment: *mut Moment) -> i32;
}

/// CLOCK_THREAD_CPUTIME_ID (Linux): the time that other programs take doesn't count.
const PROCESSOR_TIME: i32 = 3;

/// The times of each call, two at least, over so long in all.
pub fn measure(calls: &mut [Box<dyn FnMut() + '_>], time: Duration) -> Vec<Times> {
    let batches: Vec<usize> = calls.iter_mut().map(|call| batch(call)).collect();
    let mut samples: Vec<Vec<f64>> = calls.iter().map(|_| vec![]).collect();
    let mut singles: Vec<Vec<f64>> = calls.iter().map(|_| vec![]).collect();
    let mut order: Vec<usize> = (0..calls.len()).collect();
    let start = Instant::now();
    while start.elapsed() < time || samples[0].len() < 31 {
        // The first two change places from turn to turn, so that neither is always the one that
        // comes after the last; and each is called once before, for the caches.
        order.swap(0, 1);
        for &number in &order {
            let call = &mut calls[number];
            call();
            samples[number].push(timed(call, batches[number]));
            singles[number].push(processor_time(call));
        }
    }
    samples.into_iter().zip(singles).map(|(samples, singles)| times(samples, singles)).collect()
}

/// How many calls take ten microseconds or more: the clock is read twice for them all.
fn batch(call: &mut dyn FnMut()) -> usize {
    let warm = Instant::now();
    while warm.elapsed() < Duration::from_millis(2) {
        call();
    }
    let one = (0..9).map(|_| timed(call, 1)).fold(f64::MAX, f64::min);
    (10_000.0 / one).ceil() as usize
}

/// Nanoseconds a call.
fn timed(call: &mut dyn FnMut(), count: usize) -> f64 {
    let start = Instant::now();
    for _ in 0..count {
        call();
    }
    start.elapsed().as_nanos() as f64 / count as f64
}

/// Nanoseconds of processor time of one call; the clock itself takes some hundred of them.
fn processor_time(call: &mut dyn FnMut()) -> f64 {
    let now = || {
        let mut moment = Moment { seconds: 0, nanoseconds: 0 };
        // The moment is a living struct of the form that the clock fills.
        unsafe { clock_gettime(PROCESSOR_TIME, &mut moment) };
        moment.seconds * 1_000_000_000 + moment.nanoseconds
    };
    let start = now();
    call();
    (now() - start) as f64
}

fn times(mut samples: Vec<f64>, mut singles: Vec<f64>) -> Times {
    samples.sort_unstable_by(f64::total_cmp);
    singles.sort_unstable_by(f64::total_cmp);
    Times { median: samples[samples.len() / 2], most: singles[singles.len() * 99 / 100], worst: singles[singles.len() - 1] }
}
