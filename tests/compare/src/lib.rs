//! Compares a station with the reference: the generators, the rounds and the count, for the
//! program `compare` and for other test crates that have a station of their own (`../bench`).

pub mod addresses;
pub mod archives;
pub mod bytes;
pub mod comparison;
#[cfg(test)]
mod faults;
pub mod keylists;
pub mod limits;
#[cfg(test)]
mod line_end_faults;
pub mod line_ends;
pub mod lists;
pub mod marks;
pub mod notes;
pub mod random;
pub mod station;
pub mod versions;

use comparison::Comparison;
use random::Random;
use station::Station;
use std::time::{Duration, Instant};

/// Round `number` of a seed; it doesn't depend on the rounds before it.
pub fn round(c: &mut Comparison, seed: u64, number: u64) {
    c.place = format!("seed {seed}, round {number}");
    let mut r = Random::new(seed.wrapping_mul(0x1_0000_0001).wrapping_add(number));
    lists::round(c, &mut r);
}

/// A round with its seed and number.
pub type Round = fn(&mut Comparison, u64, u64);

/// The program `NAME [SECONDS [SEED]]`: compares a station with the reference for so long (40
/// seconds if not said), with cases that the seed fixes: the limits, then rounds of each kind in
/// turn. Exit status 1 if there is a difference.
pub fn program(station: &dyn Station, kinds: &[Round]) {
    let numbers: Option<Vec<u64>> = std::env::args().skip(1).map(|argument| argument.parse().ok()).collect();
    let Some(numbers @ ([] | [_] | [_, _])) = numbers.as_deref() else {
        eprintln!("usage: [SECONDS [SEED]]");
        std::process::exit(2);
    };
    let seconds = numbers.first().copied().unwrap_or(40);
    let seed = numbers.get(1).copied().unwrap_or(1);
    let start = Instant::now();
    let mut c = Comparison::new(station);
    limits::run(&mut c);
    let (limit_cases, limit_time) = (c.cases(), start.elapsed());
    let mut rounds = 0;
    while start.elapsed() < Duration::from_secs(seconds) {
        kinds.iter().for_each(|round| round(&mut c, seed, rounds));
        rounds += 1;
    }
    let time = start.elapsed().as_secs_f64();
    let cases = c.cases();
    println!("compared: {} with the reference; seed {seed}", station.name());
    println!("limits: {limit_cases} cases in {:.1} seconds; then {rounds} rounds", limit_time.as_secs_f64());
    println!("cases: {cases} in {time:.1} seconds, {:.0} a second", cases as f64 / time);
    print!("{}", c.summary());
    if !c.differences.is_empty() {
        std::process::exit(1);
    }
}
