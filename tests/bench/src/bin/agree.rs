//! `agree [SECONDS [SEED]]`: compares the plain implementation with the reference, by the limits
//! and the random rounds of `../compare` and by rounds of its own.

use bench::rounds::{damaged_workload, large_versions};
use bench::station::Plain;

fn main() {
    compare::program(&Plain, &[compare::round, damaged_workload, large_versions]);
}
