//! `compare [SECONDS [SEED]]`: compares the library, or the reference itself, with the reference.

fn main() {
    #[cfg(feature = "library")]
    compare::program(&compare::station::library::Library, &[compare::round]);
    #[cfg(not(feature = "library"))]
    compare::program(&compare::station::Reference, &[compare::round]);
}
