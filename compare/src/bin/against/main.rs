//! The library against the plain reader and writer, call by call, on cases by chance: every number, byte
//! and record has to be the same. Ends with 1 at the first difference, and prints all that is needed to
//! repeat it.
//!
//!     cargo run --release --bin against -- --seed N --subframes N [--seconds LIMIT] [--threads N]
//!                                          [--skip KIND,KIND] [--only INDEX]
#![cfg_attr(not(library), allow(unused))]

#[cfg(library)]
mod kinds;
#[cfg(library)]
mod run;
#[cfg(library)]
mod sides;

#[cfg(library)]
fn main() {
    std::process::exit(run::run());
}

#[cfg(not(library))]
fn main() {
    eprintln!("libnavic_c.a is not there: `rt lib` in crates/navic_c, or its folder in NAVIC_C_LIB");
    std::process::exit(2);
}
