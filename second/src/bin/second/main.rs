//! Holds every C function of the archive, and the bench program, against the second program, on
//! many calls.
//!
//! usage: second [SEED]
//!
//! Prints the seed and how many calls of each group it made. At the first difference it prints the
//! call with its board and ends with the exit status 1.

#![deny(unsafe_code)]

#[allow(unsafe_code)]
mod bare;
mod boards;
mod changeovers;
mod costs;
mod damage;
mod files;
mod knob;
mod lanes;
mod lent;
mod map_case;
mod maps;
mod millimetres;
mod run;
mod slice_case;
mod slices;

use run::Run;

const SEED: u64 = 20_020_816;

fn main() {
    let seed = match std::env::args().nth(1).map(|word| word.parse()) {
        None => SEED,
        Some(Ok(seed)) => seed,
        Some(Err(_)) => {
            eprintln!("usage: second [SEED], the seed a whole number");
            std::process::exit(2);
        }
    };
    let mut run = Run::new(seed);
    maps::compare(&mut run);
    slices::compare(&mut run);
    costs::compare(&mut run);
    changeovers::compare(&mut run);
    knob::compare(&mut run);
    millimetres::compare(&mut run);
    lanes::compare(&mut run);
    files::compare(&mut run);
    bare::compare(&mut run);
    run.report();
}
