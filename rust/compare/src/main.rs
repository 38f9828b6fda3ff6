//! Compares the library with the second program over lists of calls: every number of every answer and every byte of
//! every buffer, refused or not, on clocks that creation gave and on clocks made up by hand. It holds the answers
//! against the customer's demands 2 and 3, the generation's count and the exact line that 02 asks for, and what is
//! promised of a clock that is made up; and it counts what it met. Unless told otherwise it makes ten million calls,
//! with the seed 1.

mod call;
mod convert;
mod demands;
mod fixed;
mod generate;
mod is_clock;
mod library;
mod made_up;
mod met;
mod numbers;
mod run;
mod search;
mod second_side;

use std::process::ExitCode;

use met::{LEAST, Met};

fn main() -> ExitCode {
    let mut numbers = std::env::args().skip(1).map(|word| word.parse());
    let (calls, seed) = (numbers.next().unwrap_or(Ok(10_000_000)), numbers.next().unwrap_or(Ok(1)));
    let (Ok(calls), Ok(seed), None) = (calls, seed, numbers.next()) else {
        eprintln!("usage: compare [CALLS [SEED]]");
        return ExitCode::from(2);
    };
    cementoad_sys::check_archive();
    let mut met = Met::new();
    if let Err(difference) = search::search(seed, calls, &mut met) {
        print!("{difference}");
        println!("a difference after {} calls with seed {seed}", met.calls());
        return ExitCode::FAILURE;
    }
    met.all().for_each(|(name, count)| println!("{name}: {count}"));
    let seldom: Vec<String> = met.all().filter(|&(_, count)| count < LEAST).map(|(name, _)| name).collect();
    if !seldom.is_empty() {
        println!("met less than {LEAST} times: {}", seldom.join("; "));
        return ExitCode::FAILURE;
    }
    println!("compared {} calls with seed {seed}: no difference", met.calls());
    ExitCode::SUCCESS
}
