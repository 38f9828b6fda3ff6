//! Prints what is declared for Rust: each struct and field with its offset and size, each constant, and each refusal
//! with its public name. `examples/c/layout.c` prints the same lines from the C header.

use std::mem::offset_of;

use cementoad::{Refusal, ffi};

/// Prints a struct's lines. The pattern names every field, so that none can be left out.
macro_rules! layout {
    ($name:ident $struct:ident: $($field:ident),+) => {{
        fn size<F>(_: impl Fn(&ffi::$struct) -> &F) -> usize {
            size_of::<F>()
        }
        let _all = |ffi::$struct { $($field: _),+ }: ffi::$struct| ();
        println!("struct {} size {}", stringify!($name), size_of::<ffi::$struct>());
        $(println!(
            "{}.{} offset {} size {}",
            stringify!($name),
            stringify!($field),
            offset_of!(ffi::$struct, $field),
            size(|value| &value.$field),
        );)+
    }};
}

fn structs() {
    layout!(line Line: reference, synthetic, remainder, rate);
    layout!(clock Clock: line, backstop, latest, error, generation, word, started);
    layout!(request Request: word, synthetic, reference, rate, error);
    layout!(created Created: clock, refusal);
    layout!(updated Updated: clock, refusal);
    layout!(reading Reading: refusal, value);
    layout!(details Details: started, line, error, generation, latest, word, backstop, now);
    layout!(detailed Detailed: refusal, details);
    layout!(received Received: request, length, refusal);
    layout!(written Written: length, refusal);
}

/// Prints a line for each constant.
macro_rules! constants {
    ($($name:ident)+) => {
        $(println!("{} {}", stringify!($name), ffi::$name);)+
    };
}

fn constants() {
    constants!(ABI END VERSION_2_END MAX_RATE MAX_RATE_STEP UNKNOWN_ERROR LONGEST_SLIP);
    constants!(MONOTONIC CONTINUOUS AUTO_START);
    constants!(VERSION_2 VERSION_3 SYNTHETIC REFERENCE RATE ERROR);
}

fn refusals() {
    println!("refusal {} NO_REFUSAL NO_REFUSAL", ffi::NO_REFUSAL);
    for refusal in Refusal::ALL {
        let (number, name) = (refusal.number(), refusal.name());
        println!("refusal {number} {name} {}", refusal.public_name());
    }
    println!("refusal {} NOT_A_CLOCK NOT_A_CLOCK", ffi::NOT_A_CLOCK);
}

fn main() {
    structs();
    constants();
    refusals();
}
