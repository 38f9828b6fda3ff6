//! Times the library, through its C boundary, beside the plain 128-bit Rust version, and its reading of slips also
//! beside the reader that takes one bit at a time. Prints a table in Markdown for each.
//!
//! Arguments: how often each side is run (101 unless told), and a part of the names of the rows that are wanted (all
//! unless told).

mod baseline;
mod inputs;
mod pairs;
mod rival;
mod rows;
mod table;

use std::process::ExitCode;

use cementoad_sys::check_archive;

const RUNS: usize = 101;
/// How often a run goes over a row's inputs.
const PASSES: usize = 2;

fn main() -> ExitCode {
    let mut arguments = std::env::args().skip(1);
    let runs = match arguments.next().map_or(Ok(RUNS), |text| text.parse()) {
        Ok(runs) if runs > 0 => runs,
        _ => {
            eprintln!("usage: benchmark [RUNS [PART OF A ROW'S NAME]]");
            return ExitCode::FAILURE;
        }
    };
    check_archive();
    let wanted = arguments.next().unwrap_or_default();
    let mut rows = rows::rows();
    rows.retain(|row| row.name.contains(&wanted));
    println!(
        "{}; {}. Each side ran {} times, the sides in turn, with {} calls a run on {} different inputs. Told are the \
         median and, in brackets, the quartiles of the runs; the ratio is the median over the pairs of runs.",
        processor(),
        env!("COMPILER"),
        table::grouped(runs),
        table::grouped(PASSES * inputs::COUNT),
        table::grouped(inputs::COUNT),
    );
    let taken = measured(&mut rows, runs);
    let lines = |side: fn(&Taken) -> &Vec<f64>| -> Vec<String> {
        let timed = rows.iter().zip(&taken).filter(|(_, taken)| !side(taken).is_empty());
        timed.map(|(row, taken)| table::line(&row.name, &taken.library, side(taken))).collect()
    };
    table::print("plain Rust", &lines(|taken| &taken.plain));
    table::print("bit by bit", &lines(|taken| &taken.by_bits));
    ExitCode::SUCCESS
}

/// What the runs of a row's sides took, in nanoseconds a call.
#[derive(Clone, Default)]
struct Taken {
    library: Vec<f64>,
    plain: Vec<f64>,
    by_bits: Vec<f64>,
}

/// All rows are gone over in turn, so that what disturbs the machine for a while falls on a few runs of every row.
fn measured(rows: &mut [rows::Row], runs: usize) -> Vec<Taken> {
    let mut taken = vec![Taken::default(); rows.len()];
    for _ in 0..runs {
        for (row, taken) in rows.iter_mut().zip(&mut taken) {
            taken.library.push(run(&mut row.library));
            taken.plain.push(run(&mut row.plain));
            taken.by_bits.extend(row.by_bits.as_mut().map(run));
        }
    }
    taken
}

/// One run of a side. The pass before it is not counted.
fn run(side: &mut rows::Side) -> f64 {
    side(1);
    side(PASSES)
}

/// The processor's name as Linux tells it.
fn processor() -> String {
    let told = std::fs::read_to_string("/proc/cpuinfo").unwrap_or_default();
    let name = told.lines().find_map(|line| line.strip_prefix("model name")?.split_once(": "));
    name.map_or("unknown processor", |(_, name)| name).into()
}
