//! Looks for a list on which the two sides differ: first the fixed lists, then as many made lists as are asked for.

use crate::call::Call;
use crate::fixed::{Step, fixed_lists};
use crate::generate;
use crate::is_clock::is_clock;
use crate::met::Met;
use crate::numbers::Rng;
use crate::run::Run;

/// The most calls behind the first: on a clock, and on what is none.
const LONGEST: u64 = 48;
const LONGEST_ON_NONE: u64 = 8;

/// Compares until so many calls were made, or until a list shows a difference; then it tells that list, made short.
pub fn search(seed: u64, calls: u64, met: &mut Met) -> Result<(), String> {
    fixed(met)?;
    let mut number = 0;
    while met.calls() < calls {
        if let Some(list) = make_list(seed, number, met) {
            return Err(format!("list {number} of seed {seed}, made short:\n{}", shortened(list)));
        }
        number += 1;
    }
    Ok(())
}

/// Runs the fixed lists, whose refusals are known from the paper.
fn fixed(met: &mut Met) -> Result<(), String> {
    for (name, steps) in fixed_lists() {
        let mut run = Run::new(met);
        for (at, Step { call, refusal, answer }) in steps.iter().enumerate() {
            let calls = || steps[..=at].iter().map(|step| step.call.clone()).collect();
            let given = run.step(call).map_err(|_| format!("{name}:\n{}", shortened(calls())))?;
            if given.refusal() != *refusal || answer.as_ref().is_some_and(|answer| given != *answer) {
                return Err(format!("{name}: {call:?}\n  expected {refusal} {answer:?}\n  but both: {given:?}\n"));
            }
        }
    }
    Ok(())
}

/// Makes one list call by call, each for the clock as it stands. The answer is the list up to a difference.
fn make_list(seed: u64, number: u64, met: &mut Met) -> Option<Vec<Call>> {
    let mut rng = Rng::new(seed, number);
    let mut run = Run::new(met);
    let mut list = vec![generate::beginning(&mut rng)];
    let mut length = 1;
    while run.step(&list[list.len() - 1]).is_ok() {
        if list.len() == 1 {
            length += rng.below(if is_clock(&run.clock) { LONGEST } else { LONGEST_ON_NONE });
        }
        if list.len() as u64 > length {
            return None;
        }
        list.push(generate::call(&mut rng, &run.clock));
    }
    Some(list)
}

/// Tells the list without runs of calls that it differs without, long ones first.
fn shortened(mut list: Vec<Call>) -> String {
    let mut length = list.len();
    while length > 0 {
        let mut at = 0;
        while at < list.len() {
            let mut fewer = list.clone();
            fewer.drain(at..list.len().min(at + length));
            if told(&fewer).1 {
                list = fewer;
            } else {
                at += length;
            }
        }
        length /= 2;
    }
    told(&list).0
}

/// The list with what each call came to, and whether a difference is among it.
fn told(list: &[Call]) -> (String, bool) {
    let (mut text, mut differs) = (String::new(), false);
    let mut met = Met::new();
    let mut run = Run::new(&mut met);
    for (call, number) in list.iter().zip(1..) {
        let outcome = run.step(call);
        differs |= outcome.is_err();
        let outcome = outcome.map_or_else(|difference| difference, |answer| format!("both: {answer:?}"));
        text += &format!("{number:3}. {call:?}\n     {call:x?}\n     {outcome}\n");
    }
    (text, differs)
}
