//! What the library holds and answers, in the rival's numbers: the same inputs for both, and answers to compare.

use cementoad_sys as ffi;

use crate::rival::{Clock, Details, Line};

impl From<ffi::Line> for Line {
    fn from(line: ffi::Line) -> Line {
        Line {
            reference: line.reference.into(),
            synthetic: line.synthetic.into(),
            remainder: line.remainder,
            rate: line.rate,
        }
    }
}

impl From<ffi::Clock> for Clock {
    fn from(clock: ffi::Clock) -> Clock {
        Clock {
            word: clock.word,
            backstop: clock.backstop.into(),
            started: clock.started != 0,
            line: clock.line.into(),
            error: clock.error.into(),
            generation: clock.generation.into(),
            latest: clock.latest.into(),
        }
    }
}

impl From<ffi::Details> for Details {
    fn from(details: ffi::Details) -> Details {
        let ffi::Details { started, line, error, generation, latest, word, backstop, now } = details;
        let clock = ffi::Clock { line, backstop, latest, error, generation, word, started: started.into() };
        Details { clock: clock.into(), now: now.into() }
    }
}
