//! What counts of a request, and what a clock makes of one that is refused.

use std::hash::{DefaultHasher, Hash, Hasher};

use cementoad::{Clock, Refusal, Request, ffi};

/// A request that has a number for each argument, whatever its word flags.
fn with_word(word: u64) -> ffi::Request {
    ffi::Request { word, synthetic: 1500, reference: 100, rate: -23, error: 40 }
}

/// Each argument's flag, and the numbers of `with_word` with another one for it.
fn others(word: u64) -> [(u64, ffi::Request); 4] {
    let one = with_word(word);
    [
        (Request::SYNTHETIC, ffi::Request { synthetic: 1501, ..one }),
        (Request::REFERENCE, ffi::Request { reference: 101, ..one }),
        (Request::RATE, ffi::Request { rate: -22, ..one }),
        (Request::ERROR, ffi::Request { error: 41, ..one }),
    ]
}

fn words() -> impl Iterator<Item = u64> {
    (0..16).flat_map(|flags| [Request::VERSION_2, Request::VERSION_3].map(|version| version | flags << 54))
}

fn hash(request: &Request) -> u64 {
    let mut hasher = DefaultHasher::new();
    request.hash(&mut hasher);
    hasher.finish()
}

#[test]
fn requests_are_equal_by_word_and_flagged_arguments() {
    for word in words() {
        let one = Request::from(with_word(word));
        for (flag, other) in others(word) {
            let other = Request::from(other);
            assert_eq!(one == other, word & flag == 0, "word {word:x}, flag {flag:x}");
            assert_eq!(hash(&one) == hash(&other), word & flag == 0, "word {word:x}, flag {flag:x}");
        }
        assert_ne!(one, with_word(word | 1).into());
    }
}

#[test]
fn requests_are_the_same_whichever_known_version_they_have() {
    for word in words() {
        let (one, unknown) = (Request::from(with_word(word)), Request::from(with_word(word ^ 4 << 58)));
        for (flag, other) in others(word ^ Request::VERSION_2 ^ Request::VERSION_3) {
            let other = Request::from(other);
            assert_ne!(one, other);
            assert_eq!(one.is_same_request(&other), word & flag == 0, "word {word:x}, flag {flag:x}");
        }
        assert!(one.is_same_request(&one));
        assert!(!one.is_same_request(&with_word(word | 1).into()));
        assert!(!one.is_same_request(&unknown) && !unknown.is_same_request(&one) && !unknown.is_same_request(&unknown));
    }
}

#[test]
fn flagged_arguments_alone_can_be_looked_at() {
    for word in words() {
        let request = Request::from(with_word(word));
        let flags = |flag| word & flag != 0;
        assert_eq!(request.word(), word);
        assert_eq!(request.flagged_synthetic(), flags(Request::SYNTHETIC).then_some(1500));
        assert_eq!(request.flagged_reference(), flags(Request::REFERENCE).then_some(100));
        assert_eq!(request.flagged_rate(), flags(Request::RATE).then_some(-23));
        assert_eq!(request.flagged_error(), flags(Request::ERROR).then_some(40));
        assert_eq!(ffi::Request::from(&request), with_word(word));
    }
}

#[test]
fn naming_an_argument_flags_it() {
    let named = Request::new().synthetic(1500).reference(100).rate(-23).error(40);
    let word = Request::VERSION_2 | Request::SYNTHETIC | Request::REFERENCE | Request::RATE | Request::ERROR;
    assert_eq!(ffi::Request::from(&named), with_word(word));
    assert_eq!(Request::new().rate(-23), with_word(Request::VERSION_2 | Request::RATE).into());
    assert_eq!(Request::version_3().rate(-23), with_word(Request::VERSION_3 | Request::RATE).into());
    assert_eq!(Request::default(), with_word(Request::VERSION_2).into());
}

#[test]
fn a_refused_update_leaves_the_clock_unaltered() {
    let mut clock = Clock::create(Clock::MONOTONIC, 0, 0).unwrap();
    clock.update(&Request::new().synthetic(1500), 100).unwrap();
    let old = clock.clone();
    let back = Request::new().synthetic(1749).error(40);
    assert_eq!(clock.update(&back, 350), Err(Refusal::MonotonicBack));
    assert_eq!(clock, old);
    clock.update(&Request::new().error(40), 350).unwrap();
    assert_ne!(clock, old);
}
