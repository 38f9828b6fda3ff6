//! The refusals' numbers, names and texts.

use std::collections::BTreeSet;

use cementoad::{Refusal, UnknownRefusal};

const NAMES: [&str; 23] = [
    "NOW_OUTSIDE",
    "NOW_EARLY",
    "WORD_WRONG",
    "NOTHING_FLAGGED",
    "VALUE_OUTSIDE",
    "RATE_OUTSIDE",
    "REFERENCE_ALONE",
    "NOT_STARTED",
    "CONTINUOUS_REFERENCE",
    "CONTINUOUS_SET",
    "MONOTONIC_SET_AND_RATE",
    "LINE_OUTSIDE",
    "BELOW_BACKSTOP",
    "MONOTONIC_BACK",
    "CONTINUOUS_NOT_MONOTONIC",
    "BACKSTOP_OUTSIDE",
    "BACKSTOP_AHEAD",
    "TOO_SHORT",
    "PADDING_SET",
    "BYTES_LEFT_OVER",
    "BUFFER_SHORT",
    "RATE_STEP",
    "VERSION_NEEDLESS",
];

/// Their numbers.
fn numbers() -> impl Iterator<Item = u8> {
    (1..=22).chain([31])
}

#[test]
fn numbers_and_names_are_those_of_the_paper() {
    assert_eq!(Refusal::ALL.len(), NAMES.len());
    for ((refusal, number), name) in Refusal::ALL.iter().zip(numbers()).zip(NAMES) {
        let is_invalid_args = (3..=17).contains(&number);
        assert_eq!(refusal.number(), number);
        assert_eq!(refusal.name(), name);
        assert_eq!(refusal.public_name(), if is_invalid_args { "INVALID_ARGS" } else { name });
        assert_eq!(Refusal::try_from(number), Ok(*refusal));
        assert_eq!(format!("{refusal:?}").to_uppercase(), name.replace('_', ""));
    }
}

#[test]
fn each_text_has_its_number_and_a_sentence_of_its_own() {
    let mut sentences = BTreeSet::new();
    for (refusal, number) in Refusal::ALL.iter().zip(numbers()) {
        let text = refusal.to_string();
        let sentence = text.strip_prefix(&format!("refusal {number}: ")).unwrap();
        assert!(sentences.insert(sentence.to_owned()), "{sentence}");
    }
}

#[test]
fn other_numbers_are_unknown() {
    for number in (0..=255).filter(|number| !numbers().any(|known| known == *number)) {
        assert_eq!(Refusal::try_from(number), Err(UnknownRefusal(number)));
    }
    assert_eq!(UnknownRefusal(23).to_string(), "23 is not the number of a refusal");
}
