//! Numbers, places and sentences.

use std::collections::BTreeSet;
use std::error::Error;

use crate::c::{same_version, Code};
use crate::*;

const REFUSALS: [u64; 13] = [1, 2, 3, 4, 5, 6, 7, 8, 10, 11, 12, 13, 14];

/// The waits: number and place, whether the settlement is a later one, how many TLCs stand, and the cause.
const WAITS: [(u64, u64, bool, usize, Cause); 9] = [
    (20, 0, false, 4, Cause::ListDiffers),
    (21, 0, true, 4, Cause::NotOurShare),
    (22, 0, false, 0, Cause::DelayNotDue),
    (23, 3, true, 4, Cause::NoExpiryOrKey { tlc: 3 }),
    (24, 3, true, 4, Cause::ExpiryNotPassed { tlc: 3 }),
    (24, 3, false, 4, Cause::DelayOrExpiry { tlc: 3 }),
    (25, 3, true, 4, Cause::NoPreimage { tlc: 3 }),
    (25, 0, false, 1, Cause::NoPreimage { tlc: 0 }),
    (25, 253, false, 254, Cause::NoPreimage { tlc: 253 }),
];

/// The cases without a number.
fn ours() -> Vec<Refusal> {
    vec![
        Refusal::Answer { field: "CHOOSE_KIND", value: 3 },
        Refusal::Abi { library: 9, expected: 1 },
        Refusal::PrefixMissing,
        Refusal::PrefixLeft,
        Refusal::WitnessMissing,
        Refusal::WitnessOfFirst,
        Refusal::CellAfterTip,
        Refusal::StateDiffers,
        Refusal::KeysDiffer,
        Refusal::TrackedDiffers { place: 3 },
        Refusal::PreimageDiffers,
        Refusal::Mixed { part: "witness" },
        Refusal::RecordUnknown { place: 3 },
    ]
}

#[test]
fn a_number_keeps_its_number_and_place() {
    for number in REFUSALS {
        let refusal = Refusal::from(Code { number, place: 3 });
        assert_eq!(refusal.number(), number);
        // These have a place; of the others it is 0.
        let placed = matches!(number, 1..=6 | 13);
        assert_eq!(refusal.place(), if placed { 3 } else { 0 }, "{number}");
        for is_later in [false, true] {
            assert_eq!(Cause::of(Code { number, place: 3 }, is_later, 4), Err(refusal));
        }
    }
    for (number, place, is_later, standing, cause) in WAITS {
        assert_eq!(Cause::of(Code { number, place }, is_later, standing), Ok(cause));
        assert_eq!((cause.number(), cause.place()), (number, place));
        assert_eq!(cause.tlc(), (number >= 23).then_some(place as usize));
    }
    for number in [9, 15, 19, 26, 40, u64::MAX] {
        let refusal = Refusal::from(Code { number, place: 7 });
        assert_eq!(refusal, Refusal::Unknown { number, place: 7 });
        assert_eq!((refusal.number(), refusal.place()), (number, 7));
        assert_eq!(Cause::of(Code { number, place: 7 }, true, 8), Err(refusal));
    }
    for refusal in ours() {
        assert_eq!(refusal.number(), 0);
    }
}

/// A wait that the header does not have for such a choice, as a library from before 23 to 25 answers 22.
#[test]
fn a_wait_that_the_header_does_not_have() {
    let told = |number, place, is_later, standing| Cause::of(Code { number, place }, is_later, standing);
    for (is_later, standing) in [(true, 0), (true, 4), (false, 4)] {
        assert_eq!(told(22, 0, is_later, standing), Err(Refusal::Answer { field: "NUMBER", value: 22 }));
    }
    for number in [21, 23] {
        for (place, standing) in [(0, 0), (0, 4), (3, 4)] {
            let odd = Refusal::Answer { field: "NUMBER", value: number };
            assert_eq!(told(number, place, false, standing), Err(odd));
        }
    }
    for (number, is_later, standing) in [(20, false, 4), (20, true, 4), (21, true, 4), (22, false, 0)] {
        assert!(told(number, 0, is_later, standing).is_ok());
        for place in [1, 3, u64::MAX] {
            let odd = Refusal::Answer { field: "PLACE", value: place };
            assert_eq!(told(number, place, is_later, standing), Err(odd));
        }
    }
    for (number, is_later) in [(23, true), (24, true), (24, false), (25, true), (25, false)] {
        for (place, standing) in [(0, 0), (4, 4), (u64::MAX, 254)] {
            let odd = Refusal::Answer { field: "PLACE", value: place };
            assert_eq!(told(number, place, is_later, standing), Err(odd));
        }
    }
}

#[test]
fn every_number_has_a_sentence_of_its_own() {
    let numbers = REFUSALS.into_iter().chain([9]).map(|number| Refusal::from(Code { number, place: 3 }));
    let mut sentences: Vec<String> = numbers.chain(ours()).map(|refusal| refusal.to_string()).collect();
    sentences.extend(WAITS.map(|(.., cause)| cause.to_string()));
    sentences
        .extend([ArgsError::Length(3), ArgsError::Features(3), ArgsError::Later(3)].map(|e| e.to_string()));
    let epochs = [EpochError::NumberAbove(3), EpochError::NoHeaderEpoch(3), EpochError::NoRelativeEpoch(3)];
    sentences.extend(epochs.map(|error| error.to_string()));
    sentences.extend([TimeError::Below(3), TimeError::Above(3)].map(|error| error.to_string()));
    for sentence in &sentences {
        // What is wrong, and what to do.
        assert!(sentence.contains("; "), "{sentence}");
        assert!(
            !sentence.contains('\n') && !sentence.contains("  ") && !sentence.ends_with('.'),
            "{sentence}"
        );
    }
    assert_eq!(sentences.len(), REFUSALS.len() + 1 + ours().len() + WAITS.len() + 8);
    assert_eq!(sentences.iter().collect::<BTreeSet<_>>().len(), sentences.len());
    let error: Box<dyn Error> = Box::new(Refusal::OutputShort { needed: 73 });
    assert_eq!(error.to_string(), "the output is too short; lend 73 bytes and ask again");
}

#[test]
fn a_sentence_names_what_to_look_at() {
    let has = |sentence: String, words: &[&str]| {
        for word in words {
            assert!(sentence.contains(word), "{word}: {sentence}");
        }
    };
    for number in 1..=6 {
        let sentence = Refusal::from(Code { number, place: 3 }).to_string();
        has(sentence, &["index of the input", "16-byte prefix", "take h from", "revocation's witness"]);
    }
    has(Refusal::KeysDiffer.to_string(), &["our_key and their_key are swapped", "whose commitment"]);
    has(
        Refusal::TrackedDiffers { place: 3 }.to_string(),
        &["place 3", "TrackedTlcs::first", "`after`", "`standing`"],
    );
    has(Refusal::RecordUnknown { place: 3 }.to_string(), &["skipped or taken twice"]);
    has(Cause::NotOurShare.to_string(), &["paid out", "no TLC of this cell", "takes whole"]);
    has(Cause::DelayNotDue.to_string(), &["no TLC stands", "cell_epoch is that of the cell's own block"]);
    has(
        Cause::NoExpiryOrKey { tlc: 3 }.to_string(),
        &["no absolute timestamp", "our key", "tell an operator", "; go on asking"],
    );
    has(
        Cause::ExpiryNotPassed { tlc: 3 }.to_string(),
        &["its expiry has not passed; ask again", "median time"],
    );
    has(
        Cause::DelayOrExpiry { tlc: 3 }.to_string(),
        &["two thirds by timeout", "one third by preimage", "cell's own block", "median time"],
    );
    has(
        Cause::NoPreimage { tlc: 3 }.to_string(),
        &["no stored preimage counts", "at once", "the whole delay"],
    );
    for (.., cause) in WAITS {
        let begins = cause.tlc().map_or("wait: ".to_string(), |tlc| format!("waits for TLC {tlc}: "));
        assert!(cause.to_string().starts_with(&begins), "{cause}");
    }
}

#[test]
fn another_version_is_told() {
    assert_eq!(same_version(layout::ABI), Ok(()));
    for library in [0, layout::ABI + 1, u64::MAX] {
        assert_eq!(same_version(library), Err(Refusal::Abi { library, expected: layout::ABI }));
    }
}
