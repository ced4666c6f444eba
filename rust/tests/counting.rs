//! The drawn questions at the counter reach every answer, and find every way to go wrong.

use second::counting::{self, Question, CASES, WRONG};

#[test]
fn every_case_is_met() {
    let met = counting::compare(1, 20_000, counting::second, counting::second).unwrap();
    let missed: Vec<_> = CASES.iter().filter(|case| !met.contains_key(**case)).collect();
    assert!(missed.is_empty(), "{missed:?}");
}

#[test]
fn every_wrong_way_is_found() {
    for wrong in WRONG {
        let right = |question: &Question| counting::goes(wrong, question);
        assert!(counting::compare(1, 100_000, counting::second, right).is_err(), "{wrong:?}");
    }
}
