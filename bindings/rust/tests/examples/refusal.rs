//! Refusals by number, and as sentences.

use curve::{Refusal, SheetRefusal};
use std::collections::HashSet;

#[test]
fn every_number_from_1_to_22_has_a_sentence_of_its_own() {
    let sentences: HashSet<String> = (1..=22)
        .map(|number| {
            let refusal = Refusal::from_number(number).expect("a refusal");
            assert_eq!(refusal.number(), number);

            refusal.to_string()
        })
        .collect();
    assert_eq!(sentences.len(), 22);
    for number in [0, 23, u32::MAX] {
        assert_eq!(Refusal::from_number(number), None);
    }
}

#[test]
fn a_sheets_refusal_tells_its_line() {
    let told = |refusal, line| SheetRefusal { refusal, line }.to_string();
    let wrong_line = "line 3: a line of the sheet is wrong or missing";
    assert_eq!(told(Refusal::WrongLine, 3), wrong_line);
    assert_eq!(told(Refusal::SplitDepth, 0), "the split depth is over 10");
}
