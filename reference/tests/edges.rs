//! Texts at the edges of the checks: the reference refuses each with the number that document 01 gives it.

use std::collections::{BTreeMap, HashSet};

use reference::edges::edges;
use reference::text;

#[test]
fn every_edge() {
    for edge in edges() {
        match text::read(&edge.text) {
            Ok(plan) => assert_eq!((edge.refusal, text::write(&plan)), (0, edge.text), "{}", edge.name),
            Err(number) => assert_eq!(number, edge.refusal, "{}", edge.name),
        }
    }
}

#[test]
fn all_outcomes_and_no_text_twice() {
    let mut outcomes = BTreeMap::new();
    let mut texts = HashSet::new();
    for edge in edges() {
        *outcomes.entry(edge.refusal).or_insert(0) += 1;
        assert!(texts.insert(edge.text), "{}", edge.name);
    }
    assert_eq!(outcomes.keys().copied().collect::<Vec<_>>(), [0, 1, 2, 3, 4, 5, 6]);
    assert!(outcomes.values().all(|&count| count >= 8), "{outcomes:?}");
}
