//! Plan texts as one input, each after a line with its length in bytes.

use crate::edges::edges;
use crate::generate::{generate, KINDS};

/// Those at the edges of the checks, the given ones, and `count` random ones of each kind.
pub fn of_every_kind(given: Vec<Vec<u8>>, count: u64) -> Vec<Vec<u8>> {
    let random = KINDS.iter().flat_map(|kind| (0..count).filter_map(|seed| generate(kind, seed)));
    edges().into_iter().map(|edge| edge.text).chain(given).chain(random).collect()
}

/// The text after the line with its length.
pub fn with_length(text: &[u8]) -> Vec<u8> {
    [format!("{}\n", text.len()).as_bytes(), text].concat()
}

#[cfg(test)]
mod tests {
    use super::*;

    #[test]
    fn a_text_with_its_length() {
        assert_eq!(with_length(b"(end)\n"), b"6\n(end)\n");
        assert_eq!(with_length(b""), b"0\n");
    }

    #[test]
    fn every_kind() {
        let all = of_every_kind(vec![b"given".to_vec()], 2);
        assert_eq!(all.len(), edges().len() + 1 + 2 * KINDS.len());
        assert_eq!(all.last(), generate("rated-damaged", 1).as_ref());
    }
}
