//! The proved reader and writer of plan texts against the reference's, on texts at the edges and on random ones.

use differential::proved;
use reference::cables;
use reference::edges::edges;
use reference::generate::generate;
use reference::plan::Plan;
use reference::text;

/// What stands in a buffer before it is lent.
const OLD: u8 = 0xaa;

/// The number of a buffer that is too short.
const SHORT: u32 = 14;

/// How many bytes the buffer has beyond the text.
const BEYOND: usize = 24;

/// Compares on one text; the number of its refusal, 0 if it is accepted.
fn compare(name: &str, bytes: &[u8]) -> usize {
    let expected = text::read(bytes).map(|plan| text::write(&plan));
    let number = expected.as_ref().err().copied().unwrap_or(0);
    let mut out = vec![OLD; bytes.len() + BEYOND];
    let answer = proved::reread(bytes, &mut out);
    let written = expected.clone().unwrap_or_default();
    assert_eq!(
        answer,
        expected.as_ref().map(Vec::len).map_err(|&number| number),
        "{name}"
    );
    assert_eq!(out[..written.len()], written, "{name}");
    assert!(
        out[written.len()..].iter().all(|&byte| byte == OLD),
        "{name}"
    );
    if expected.is_ok() {
        let mut short = vec![OLD; written.len() - 1];
        assert_eq!(proved::reread(bytes, &mut short), Err(SHORT), "{name}");
        assert!(short.iter().all(|&byte| byte == OLD), "{name}");
        assert_eq!(
            proved::reread(bytes, &mut out[..written.len()]),
            Ok(written.len()),
            "{name}"
        );
    }
    number as usize
}

/// Compares on as many texts of a kind; how many were accepted, and refused with 1 to 6.
fn compare_kind(kind: &str, times: u64) -> [u64; 7] {
    compare_texts(kind, times, |seed| generate(kind, seed).expect("a kind"))
}

fn compare_texts(name: &str, times: u64, plan_text: impl Fn(u64) -> Vec<u8>) -> [u64; 7] {
    let mut outcomes = [0; 7];
    for seed in 0..times {
        outcomes[compare(&format!("{name} {seed}"), &plan_text(seed))] += 1;
    }
    println!("{name}: {times} texts, accepted and refused with 1 to 6: {outcomes:?}");
    outcomes
}

#[test]
fn at_the_edges() {
    for edge in edges() {
        assert_eq!(
            compare(&edge.name, &edge.text),
            edge.refusal as usize,
            "{}",
            edge.name
        );
    }
}

#[test]
fn damaged_texts() {
    for kind in ["damaged", "rated-damaged"] {
        let outcomes = compare_kind(kind, 100_000);
        assert!(outcomes.iter().all(|&count| count > 1_000), "{kind}");
    }
}

#[test]
fn tangled_texts() {
    for kind in ["tangled", "rated-tangled"] {
        let [accepted, .., crossing] = compare_kind(kind, 20_000);
        assert!(accepted > 1_000 && crossing > 1_000, "{kind}");
    }
}

/// Up to 64 vias on a level, the first crossing at the start, at the end or between.
#[test]
fn cables_side_by_side() {
    for (most, times) in [(cables::FEW, 20_000), (Plan::MAX_ON_LEVEL, 4_000)] {
        let [accepted, others @ .., crossing] =
            compare_texts("cables", times, |seed| cables::text(seed, most));
        assert!(accepted > times / 4 && crossing > times / 4 && others == [0; 5]);
    }
}

#[test]
fn accepted_texts() {
    let kinds = [
        ("small", 20_000),
        ("medium", 10_000),
        ("wide", 2_000),
        ("deep", 2_000),
        ("vias", 5_000),
        ("max", 300),
        ("rated-small", 20_000),
        ("rated-medium", 10_000),
        ("rated-wide", 2_000),
        ("rated-deep", 2_000),
        ("rated-vias", 5_000),
        ("rated-max", 300),
    ];
    for (kind, times) in kinds {
        assert_eq!(compare_kind(kind, times)[0], times, "{kind}");
    }
}

#[test]
fn empty_buffer() {
    let plan = b"(plan 1 1 1)\n(level (box 1))\n(end)\n";
    assert_eq!(proved::reread(plan, &mut []), Err(SHORT));
    assert_eq!(proved::reread(b"", &mut []), Err(1));
}
