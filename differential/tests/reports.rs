//! The proved report and marks of a text against the reference's: on random texts of every kind, at the edges, on all vectors, in
//! buffers of any length, and on a thread's stack.

use differential::proved::{self, MAX_REPORT, NUMBERS};
use differential::vectors::plans;
use reference::edges::edges;
use reference::generate::generate;
use reference::{marks, passes, report, text};
use std::fs;
use std::path::{Path, PathBuf};

/// What stands in a buffer before it is lent.
const OLD: u8 = 0xaa;
const OLD_NUMBER: f64 = -1e300;

/// The number of a buffer that is too short.
const SHORT: u32 = 14;

/// How much longer a buffer is than what is written.
const BEYOND: usize = 24;

/// The report and the marks' numbers by the reference, or the refusal.
fn expected(plan_text: &[u8]) -> Result<(Vec<u8>, Vec<f64>), u32> {
    let plan = text::read(plan_text)?;
    let drawing = passes::draw(&plan);
    let numbers = marks::marks(&plan, &drawing)
        .into_iter()
        .flat_map(|mark| mark.numbers())
        .collect();
    Ok((report::lines(&plan, &drawing), numbers))
}

/// Compares on one text; whether it is accepted.
fn compare(name: &str, plan_text: &[u8]) -> bool {
    let expected = expected(plan_text);
    let (lines, numbers) = expected.clone().unwrap_or_default();
    let mut out = vec![OLD; lines.len() + BEYOND];
    let answer = proved::write_report(plan_text, &mut out);
    assert_eq!(
        answer,
        expected
            .as_ref()
            .map(|(lines, _)| lines.len())
            .map_err(|&number| number),
        "{name}"
    );
    assert!(out[..lines.len()] == lines, "{name}: another report");
    assert!(out[lines.len()..].iter().all(|&byte| byte == OLD), "{name}");
    let mut out = vec![OLD_NUMBER; numbers.len() + BEYOND];
    let answer = proved::write_marks(plan_text, &mut out);
    assert_eq!(
        answer,
        expected
            .as_ref()
            .map(|_| numbers.len() / NUMBERS)
            .map_err(|&number| number),
        "{name}"
    );
    let same = |(a, b): (&f64, &f64)| a.to_bits() == b.to_bits();
    assert!(out.iter().zip(&numbers).all(same), "{name}: other marks");
    assert!(
        out[numbers.len()..]
            .iter()
            .all(|&number| number == OLD_NUMBER),
        "{name}"
    );
    expected.is_ok()
}

/// Compares on random texts of a kind; how many were accepted.
fn compare_kind(kind: &str, times: u64) -> u64 {
    let text_of = |seed| generate(kind, seed).expect("a kind");
    let accepted = (0..times)
        .filter(|&seed| compare(&format!("{kind} {seed}"), &text_of(seed)))
        .count() as u64;
    println!("{kind}: {times} texts, {accepted} accepted");
    accepted
}

#[test]
fn accepted_texts() {
    for (kind, times) in [
        ("small", 30_000),
        ("medium", 12_000),
        ("wide", 2_000),
        ("deep", 2_000),
        ("vias", 6_000),
        ("max", 500),
        ("rated-small", 20_000),
        ("rated-medium", 8_000),
        ("rated-wide", 1_500),
        ("rated-deep", 1_500),
        ("rated-vias", 4_000),
        ("rated-max", 300),
    ] {
        assert_eq!(compare_kind(kind, times), times, "{kind}");
    }
}

#[test]
fn tangled_texts() {
    assert!(compare_kind("tangled", 12_000) > 1_000);
    assert!(compare_kind("rated-tangled", 8_000) > 600);
}

#[test]
fn damaged_texts() {
    assert!(compare_kind("damaged", 40_000) > 1_000);
    assert!(compare_kind("rated-damaged", 40_000) > 1_000);
}

#[test]
fn at_the_edges() {
    for edge in edges() {
        assert_eq!(
            compare(&edge.name, &edge.text),
            edge.refusal == 0,
            "{}",
            edge.name
        );
    }
}

#[test]
fn vectors() {
    for plan in plans() {
        let plan_text = fs::read(&plan).expect("a plan");
        compare(&plan.display().to_string(), &plan_text);
        let lines = proved::report(&plan_text).unwrap_or_else(report::refused);
        assert!(
            lines == fs::read(plan.with_extension("report")).expect("a report"),
            "{}",
            plan.display()
        );
    }
}

#[test]
fn short_buffers() {
    for seed in 0..300 {
        let plan_text = generate("small", seed).expect("a kind");
        let (lines, numbers) = expected(&plan_text).expect("an acceptable plan");
        for length in [0, 1, lines.len() / 2, lines.len() - 1] {
            let mut out = vec![OLD; length];
            assert_eq!(proved::write_report(&plan_text, &mut out), Err(SHORT));
            assert!(out.iter().all(|&byte| byte == OLD));
        }
        assert_eq!(
            proved::write_report(&plan_text, &mut vec![OLD; lines.len()]),
            Ok(lines.len())
        );
        for length in [0, 1, numbers.len() / 2, numbers.len() - 1] {
            let mut out = vec![OLD_NUMBER; length];
            assert_eq!(proved::write_marks(&plan_text, &mut out), Err(SHORT));
            assert!(out.iter().all(|&number| number == OLD_NUMBER));
        }
        assert_eq!(
            proved::write_marks(&plan_text, &mut vec![0.0; numbers.len()]),
            Ok(numbers.len() / NUMBERS)
        );
    }
    assert_eq!(proved::write_report(b"", &mut []), Err(1));
    assert_eq!(proved::write_marks(b"", &mut []), Err(1));
}

#[test]
fn marks_of_a_text() {
    for seed in 0..300 {
        let plan_text = generate("medium", seed).expect("a kind");
        let plan = text::read(&plan_text).expect("an acceptable plan");
        assert_eq!(
            proved::marks(&plan_text),
            Ok(marks::marks(&plan, &passes::draw(&plan)))
        );
    }
    assert_eq!(proved::marks(b""), Err(1));
}

#[test]
fn no_report_is_longer() {
    assert!(plans()
        .iter()
        .all(|plan| fs::read(plan.with_extension("report"))
            .expect("a report")
            .len()
            <= MAX_REPORT));
}

/// The largest plans, and two whose strands are placed one within another, 989 and 990 deep: none deeper was found.
#[test]
fn two_mebibytes_of_stack() {
    let large = plans()
        .into_iter()
        .filter(|file| fs::read(file).expect("a plan").len() > 4_000);
    let deep = ["chain-989", "chain-990"]
        .map(|name| Path::new("tests/plans").join(name).with_extension("plan"));
    let files: Vec<PathBuf> = large.chain(deep).collect();
    let compare_all = move || {
        let accepted = |file: &&PathBuf| {
            compare(
                &file.display().to_string(),
                &fs::read(file).expect("a plan"),
            )
        };
        files.iter().filter(accepted).count()
    };
    let thread = std::thread::Builder::new()
        .stack_size(2 << 20)
        .spawn(compare_all)
        .expect("a thread");
    assert!(thread.join().expect("it ends") > 12);
}
