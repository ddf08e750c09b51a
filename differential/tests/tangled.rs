//! The proved calls for texts that may be tangled against the reference: the report in the numbers of the text, and the rearranged plan
//! with its vertices' numbers; and the text given back; on random texts of every kind, at the edges, on all vectors, in buffers of any length.

use differential::proved::{self, MAX_REPORT, MAX_TEXT, MAX_VERTICES};
use differential::vectors::plans;
use reference::edges::edges;
use reference::generate::generate;
use reference::tangled::{self, Loaded};
use reference::{passes, report, text};
use std::fs;

/// What stands in a buffer before it is lent.
const OLD: u8 = 0xaa;
const OLD_NUMBER: u16 = 0xaaaa;

/// The number of a buffer that is too short.
const SHORT: u32 = 14;

/// What the reference makes of a text: the report, the rearranged plan's text, and its vertices' numbers.
struct Expected {
    report: Vec<u8>,
    text: Vec<u8>,
    numbers: Vec<u16>,
}

impl Expected {
    fn of(plan_text: &[u8]) -> Result<Self, u32> {
        let loaded = tangled::read(plan_text)?;
        let report = report::remembered_lines(&loaded, &passes::draw(&loaded.plan));
        let Loaded { plan, numbers } = loaded;
        Ok(Expected {
            report,
            text: text::write(&plan),
            numbers: numbers.iter().map(|&n| n as u16).collect(),
        })
    }
}

fn all_are<T: PartialEq>(buffer: &[T], old: T) -> bool {
    buffer.iter().all(|item| *item == old)
}

/// Compares on one text; the number of its refusal, 0 if it is accepted.
fn compare(name: &str, plan_text: &[u8]) -> u32 {
    let mut out = vec![OLD; MAX_REPORT];
    let mut again = vec![OLD; MAX_TEXT];
    let mut numbers = [OLD_NUMBER; MAX_VERTICES];
    let reported = proved::write_tangled_report(plan_text, &mut out);
    let untangled = proved::write_untangled(plan_text, &mut again, &mut numbers);
    match Expected::of(plan_text) {
        Ok(expected) => {
            let (length, count) = (expected.report.len(), expected.numbers.len());
            assert_eq!(reported, Ok(length), "{name}");
            assert!(
                out[..length] == expected.report && all_are(&out[length..], OLD),
                "{name}: another report"
            );
            let length = expected.text.len();
            assert_eq!(untangled, Ok(length), "{name}");
            assert!(
                again[..length] == expected.text && all_are(&again[length..], OLD),
                "{name}: another plan"
            );
            assert!(
                numbers[..count] == expected.numbers && all_are(&numbers[count..], OLD_NUMBER),
                "{name}"
            );
            judge(name, plan_text, &again[..length], &numbers[..count]);
            0
        }
        Err(number) => {
            assert_eq!((reported, untangled), (Err(number), Err(number)), "{name}");
            assert!(
                all_are(&out, OLD) && all_are(&again, OLD) && all_are(&numbers, OLD_NUMBER),
                "{name}"
            );
            number
        }
    }
}

/// What a page relies on: the first way takes the rearranged plan; its vertices are the text's, in their old places but for vias.
fn judge(name: &str, plan_text: &[u8], again: &[u8], numbers: &[u16]) {
    let plan = text::read(again).unwrap_or_else(|number| panic!("{name}: refused with {number}"));
    let given = text::read_form(plan_text).expect("the form of a plan");
    assert_eq!(
        (&plan.draft().sizes, &plan.draft().vertices),
        (&given.sizes, &given.vertices),
        "{name}"
    );
    assert!(
        (0..plan.vertices()).all(|v| plan.is_via(v) || usize::from(numbers[v]) == v),
        "{name}"
    );
    if text::read(plan_text).is_ok() {
        assert_eq!(again, plan_text, "{name}: no crossing, and another plan");
    }
}

/// Compares on random texts of a kind; how many were accepted by the second way alone.
fn compare_kind(kind: &str, times: u64) -> u64 {
    let (mut accepted, mut crossing) = (0, 0);
    for seed in 0..times {
        let plan_text = generate(kind, seed).expect("a kind");
        if compare(&format!("{kind} {seed}"), &plan_text) == 0 {
            accepted += 1;
            crossing += u64::from(text::read(&plan_text).is_err());
        }
    }
    println!(
        "{kind}: {times} texts, {accepted} accepted, {crossing} of them by the second way alone"
    );
    crossing
}

/// "Loading by E1 and then asking for all lines gives the input again": of these texts, how many were taken, each given back byte for
/// byte, and how many of them by the second way alone.
fn given_back(kind: &str, times: u64) -> (u64, u64) {
    let mut out = vec![OLD; MAX_TEXT];
    let (mut taken, mut crossing) = (0, 0);
    for seed in 0..times {
        let plan_text = generate(kind, seed).expect("a kind");
        let length = plan_text.len();
        match proved::write_text_back(&plan_text, &mut out) {
            Ok(written) => {
                assert_eq!(written, length, "{kind} {seed}");
                assert!(
                    out[..length] == plan_text && all_are(&out[length..], OLD),
                    "{kind} {seed}: another text"
                );
                out[..length].fill(OLD);
                assert_eq!(
                    proved::write_text_back(&plan_text, &mut out[..length - 1]),
                    Err(SHORT),
                    "{kind} {seed}"
                );
                taken += 1;
                crossing += u64::from(text::read(&plan_text).is_err());
            }
            Err(number) => assert_eq!(
                tangled::read(&plan_text).err(),
                Some(number),
                "{kind} {seed}"
            ),
        }
        assert!(all_are(&out, OLD), "{kind} {seed}");
    }
    println!("{kind}: {times} texts, {taken} given back, {crossing} of them tangled");
    (taken, crossing)
}

#[test]
fn a_hundred_thousand_tangled_texts_are_given_back() {
    assert!(given_back("crossed", 140_000).1 >= 100_000);
}

#[test]
fn texts_of_other_kinds_are_given_back() {
    for (kind, times) in [
        ("tangled", 20_000),
        ("vias", 10_000),
        ("small", 10_000),
        ("crossed-max", 200),
        ("max", 100),
        ("rated-crossed", 40_000),
        ("rated-tangled", 10_000),
        ("rated-vias", 5_000),
        ("rated-small", 5_000),
        ("rated-crossed-max", 100),
        ("rated-max", 50),
    ] {
        assert_eq!(given_back(kind, times).0, times, "{kind}");
    }
    for kind in ["damaged", "rated-damaged"] {
        let (taken, _) = given_back(kind, 20_000);
        assert!(taken > 50 && taken < 20_000, "{kind}");
    }
}

#[test]
fn crossed_texts() {
    assert!(compare_kind("crossed", 5_000) > 3_000);
    assert!(compare_kind("tangled", 4_000) > 400);
    assert!(compare_kind("rated-crossed", 4_000) > 2_400);
    assert!(compare_kind("rated-tangled", 2_000) > 200);
}

#[test]
fn crossed_texts_at_the_limits() {
    assert!(compare_kind("crossed-max", 150) > 100);
    assert!(compare_kind("rated-crossed-max", 100) > 60);
}

#[test]
fn texts_without_crossings() {
    for (kind, times) in [
        ("small", 4_000),
        ("medium", 1_500),
        ("wide", 200),
        ("deep", 200),
        ("vias", 1_500),
        ("max", 60),
        ("rated-small", 2_000),
        ("rated-medium", 800),
        ("rated-vias", 800),
        ("rated-max", 30),
    ] {
        assert_eq!(compare_kind(kind, times), 0, "{kind}");
    }
}

#[test]
fn damaged_texts() {
    assert!(compare_kind("damaged", 5_000) > 20);
    assert!(compare_kind("rated-damaged", 5_000) > 20);
}

#[test]
fn at_the_edges() {
    for edge in edges() {
        let expected = if edge.refusal == 6 { 0 } else { edge.refusal };
        assert_eq!(compare(&edge.name, &edge.text), expected, "{}", edge.name);
    }
}

#[test]
fn vectors() {
    for plan in plans() {
        compare(
            &plan.display().to_string(),
            &fs::read(&plan).expect("a plan"),
        );
    }
}

#[test]
fn short_buffers() {
    for seed in 0..300 {
        let kind = if seed % 2 == 0 {
            "crossed"
        } else {
            "rated-crossed"
        };
        let plan_text = generate(kind, seed).expect("a kind");
        let expected = Expected::of(&plan_text).expect("a plan that may be tangled");
        short_report(&plan_text, expected.report.len());
        let (length, count) = (expected.text.len(), expected.numbers.len());
        for (length, count) in [
            (length - 1, count),
            (length, count - 1),
            (0, count),
            (length, 0),
            (0, 0),
        ] {
            let (mut out, mut numbers) = (vec![OLD; length], vec![OLD_NUMBER; count]);
            assert_eq!(
                proved::write_untangled(&plan_text, &mut out, &mut numbers),
                Err(SHORT)
            );
            assert!(all_are(&out, OLD) && all_are(&numbers, OLD_NUMBER));
        }
        let (mut out, mut numbers) = (vec![OLD; length], vec![OLD_NUMBER; count]);
        assert_eq!(
            proved::write_untangled(&plan_text, &mut out, &mut numbers),
            Ok(length)
        );
        assert!(out == expected.text && numbers == expected.numbers);
    }
    assert_eq!(proved::write_tangled_report(b"", &mut []), Err(1));
    assert_eq!(proved::write_text_back(b"", &mut []), Err(1));
    assert_eq!(proved::write_untangled(b"", &mut [], &mut []), Err(1));
}

fn short_report(plan_text: &[u8], length: usize) {
    for short in [0, 1, length / 2, length - 1] {
        let mut out = vec![OLD; short];
        assert_eq!(
            proved::write_tangled_report(plan_text, &mut out),
            Err(SHORT)
        );
        assert!(all_are(&out, OLD));
    }
    assert_eq!(
        proved::write_tangled_report(plan_text, &mut vec![OLD; length]),
        Ok(length)
    );
}

/// The largest plans on the stack that a thread has.
#[test]
fn two_mebibytes_of_stack() {
    let compare_all = || {
        ["crossed-max", "rated-crossed-max"].iter().all(|kind| {
            (0..12).all(|seed| compare(kind, &generate(kind, seed).expect("a kind")) == 0)
        })
    };
    let thread = std::thread::Builder::new()
        .stack_size(2 << 20)
        .spawn(compare_all)
        .expect("a thread");
    assert!(thread.join().expect("it ends"));
}
