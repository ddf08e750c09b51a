//! The proved picture of a plan's text and names against the reference's: on random texts of every kind, at the edges, on all vectors,
//! with names good and bad, in buffers of any length.

use differential::proved;
use differential::vectors::plans;
use reference::edges::edges;
use reference::generate::generate;
use reference::picture::{picture, Fault};
use reference::random::Random;
use reference::text;
use std::fs;

/// What stands in a buffer before it is lent.
const OLD: u8 = 0xaa;

/// How much longer a buffer is than what is written.
const BEYOND: usize = 24;

/// The number of a buffer that is too short.
const SHORT: u32 = 14;

/// A refusal as the library tells it: names by 100 and their line.
fn told(fault: Fault) -> u32 {
    match fault {
        Fault::Plan(number) => number,
        Fault::Names(line) => 100 + line as u32,
    }
}

/// Compares on one text and its names; whether there is a picture.
fn compare(name: &str, plan_text: &[u8], names: &[u8]) -> bool {
    let expected = picture(plan_text, names).map_err(told);
    let document = expected.clone().unwrap_or_default();
    let mut out = vec![OLD; document.len() + BEYOND];
    let answer = proved::write_picture(plan_text, names, &mut out);
    assert_eq!(
        answer,
        expected.as_ref().map(Vec::len).map_err(|&number| number),
        "{name}"
    );
    assert!(out[..document.len()] == document, "{name}: another picture");
    assert!(
        out[document.len()..].iter().all(|&byte| byte == OLD),
        "{name}"
    );
    expected.is_ok()
}

/// Names for some of a plan's boxes in any order, and now and then something wrong.
fn names(plan_text: &[u8], random: &mut Random) -> Vec<u8> {
    const WORDS: [&str; 12] = [
        "pump",
        "a",
        "<&>",
        "Kühlbox",
        "漁船",
        "electronics",
        "x]]>y",
        "\"'",
        "…",
        "𝛑",
        "&amp;",
        "uninterruptible",
    ];
    let Ok(plan) = text::read(plan_text) else {
        return b"0 a\n".to_vec();
    };
    let mut boxes: Vec<usize> = (0..plan.vertices()).filter(|&v| !plan.is_via(v)).collect();
    let mut lines = String::new();
    while !boxes.is_empty() {
        let v = boxes.swap_remove(random.below(boxes.len()));
        if random.below(4) > 0 {
            let words: Vec<&str> = (0..1 + random.below(5))
                .map(|_| random.pick(&WORDS))
                .collect();
            lines += &format!("{v} {}\n", words.join(" "));
        }
    }
    let mut names = lines.into_bytes();
    if !names.is_empty() && random.below(3) == 0 {
        let at = random.below(names.len());
        match random.below(3) {
            0 => names[at] = random.below(256) as u8,
            1 => names.insert(at, random.pick(b" 0\n\xc3\xbf\x7f")),
            _ => names.truncate(at),
        }
    }
    names
}

/// Compares on random texts of a kind; how many were drawn.
fn compare_kind(kind: &str, times: u64) -> u64 {
    let mut random = Random::new("names", 1);
    let mut drawn = 0;
    for seed in 0..times {
        let plan_text = generate(kind, seed).expect("a kind");
        let names = names(&plan_text, &mut random);
        compare(&format!("{kind} {seed}"), &plan_text, b"");
        drawn += u64::from(compare(
            &format!("{kind} {seed} with names"),
            &plan_text,
            &names,
        ));
    }
    println!("{kind}: {times} texts, {drawn} drawn with names");
    drawn
}

#[test]
fn accepted_texts() {
    for (kind, times) in [
        ("small", 10_000),
        ("medium", 3_000),
        ("wide", 300),
        ("deep", 300),
        ("vias", 1_000),
        ("max", 60),
        ("rated-small", 3_000),
        ("rated-medium", 1_000),
        ("rated-vias", 500),
        ("rated-max", 30),
    ] {
        let drawn = compare_kind(kind, times);
        assert!(drawn > times / 2 && drawn < times, "{kind}");
    }
}

#[test]
fn refused_texts() {
    assert!(compare_kind("tangled", 2_000) > 100);
    assert!(compare_kind("damaged", 10_000) > 100);
    assert!(compare_kind("rated-damaged", 5_000) > 50);
}

#[test]
fn at_the_edges() {
    for edge in edges() {
        assert_eq!(
            compare(&edge.name, &edge.text, b""),
            edge.refusal == 0,
            "{}",
            edge.name
        );
    }
}

#[test]
fn vectors() {
    let mut random = Random::new("names", 2);
    for plan in plans() {
        let plan_text = fs::read(&plan).expect("a plan");
        let name = plan.display().to_string();
        compare(&name, &plan_text, b"");
        compare(&name, &plan_text, &names(&plan_text, &mut random));
    }
}

/// Every byte after every other in a name, and names of any length up to beyond the limit.
#[test]
fn forms_of_names() {
    let plan_text = b"(plan 1 1 10)\n(level (box 9) (box 9))\n(end)\n";
    for (a, b) in (0..=0xff).flat_map(|a| (0..=0xff).map(move |b| (a, b))) {
        for name in [&[b'x', a, b][..], &[a, b, 0x80], &[a, b, 0x9f, 0xbf]] {
            compare(
                &format!("{name:x?}"),
                plan_text,
                &[b"1 ", name, b"\n"].concat(),
            );
        }
    }
    for length in [65_535, 65_536, 65_537, 100_000] {
        let mut names = [&b"0 "[..], &vec![b'a'; length - 3], b"\n"].concat();
        assert_eq!(
            compare(&format!("{length} bytes"), plan_text, &names),
            length <= 65_536
        );
        names[length / 2] = b'\n';
        assert!(!compare(
            &format!("{length} bytes in two lines"),
            plan_text,
            &names
        ));
    }
}

#[test]
fn short_buffers() {
    let mut random = Random::new("names", 3);
    for seed in 0..200 {
        let plan_text = generate("small", seed).expect("a kind");
        let names = names(&plan_text, &mut random);
        let Ok(document) = picture(&plan_text, &names) else {
            continue;
        };
        for length in [0, 1, document.len() / 2, document.len() - 1] {
            let mut out = vec![OLD; length];
            assert_eq!(
                proved::write_picture(&plan_text, &names, &mut out),
                Err(SHORT)
            );
            assert!(out.iter().all(|&byte| byte == OLD));
        }
        assert_eq!(
            proved::write_picture(&plan_text, &names, &mut vec![OLD; document.len()]),
            Ok(document.len())
        );
    }
    assert_eq!(proved::write_picture(b"", b"", &mut []), Err(1));
}

/// Names as long as can be, of the sign with the longest escape.
#[test]
fn no_picture_is_longer() {
    for plan in plans() {
        let plan_text = fs::read(&plan).expect("a plan");
        let Ok(read) = text::read(&plan_text) else {
            continue;
        };
        let boxes: Vec<usize> = (0..read.vertices()).filter(|&v| !read.is_via(v)).collect();
        let name = "&".repeat(65_536 / boxes.len() - 6);
        let names: String = boxes.iter().map(|v| format!("{v} {name}\n")).collect();
        let document = picture(&plan_text, names.as_bytes()).expect("a picture");
        assert!(document.len() <= proved::MAX_PICTURE, "{}", plan.display());
        assert!(compare(
            &plan.display().to_string(),
            &plan_text,
            names.as_bytes()
        ));
    }
}
