//! The proved draw against the reference: on random plans of every kind, on all vectors, and on a thread's stack.

use differential::proved;
use differential::vectors::plans;
use reference::{generate, passes, text};
use std::fs;
use std::path::PathBuf;

/// Room for the positions of the largest plan, and some beyond.
const ROOM: usize = 2 * 1_024 + 8;

/// What lies in the buffer before.
const BEFORE: i64 = 1 << 62;

/// What the draw is to answer and to leave in a buffer of this length, by the reference.
fn expected(plan_text: &[u8], length: usize) -> (i64, Vec<i64>) {
    let mut buffer = vec![BEFORE; length];
    let plan = match text::read(plan_text) {
        Ok(plan) => plan,
        Err(number) => return (-i64::from(number), buffer),
    };
    let drawing = passes::draw(&plan);
    let positions: Vec<i64> = drawing
        .preliminary
        .iter()
        .chain(&drawing.position)
        .copied()
        .collect();
    if length < positions.len() {
        return (-14, buffer);
    }
    buffer[..positions.len()].copy_from_slice(&positions);
    (plan.vertices() as i64, buffer)
}

/// Compares on a buffer of this length; whether the plan was drawn.
fn compare(plan_text: &[u8], length: usize, name: &str) -> bool {
    let mut buffer = vec![BEFORE; length];
    let answer = proved::draw(plan_text, &mut buffer);
    let (expected_answer, expected_buffer) = expected(plan_text, length);
    assert_eq!(answer, expected_answer, "{name}");
    assert!(buffer == expected_buffer, "{name}: other positions");
    answer >= 0
}

/// Compares on random plans of a kind; how many were drawn.
fn random_plans(kind: &str, seeds: u64) -> u64 {
    let text_of = |seed| generate::generate(kind, seed).expect("a kind");
    let drawn = (0..seeds)
        .filter(|&seed| compare(&text_of(seed), ROOM, &format!("{kind} {seed}")))
        .count() as u64;
    println!("{kind}: {drawn} drawn, {} refused", seeds - drawn);
    drawn
}

#[test]
fn every_kind() {
    for (kind, seeds) in [
        ("small", 8_000),
        ("medium", 4_000),
        ("wide", 1_500),
        ("deep", 1_500),
        ("vias", 2_500),
        ("max", 500),
        ("rated-small", 8_000),
        ("rated-medium", 4_000),
        ("rated-wide", 1_500),
        ("rated-deep", 1_500),
        ("rated-vias", 2_500),
        ("rated-max", 300),
    ] {
        assert_eq!(random_plans(kind, seeds), seeds, "{kind}");
    }
    for kind in ["tangled", "rated-tangled"] {
        assert!(random_plans(kind, 3_000) > 100, "{kind}");
    }
    for kind in ["damaged", "rated-damaged"] {
        assert!(random_plans(kind, 4_000) > 100, "{kind}");
    }
}

#[test]
fn vectors() {
    for plan in plans() {
        compare(
            &fs::read(&plan).expect("a plan"),
            ROOM,
            &plan.display().to_string(),
        );
    }
}

#[test]
fn short_buffers() {
    for seed in 0..200 {
        let plan_text = generate::generate("small", seed).expect("a kind");
        let room = 2 * text::read(&plan_text)
            .expect("an acceptable plan")
            .vertices();
        for length in [0, room / 2, room.saturating_sub(1), room, room + 1] {
            assert_eq!(
                compare(&plan_text, length, &format!("small {seed} in {length}")),
                length >= room
            );
        }
    }
}

#[test]
fn two_mebibytes_of_stack() {
    let largest: Vec<PathBuf> = plans()
        .into_iter()
        .filter(|file| fs::read(file).expect("a plan").len() > 4_000)
        .collect();
    assert!(largest.len() > 10);
    let draw_all = move || {
        for file in largest {
            compare(
                &fs::read(&file).expect("a plan"),
                ROOM,
                &file.display().to_string(),
            );
        }
    };
    let thread = std::thread::Builder::new()
        .stack_size(2 << 20)
        .spawn(draw_all)
        .expect("a thread");
    thread.join().expect("it ends");
}
