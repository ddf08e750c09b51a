//! The proved runner of scripts against the reference: on random scripts, on those that the gate runs, on all vectors, at edges, with
//! buffers of any length. A test has a stack of two mebibytes.

use std::fs;
use std::io::Write;
use std::path::Path;
use std::process::{Command, Stdio};

use differential::{proved, vectors};
use reference::{script, scripts};

/// What stands in a buffer before it is lent.
const OLD: u8 = 0xa5;

/// The number of a buffer that is too short.
const SHORT: u32 = 14;

fn compare(commands: &[u8]) {
    let expected = script::answers(commands);
    let length = expected.len();
    let mut out = vec![OLD; length + 3];
    assert_eq!(proved::write_answers(commands, &mut out), Ok(length));
    assert_eq!(out[..length], expected);
    assert!(out[length..].iter().all(|&byte| byte == OLD));
    assert_eq!(
        proved::write_answers(commands, &mut out[..length]),
        Ok(length)
    );
    if length > 0 {
        let mut short = vec![OLD; length - 1];
        assert_eq!(proved::write_answers(commands, &mut short), Err(SHORT));
        assert!(short.iter().all(|&byte| byte == OLD));
    }
}

/// How many random scripts each test compares; a third of them alter the stored record.
const SCRIPTS: u64 = 10_500;

/// Compares on a buffer that has room; on each fiftieth script also on others.
fn compare_random(seed: u64, script: fn(u64) -> String) {
    let commands = script(seed);
    if seed.is_multiple_of(50) {
        return compare(commands.as_bytes());
    }
    let expected = script::answers(commands.as_bytes());
    let mut out = vec![OLD; expected.len()];
    assert_eq!(
        proved::write_answers(commands.as_bytes(), &mut out),
        Ok(expected.len()),
        "script {seed}"
    );
    assert!(out == expected, "script {seed}");
}

#[test]
fn random_scripts() {
    (0..SCRIPTS).for_each(|seed| compare_random(seed, scripts::script));
}

#[test]
fn more_random_scripts() {
    (SCRIPTS..2 * SCRIPTS).for_each(|seed| compare_random(seed, scripts::script));
}

#[test]
fn random_scripts_with_tangled_loads() {
    (0..SCRIPTS).for_each(|seed| compare_random(seed, scripts::tangled_script));
}

#[test]
fn more_random_scripts_with_tangled_loads() {
    (SCRIPTS..2 * SCRIPTS).for_each(|seed| compare_random(seed, scripts::tangled_script));
}

#[test]
fn random_scripts_with_lines_of_the_text() {
    (0..SCRIPTS).for_each(|seed| compare_random(seed, scripts::text_script));
}

#[test]
fn more_random_scripts_with_lines_of_the_text() {
    (SCRIPTS..2 * SCRIPTS).for_each(|seed| compare_random(seed, scripts::text_script));
}

#[test]
fn random_walk_scripts() {
    (0..SCRIPTS).for_each(|seed| compare_random(seed, scripts::walk_script));
}

#[test]
fn more_random_walk_scripts() {
    (SCRIPTS..2 * SCRIPTS).for_each(|seed| compare_random(seed, scripts::walk_script));
}

#[test]
fn random_rated_scripts() {
    (0..SCRIPTS).for_each(|seed| compare_random(seed, scripts::rated_script));
}

#[test]
fn more_random_rated_scripts() {
    (SCRIPTS..2 * SCRIPTS).for_each(|seed| compare_random(seed, scripts::rated_script));
}

/// Each script gives the answers that stand beside it.
#[test]
fn vectors() {
    let scripts = vectors::scripts();
    assert_eq!(scripts.len(), 167);
    for file in scripts {
        let expected = fs::read(file.with_extension("answers")).expect("answers");
        let mut out = vec![OLD; expected.len()];
        let length = proved::write_answers(&fs::read(&file).expect("a script"), &mut out);
        assert_eq!(length, Ok(expected.len()), "{}", file.display());
        assert!(out == expected, "{}", file.display());
    }
}

/// What a sheet remembers is each level's own numbers, once each; a clear and the next load forget it.
#[test]
fn remembered_numbers() {
    let plan = "(plan 4 1 5)\\n(level (box 1) (box 2))\\n(level (via) (via))\\n(level (via) (via))\\n(level (box 1) (box 2))\\n\
                (seg 0 2)\\n(seg 1 3)\\n(seg 2 5)\\n(seg 3 4)\\n(seg 4 6)\\n(seg 5 7)\\n(end)\\n";
    let loads = format!("load 1 tangled {plan}\ndraw 1\nlines 1\n");
    // Each number once in the plan, two of them on another's level.
    let exchanged = "poke 1 mem 1 2\npoke 1 mem 2 1\nlines 1\nmarks 1\ndraw 1\n";
    let small =
        "load 1 strict (plan 2 1 5)\\n(level (box 1) (box 2))\\n(level (box 1) (box 1))\\n(end)\\n\ndraw 1\nlines 1\n";
    // A plan by hand, after a clear: its numbers are all 0, so that two vertices are refused, and one is not.
    let by_hand =
        "clear 1\npoke 1 k 1\npoke 1 g 1\npoke 1 s 1\npoke 1 size 0 2\npoke 1 vertex 0 box 1\npoke 1 vertex 1 box 1\n\
                   poke 1 stage loaded 2 0\ndraw 1\npoke 1 size 0 1\npoke 1 stage loaded 1 0\ndraw 1\nlines 1\n";
    for way in ["", "poke 1 tangled 0\n", "poke 1 tangled 1\n"] {
        compare(
            [&loads, way, exchanged, small, &loads, way, by_hand]
                .concat()
                .as_bytes(),
        );
    }
}

/// A poke makes a rating what it says, or 1; what is outside 1 to 100 is no text's. Beyond the segments that were loaded it is 0.
#[test]
fn poked_ratings() {
    let plan = "(plan 2 1 5)\\n(level (box 1))\\n(level (box 1) (box 1))\\n";
    let rated = format!("load 1 tangled {plan}(seg 0 1 7)\\n(seg 0 2)\\n(end)\\n\n");
    let bare = format!("load 1 tangled {plan}(end)\\n\npoke 1 stage loaded 3 1\n");
    let ask = "texts 1\ndraw 1\nlines 1\nmarks 1\n";
    let within = ["", " 1", " 2", " 100"];
    let outside = [
        " 0",
        " 101",
        " 255",
        " 256",
        " 257",
        " 65537",
        " 4294967297",
    ];
    let others = [" 18446744073709551615", " -1", " 01", " x", " 2 2", " "];
    for rating in within.into_iter().chain(outside).chain(others) {
        let poke = |i: usize| format!("poke 1 seg {i} 0 {}{rating}\n{ask}", i + 1);
        compare(
            [
                &rated,
                ask,
                &poke(1),
                &poke(0),
                "clear 1\n",
                ask,
                &rated,
                ask,
            ]
            .concat()
            .as_bytes(),
        );
        compare([&bare, ask, &poke(0)].concat().as_bytes());
    }
}

#[test]
fn scripts_of_the_gate() {
    let file = Path::new(env!("CARGO_MANIFEST_DIR")).join("../crates/script/stdin");
    compare(&fs::read(file).expect("a script"));
}

#[test]
fn edges() {
    let edges = [
        "",
        "\n",
        "\n\n",
        "# no command",
        "stage 1",
        "stage 1\n",
        "stage 1\r\n",
        "lines 1\nmarks 1",
        "stage 2",
        "poke 1 size 64 1",
        "walk 1",
        "walk 1 ",
        "walk 1 \\",
        "walk 1 (end)\\n\nwalk 1 (end)\\n",
        "poke 1 seg 0 0 1 ",
        "poke 1 seg 2048 0 1 1",
        "placerun r=0 old= counts= nbrs= dist= ratings=",
        "placerun r=0 old= counts= nbrs= dist= ratings",
        "placerun r=0 old= counts= nbrs= dist= ratings= ratings=",
        "placerun r=1 old=0 counts=1 nbrs=3 dist= ratings=1,",
        "placerun ratings=1,2 r=1 old=0 counts=2 nbrs=3,9 dist=",
    ];
    edges
        .iter()
        .for_each(|commands| compare(commands.as_bytes()));
}

/// A line of so many bytes fills the room of the program `script`.
const LINE_ROOM: usize = 2_097_152;

/// What the program `script` answers.
fn run(commands: &[u8]) -> Vec<u8> {
    let program = Path::new(env!("CARGO_MANIFEST_DIR")).join("../crates/script/out/script");
    let mut child = Command::new(program)
        .stdin(Stdio::piped())
        .stdout(Stdio::piped())
        .spawn()
        .expect("the program script");
    child
        .stdin
        .take()
        .expect("its input")
        .write_all(commands)
        .expect("a script sent");
    child.wait_with_output().expect("its answers").stdout
}

/// A line that fits the room is answered as the reference answers it; a longer one is no command, or a remark that is passed over.
#[test]
fn long_lines_of_the_program() {
    let long = |front: &str, length: usize| {
        [
            front.as_bytes(),
            &vec![b'a'; length - front.len()],
            b"\nstage 1\n",
        ]
        .concat()
    };
    let fronts = ["load 1 strict ", "walk 1 "];
    for front in fronts {
        let room = |text: usize| front.len() + text;
        for length in [room(65_536), room(65_537), 300_000, LINE_ROOM - 1] {
            let commands = long(front, length);
            assert_eq!(run(&commands), script::answers(&commands), "{length}");
        }
    }
    for length in [LINE_ROOM, LINE_ROOM + 1, 2 * LINE_ROOM, 3 * LINE_ROOM + 5] {
        for front in fronts {
            let commands = long(front, length);
            assert_eq!(run(&commands), b"unknown\nok empty\n", "{length}");
        }
        assert_eq!(run(&long("#", length)), b"ok empty\n", "{length}");
    }
}
