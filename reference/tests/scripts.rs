//! Scripts: every NAME.script gives NAME.answers, and some by hand.

use std::fs;
use std::path::{Path, PathBuf};

use reference::script;

fn scripts() -> Vec<PathBuf> {
    let folder = Path::new(env!("CARGO_MANIFEST_DIR")).join("tests/scripts");
    let files = fs::read_dir(folder).expect("the scripts").map(|entry| entry.expect("a file").path());
    files.filter(|file| file.extension().is_some_and(|extension| extension == "script")).collect()
}

#[test]
fn answers_are_those_of_the_vectors() {
    let scripts = scripts();
    assert_eq!(scripts.len(), 167);
    for file in scripts {
        let expected = fs::read(file.with_extension("answers")).expect("answers");
        assert!(script::answers(&fs::read(&file).expect("a script")) == expected, "{}", file.display());
    }
}

/// Checks a script, each command with its answers, as one after the other.
fn answered(lines: &[(&str, &str)]) {
    let script: String = lines.iter().map(|(command, _)| format!("{command}\n")).collect();
    let expected: String = lines.iter().map(|(_, answer)| format!("{answer}\n")).collect();
    assert_eq!(String::from_utf8(script::answers(script.as_bytes())).expect("ASCII"), expected);
}

const CASE_2: &str = "load 1 strict (plan 1 1 1)\\n(level (box 1))\\n(end)\\n";

#[test]
fn every_command() {
    answered(&[
        ("stage 1", "ok empty"),
        ("draw 1", "refused 11"),
        (CASE_2, "ok"),
        ("stage 1", "ok loaded 1 0"),
        ("lines 1", "refused 12"),
        ("marks 1", "refused 12"),
        ("draw 1", "ok"),
        ("stage 1", "ok drawn 1 0 2"),
        ("line 1 2", "ok 18 (place 1 1 (0 0))"),
        ("line 1 2 18", "ok 18 (place 1 1 (0 0))"),
        ("line 1 2 17", "refused 14"),
        ("line 1 2 18446744073709551615", "ok 18 (place 1 1 (0 0))"),
        ("line 1 5 0", "refused 7"),
        (
            "lines 1",
            "ok 14 (drawing 1 2)\nok 13 (at 0 0 0 0)\nok 18 (place 1 1 (0 0))\nok 18 (place 2 1 (0 0))\nok 6 (end)\n\
             refused 7",
        ),
        ("mark 1 0", "ok box 0.0 0 1"),
        ("mark 1 1", "refused 7"),
        ("marks 1", "ok box 0.0 0 1\nrefused 7"),
        ("placerun r=2 old=3,4 counts=2,1 nbrs=2,9,4 dist=6,10,5 left=0 right=30", "ok 6 16"),
        ("placerun r=2 old=3,4 counts=2,1 nbrs=2,9,4 dist=6,10,5 left=0 right=30 answer=1", "refused 8"),
        ("placerun r=0 old= counts= nbrs= dist=", "ok"),
        ("poke 1 pos 0 -3", "ok"),
        ("mark 1 0", "ok box -1.5 0 1"),
        ("text 1 0", "refused 15"),
        ("load 1 tangled (plan 1 1 1)\\n(level (box 1))\\n(end)\\n", "ok"),
        ("text 1 1", "ok 16 (level (box 1))"),
        ("text 1 1 15", "refused 14"),
        ("texts 1", "ok 13 (plan 1 1 1)\nok 16 (level (box 1))\nok 6 (end)\nrefused 7"),
        ("walk 1 (plan 2 1 1)\\n(level (box 1))\\n(level (box 1))\\n(end)\\n", "ok clear 0"),
        ("walk 2 (plan 2 1 1)\\n(level (box 1))\\n(level (box 1))\\n(end)\\n", "refused 7"),
        ("clear 1", "ok"),
        ("texts 1", "refused 11"),
        ("stage 1", "ok empty"),
    ]);
}

#[test]
fn every_poke_reaches_its_entry() {
    let plan = "load 1 strict (plan 2 1 5)\\n(level (box 1) (box 2))\\n(level (box 3))\\n(seg 0 2)\\n(end)\\n";
    answered(&[
        (plan, "ok"),
        ("draw 1", "ok"),
        ("poke 1 pre 1 77", "ok"),
        ("line 1 2", "ok 14 (at 1 77 4 0)"),
        ("poke 1 pos 1 -1099511627776", "ok"),
        ("mark 1 1", "ok box -549755813888.0 0 2"),
        ("poke 1 s 10000", "ok"),
        ("mark 1 2", "ok box -2.0 10000 3"),
        ("poke 1 vertex 2 box 200", "ok"),
        ("mark 1 2", "ok box -2.0 10000 200"),
        ("poke 1 seg 0 1 2", "ok"),
        ("mark 1 3", "ok line -549755813888.0 0 -2.0 10000"),
        ("poke 1 pass 1 3", "ok"),
        ("poke 1 box 1 0 2 -9", "ok"),
        ("line 1 5", "ok 19 (place 3 2 (2 -9))"),
        ("poke 1 level 1 1", "ok"),
        ("line 1 5", "refused 13"),
        ("poke 1 stage drawn 3 1 1", "ok"),
        ("line 1 5", "ok 6 (end)"),
        ("poke 1 g 0", "ok"),
        ("line 1 5", "refused 13"),
        ("poke 1 g 1", "ok"),
        ("poke 1 k 1", "ok"),
        ("poke 1 size 0 3", "ok"),
        ("poke 1 stage loaded 3 0", "ok"),
        ("draw 1", "ok"),
        ("stage 1", "ok drawn 3 0 2"),
        ("poke 1 stage empty", "ok"),
        ("line 1 5", "refused 11"),
    ]);
}

#[test]
fn a_tangled_load_and_what_it_remembers() {
    let plan = "(plan 4 1 5)\\n(level (box 1) (box 2))\\n(level (via) (via))\\n(level (via) (via))\\n(level (box 1) (box 2))\\n\
                (seg 0 2)\\n(seg 1 3)\\n(seg 2 5)\\n(seg 3 4)\\n(seg 4 6)\\n(seg 5 7)\\n(end)\\n";
    answered(&[
        (&format!("load 1 strict {plan}"), "refused 6"),
        ("stage 1", "ok empty"),
        (&format!("load 1 tangled {plan}"), "ok"),
        ("stage 1", "ok loaded 8 6"),
        ("draw 1", "ok"),
        ("line 1 5", "ok 14 (at 4 1 1 10)"),
        ("line 1 6", "ok 16 (at 5 -1 -1 10)"),
        ("mark 1 4", "ok bend -0.5 10"),
        ("mark 1 5", "ok bend 0.5 10"),
        ("poke 1 mem 4 4", "ok"),
        ("line 1 5", "refused 13"),
        ("line 1 99 0", "refused 13"),
        ("mark 1 4", "refused 13"),
        ("draw 1", "refused 13"),
        ("poke 1 mem 5 5", "ok"),
        ("line 1 5", "ok 16 (at 4 -1 -1 10)"),
        ("poke 1 tangled 0", "ok"),
        ("line 1 5", "ok 16 (at 4 -1 -1 10)"),
        ("poke 1 tangled 1", "ok"),
        ("poke 1 mem 8 18446744073709551615", "ok"),
        ("poke 1 mem 1023 5", "ok"),
        ("draw 1", "ok"),
        ("load 1 tangled (end)\\n", "refused 1"),
        ("stage 1", "ok drawn 8 6 4"),
    ]);
}

/// A walk is about no sheet: what is loaded stays, and an empty sheet stays empty.
#[test]
fn walks_along_levels() {
    let cables = |text: &str| {
        let levels = "(level (box 1))\\n(level (via) (via))\\n(level (via) (via))\\n(level (box 1))\\n";
        format!("(plan 4 1 5)\\n{levels}(seg 0 1)\\n(seg 0 2)\\n{text}(seg 3 5)\\n(seg 4 5)\\n(end)\\n")
    };
    let (straight, crossed) = (cables("(seg 1 3)\\n(seg 2 4)\\n"), cables("(seg 1 4)\\n(seg 2 3)\\n"));
    answered(&[
        (&format!("walk 1 {crossed}"), "ok clear 0"),
        (&format!("walk 2 {crossed}"), "ok crossed 2"),
        (&format!("walk 3 {crossed}"), "ok clear 0"),
        (&format!("walk 2 {straight}"), "ok clear 2"),
        (&format!("walk 0 {crossed}"), "refused 7"),
        (&format!("walk 4 {crossed}"), "refused 7"),
        (&format!("walk 18446744073709551615 {crossed}"), "refused 7"),
        (&format!("walk 18446744073709551616 {crossed}"), "unknown"),
        (&format!("walk 02 {crossed}"), "unknown"),
        (&format!("walk -2 {crossed}"), "unknown"),
        (&format!("walk 2  {crossed}"), "refused 1"),
        (&format!("walk 0 {crossed}\\n"), "refused 1"),
        (&format!("walk 0 {}", crossed.replace("(plan 4 1", "(plan 4 0")), "refused 2"),
        (&format!("walk 0 {}", crossed.replace("(seg 4 5)", "(seg 4 4)")), "refused 3"),
        (&format!("walk 0 {}", crossed.replace("(seg 4 5)", "(seg 3 5)")), "refused 4"),
        (&format!("walk 0 {}", crossed.replace("(seg 4 5)\\n", "")), "refused 5"),
        ("stage 1", "ok empty"),
        (CASE_2, "ok"),
        ("draw 1", "ok"),
        (&format!("walk 2 {crossed}"), "ok crossed 2"),
        ("walk 1 (end)\\n", "refused 1"),
        ("stage 1", "ok drawn 1 0 2"),
        ("line 1 1", "ok 13 (at 0 0 0 0)"),
        (&format!("load 1 strict {crossed}"), "refused 6"),
        (&format!("load 1 strict {straight}"), "ok"),
    ]);
}

#[test]
fn other_lines_change_nothing() {
    let lines = [
        "clear",
        "clear 1 ",
        " clear 1",
        "clear  1",
        "clear 1\t",
        "clear 2",
        "clear 0",
        "clear 01",
        "CLEAR 1",
        "load 1 strict",
        "load 1 Strict (end)\\n",
        "load 2 strict (plan 1 1 1)\\n(level (box 1))\\n(end)\\n",
        "load 2 tangled (plan 1 1 1)\\n(level (box 1))\\n(end)\\n",
        "load 1 tangled",
        "load 1 Tangled (plan 1 1 1)\\n(level (box 1))\\n(end)\\n",
        "load 1 tangled (plan 1 1 1)\\n(level (box 1))\\n(end)\\n\\q",
        "load 1 generous (plan 1 1 1)\\n(level (box 1))\\n(end)\\n",
        "load 1 strict (plan 1 1 1)\\n(level (box 1))\\n(end)\\n\\q",
        "line 1 0 1 1",
        "line 1 18446744073709551616",
        "poke 1 stage loaded 1 -1",
        "poke 1 stage empty 1",
        "poke 1 k 18446744073709551616",
        "poke 1 size -1 0",
        "poke 1 size 64 0",
        "poke 1 vertex 0 box",
        "poke 1 vertex 0 box -1",
        "poke 1 vertex 1024 box 1",
        "poke 1 seg 0 0",
        "poke 1 seg 0 0 1 -1",
        "poke 1 seg 0 0 1 01",
        "poke 1 seg 0 0 1 1 1",
        "poke 1 seg 0 0 1 18446744073709551616",
        "poke 1 seg 2048 0 1 1",
        "poke 1 seg 2048 0 1",
        "poke 1 pre 1024 0",
        "poke 1 pos 0 9223372036854775808",
        "poke 1 pass 2048 0",
        "poke 1 box 0 1 0 0",
        "poke 1 box 2 0 0 0",
        "poke 1 box 2048 0 0 0",
        "poke 1 slope none",
        "poke 1 mem 0",
        "poke 1 mem 0 -1",
        "poke 1 mem 0 18446744073709551616",
        "poke 1 mem 1024 0",
        "poke 1 mem -1 0",
        "poke 1 tangled",
        "poke 1 tangled 2",
        "poke 1 tangled 01",
        "poke 1 tangled 1 1",
        "text 1",
        "walk",
        "walk 1",
        "walk 1.5 (plan 2 1 1)\\n(level (box 1))\\n(level (box 1))\\n(end)\\n",
        "walk 1\\t(plan 2 1 1)\\n(level (box 1))\\n(level (box 1))\\n(end)\\n",
        "walk 1 (plan 2 1 1)\\n(level (box 1))\\n(level (box 1))\\n(end)\\n\\q",
        "walk (plan 2 1 1)\\n(level (box 1))\\n(level (box 1))\\n(end)\\n",
        "placerun r=1 old=0 counts=0 nbrs= dist= ratings= ratings=",
        "placerun r=1 old=0 counts=1 nbrs=3 dist= ratings=x",
        "placerun r=1 old=0 counts=1 nbrs=3 dist= ratings=1,",
        "placerun r=1 old=0 counts=1 nbrs=3 dist= ratings=18446744073709551616",
        "placerun r=1 old=0 old=0 counts=0 nbrs= dist=",
        "placerun r=1 old=0, counts=0 nbrs= dist=",
        "placerun r=1 old=0 counts=0 nbrs= dist= left=",
        "placerun r=-1 old=0 counts=0 nbrs= dist=",
        "hide 1 1 1",
    ];
    for line in lines {
        let report = "ok 14 (drawing 1 2)\nok 13 (at 0 0 0 0)\nok 18 (place 1 1 (0 0))\nok 18 (place 2 1 (0 0))\n\
                      ok 6 (end)\nrefused 7";
        answered(&[(CASE_2, "ok"), ("draw 1", "ok"), (line, "unknown"), ("lines 1", report)]);
    }
}

#[test]
fn lines_passed_over_and_the_last_line() {
    assert_eq!(script::answers(b""), b"");
    assert_eq!(script::answers(b"\n\n# draw 1\n#\n"), b"");
    assert_eq!(script::answers(b"stage 1"), b"ok empty\n");
    assert_eq!(script::answers(b"stage 1\n\nstage 1\n"), b"ok empty\nok empty\n");
    assert_eq!(script::answers(b"stage 1\r\n \n\xff\n"), b"unknown\nunknown\nunknown\n");
}

#[test]
fn texts_hold_any_bytes() {
    assert_eq!(script::answers(b"load 1 strict \xff\\x80\\x00 \t\n"), b"refused 1\n");
    assert_eq!(script::answers(b"load 1 strict \n"), b"refused 1\n");
    let spelled = b"load 1 strict \\x28plan 1 1 1)\\x0a(level (box 1))\\x0A(end)\\n\n";
    assert_eq!(script::answers(spelled), b"ok\n");
    assert_eq!(script::answers(&[&b"load 1 strict "[..], &[b' '; 70_000]].concat()), b"refused 1\n");
    assert_eq!(script::answers(b"walk 1 \xff\\x80\\x00 \t\nwalk 1 \n"), b"refused 1\nrefused 1\n");
    assert_eq!(script::answers(b"walk \xff (end)\\n\nwalk 1\xff (end)\\n\n"), b"unknown\nunknown\n");
}
