//! The program itself: what it prints, its exit codes, and that bad input never makes it panic.

use std::io::Write;
use std::process::{Command, Output, Stdio};
use std::{env, fs, process};

use reference::{picture, report};

const CASE_1: &[u8] = include_bytes!("vectors/case-1.plan");
const CASE_1_REPORT: &[u8] = include_bytes!("vectors/case-1.report");

/// Exit codes: all well, a promise broken, a wrong request.
const WELL: i32 = 0;
const BROKEN: i32 = 1;
const WRONG: i32 = 2;

fn run(words: &[&str], input: &[u8]) -> (i32, Vec<u8>) {
    let mut program = Command::new(env!("CARGO_BIN_EXE_reference"));
    let pipes = program.args(words).stdin(Stdio::piped()).stdout(Stdio::piped()).stderr(Stdio::piped());
    let mut child = pipes.spawn().expect("the program starts");
    // A request that reads no input may be over before all of it is written.
    let _ = child.stdin.take().expect("a pipe").write_all(input);
    let Output { status, stdout, stderr } = child.wait_with_output().expect("the program ends");
    assert!(!String::from_utf8_lossy(&stderr).contains("panicked"), "{words:?}");
    (status.code().expect("an exit code"), stdout)
}

fn prints(words: &[&str], input: &[u8], output: &[u8]) {
    let (code, printed) = run(words, input);
    assert_eq!((code, String::from_utf8_lossy(&printed)), (WELL, String::from_utf8_lossy(output)), "{words:?}");
}

#[test]
fn an_accepted_plan() {
    prints(&["report"], CASE_1, CASE_1_REPORT);
    prints(&["check"], CASE_1, b"ok\n");
    prints(&["steps"], CASE_1, b"3\n");
}

/// In case 1 boxes 0 and 1 start pass 2 on level 1 at -5 and 8, and have taken on a distance of 16. Here, two boxes over
/// one neighbour: both want to stand there, and have to move 8 half steps apart.
#[test]
fn steps_are_those_of_the_joins() {
    let text = b"(plan 2 2 1)\n(level (box 1) (box 1))\n(level (box 1))\n(seg 0 2)\n(seg 1 2)\n(end)\n";
    prints(&["steps"], text, b"8\n");
}

#[test]
fn a_refused_text() {
    for command in ["report", "check"] {
        prints(&[command], b"(plan 1 101 1)\n(level (box 1))\n(end)\n", b"(refused 2)\n");
        prints(&[command], b"", b"(refused 1)\n");
        prints(&[command], &[0xff; 100_000], b"(refused 1)\n");
    }
    prints(&["steps"], b"", b"0\n");
}

#[test]
fn a_tangled_plan() {
    let crossed = b"(plan 4 1 1)\n(level (box 1))\n(level (via) (via))\n(level (via) (via))\n(level (box 1))\n\
        (seg 0 1)\n(seg 0 2)\n(seg 1 4)\n(seg 2 3)\n(seg 3 5)\n(seg 4 5)\n(end)\n";
    prints(&["report"], crossed, b"(refused 6)\n");
    prints(&["report", "tangled"], crossed, &report::answer_tangled(crossed));
    assert!(report::answer_tangled(crossed).starts_with(b"(drawing 6 4)\n"));
    prints(&["report", "tangled"], CASE_1, CASE_1_REPORT);
    prints(&["report", "tangled"], b"", b"(refused 1)\n");
    prints(&["report", "tangled"], &[b'('; 100_000], b"(refused 1)\n");
}

#[test]
fn a_picture_with_names() {
    let file = env::temp_dir().join(format!("reference-{}.names", process::id()));
    let name = file.to_str().expect("a name");
    prints(&["picture"], CASE_1, &picture::answer(CASE_1, b""));
    fs::write(&file, b"0 start battery\n").expect("a file");
    prints(&["picture", name], CASE_1, &picture::answer(CASE_1, b"0 start battery\n"));
    prints(&["picture", name], b"", b"(refused 1)\n");
    fs::write(&file, b"0 start battery\n0 \xff").expect("a file");
    prints(&["picture", name], CASE_1, b"(names refused at line 2)\n");
    fs::write(&file, [b'x'; 100_000]).expect("a file");
    prints(&["picture", name], CASE_1, b"(names refused at line 0)\n");
    fs::remove_file(&file).expect("the file");
}

#[test]
fn reports_from_a_file_are_judged() {
    let file = env::temp_dir().join(format!("reference-{}.report", process::id()));
    let name = file.to_str().expect("a name");
    let judged = |report: &[u8], plan: &[u8]| {
        fs::write(&file, report).expect("a file");
        let (code, printed) = run(&["check", name], plan);
        (code, String::from_utf8(printed).expect("ASCII"))
    };
    assert_eq!(judged(CASE_1_REPORT, CASE_1), (WELL, "ok\n".to_string()));
    let changed = String::from_utf8_lossy(CASE_1_REPORT).replace("8 11 0)", "8 -5 0)").replace("(1 11)", "(1 -5)");
    let (code, printed) = judged(changed.as_bytes(), CASE_1);
    assert_eq!(code, BROKEN);
    let promises: Vec<&str> = printed.lines().filter_map(|line| line.split(':').next()).collect();
    assert_eq!(promises, ["made", "order", "optimal"]);
    for other in [&b""[..], b"(refused 1)\n", b"(drawing 5 6)\n", &[0xff; 9], &CASE_1_REPORT[..CASE_1_REPORT.len() - 1]]
    {
        assert_eq!(judged(other, CASE_1), (BROKEN, "made: not a report of this plan\n".to_string()));
    }
    assert_eq!(judged(b"(refused 1)\n", b""), (WELL, "(refused 1)\n".to_string()));
    assert_eq!(judged(b"(refused 2)\n", b""), (BROKEN, "made: the text is refused with 1\n".to_string()));
    fs::remove_file(&file).expect("the file");
}

#[test]
fn random_texts() {
    for kind in reference::generate::KINDS {
        let (code, text) = run(&["gen", kind, "7"], b"");
        assert_eq!((code, Some(&text)), (WELL, reference::generate::generate(kind, 7).as_ref()));
        let (code, printed) = run(&["report"], &text);
        assert_eq!((code, printed), (WELL, report::answer(&text)));
    }
}

#[test]
fn vectors_are_compared() {
    let folder = env::temp_dir().join(format!("reference-{}.vectors", process::id()));
    fs::create_dir_all(&folder).expect("a folder");
    fs::write(folder.join("a.plan"), CASE_1).expect("a file");
    fs::write(folder.join("a.report"), CASE_1_REPORT).expect("a file");
    let name = folder.to_str().expect("a name");
    prints(&["vectors", name], b"", b"1 of 1 agree\n");
    fs::write(folder.join("a.report"), b"(refused 1)\n").expect("a file");
    assert_eq!(run(&["vectors", name], b"").0, BROKEN);
    fs::remove_file(folder.join("a.report")).expect("the file");
    assert_eq!(run(&["vectors", name], b"").0, WRONG);
    fs::remove_dir_all(&folder).expect("the folder");
}

#[test]
fn texts_and_their_reports() {
    let folder = env::temp_dir().join(format!("reference-{}.texts", process::id()));
    fs::create_dir_all(&folder).expect("a folder");
    fs::write(folder.join("a.plan"), CASE_1).expect("a file");
    fs::write(folder.join("b.plan"), [b' '; 3_000]).expect("a file");
    let name = folder.to_str().expect("a name");
    let (code, inputs) = run(&["inputs", name, "0"], b"");
    assert_eq!((code, inputs.ends_with(&[b"122\n", CASE_1, b"3000\n", &[b' '; 3_000]].concat())), (WELL, true));
    let (code, reports) = run(&["reports", name, "0"], b"");
    assert_eq!((code, reports.ends_with(&[CASE_1_REPORT, b"(refused 1)\n"].concat())), (WELL, true));
    fs::remove_dir_all(&folder).expect("the folder");
}

#[test]
fn scripts_and_their_answers() {
    prints(&["script"], b"stage 1\n", b"ok empty\n");
    let (code, scripts) = run(&["scripts", "3", "7"], b"");
    assert_eq!((code, String::from_utf8_lossy(&scripts)), (WELL, reference::scripts::scripts(3, 7).into()));
    let (code, tangled) = run(&["scripts", "3", "7", "tangled"], b"");
    assert_eq!((code, String::from_utf8_lossy(&tangled)), (WELL, reference::scripts::tangled_scripts(3, 7).into()));
    let (code, walks) = run(&["scripts", "3", "7", "walk"], b"");
    assert_eq!((code, String::from_utf8_lossy(&walks)), (WELL, reference::scripts::walk_scripts(3, 7).into()));
    let (code, rated) = run(&["scripts", "3", "7", "rated"], b"");
    assert_eq!((code, String::from_utf8_lossy(&rated)), (WELL, reference::scripts::rated_scripts(3, 7).into()));
    let starts: Vec<&[u8]> =
        scripts.split(|&byte| byte == b'\n').filter(|line| line.starts_with(b"# script ")).collect();
    assert_eq!(starts, [b"# script 7", b"# script 8", b"# script 9"]);
    let folder = env::temp_dir().join(format!("reference-{}.scripts", process::id()));
    fs::create_dir_all(&folder).expect("a folder");
    for name in ["a-1", "b-1"] {
        fs::write(folder.join(name).with_extension("script"), b"stage 1\n").expect("a file");
        fs::write(folder.join(name).with_extension("answers"), b"ok empty\n").expect("a file");
    }
    let name = folder.to_str().expect("a name");
    prints(&["answers", name, "a"], b"", b"1 of 1 agree\n");
    prints(&["answers", name, ""], b"", b"2 of 2 agree\n");
    fs::write(folder.join("b-1.answers"), b"ok\n").expect("a file");
    prints(&["answers", name, "a"], b"", b"1 of 1 agree\n");
    assert_eq!(run(&["answers", name, "b"], b"").0, BROKEN);
    fs::remove_dir_all(&folder).expect("the folder");
}

/// After the cases so many requests of any sort, between feeds and with ratings, each with its outcome.
#[test]
fn requests_and_their_outcomes() {
    let cases = reference::requests::cases().len();
    for count in [0, 1, 9] {
        let (code, requests) = run(&["requests", &count.to_string()], b"");
        let (_, outcomes) = run(&["outcomes", &count.to_string()], b"");
        let lines = |bytes: &[u8]| bytes.iter().filter(|&&byte| byte == b'\n').count();
        assert_eq!((code, lines(&requests), lines(&outcomes)), (WELL, cases + 3 * count, cases + 3 * count));
    }
}

#[test]
fn wrong_requests() {
    let wrong: [&[&str]; 30] = [
        &[],
        &[""],
        &["draw"],
        &["report", "x"],
        &["report", "Tangled"],
        &["report", "tangled", "x"],
        &["gen"],
        &["gen", "small"],
        &["gen", "small", "x"],
        &["gen", "small", "-1"],
        &["gen", "small", ""],
        &["gen", "small", "99999999999999999999999999"],
        &["gen", "large", "1"],
        &["gen", "rated", "1"],
        &["requests"],
        &["gen", "small", "1", "2"],
        &["vectors"],
        &["vectors", "no such folder"],
        &["inputs", ".", "x"],
        &["inputs", "."],
        &["reports", "no such folder", "1"],
        &["check", "no such file"],
        &["picture", "no such file"],
        &["picture", "a", "b"],
        &["script", "x"],
        &["scripts", "1"],
        &["scripts", "1", "x"],
        &["scripts", "1", "1", "x"],
        &["answers", "."],
        &["answers", "no such folder", "e"],
    ];
    for words in wrong {
        let (code, printed) = run(words, CASE_1);
        assert_eq!((code, printed), (WRONG, vec![]), "{words:?}");
    }
}
