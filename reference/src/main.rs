//! The commands; each reads a plan text or a script from standard input, except those that make such.

use std::fs;
use std::io::{self, Read, Write};
use std::path::{Path, PathBuf};
use std::process::ExitCode;

use reference::random::Random;
use reference::requests::{self, Request};
use reference::{check, generate, names, passes, picture, readings, report, script, scripts, text};

const USAGE: &str = "\
reference report < PLAN          the report, or (refused N)
reference report tangled < PLAN  the same for a plan that may be tangled, loaded by the second way
reference picture [NAMES] < PLAN the SVG document with the names in the file, or the line that refuses
reference steps < PLAN           how many half steps all joins of the draw take; 0 if refused
reference check [REPORT] < PLAN  judges the report, its own or that in the file: ok or (refused N), or each
                                 promise that fails
reference gen KIND SEED          a random plan text
reference vectors DIR            compares the report of every NAME.plan with NAME.report
reference requests COUNT         cases 3 to 7, E4's and E5's, and random requests for place-run, COUNT of any sort, as many
                                 with boxes between feeds and as many with ratings, a line each
reference outcomes COUNT         what place-run answers to them, a line each
reference inputs DIR COUNT       plan texts, each after a line with its length: those at the edges of the checks, all plans
                                 in the folder, COUNT random ones of each kind
reference reports DIR COUNT      their reports, one after another
reference script < SCRIPT        the answer to each command, a line each
reference scripts COUNT SEED     COUNT random scripts from that seed on, as one, each after a remark with its seed
reference scripts COUNT SEED tangled
                                 the same with tangled loads, and pokes of what a sheet remembers
reference scripts COUNT SEED text
                                 the same with lines of the text besides
reference scripts COUNT SEED walk
                                 the same with walks along a level besides
reference scripts COUNT SEED rated
                                 the same with ratings besides
reference answers DIR START      compares the answers to every NAME.script whose name starts so with NAME.answers
KIND: small medium wide deep vias max tangled crossed crossed-max damaged, or one of these after rated-
";

/// Most characters in the line of a request that is listed.
const MOST_IN_LINE: usize = 300;

fn main() -> ExitCode {
    let arguments: Vec<String> = std::env::args_os().skip(1).map(|word| word.to_string_lossy().into_owned()).collect();
    let words: Vec<&str> = arguments.iter().map(String::as_str).collect();
    match run(&words) {
        Ok(true) => ExitCode::SUCCESS,
        Ok(false) => ExitCode::FAILURE,
        Err(error) => {
            // Where even this cannot be written, the exit code has to do.
            let _ = writeln!(io::stderr(), "reference: {error}");
            ExitCode::from(2)
        }
    }
}

/// Does what the words say; false if a drawing was judged and found wanting.
fn run(words: &[&str]) -> io::Result<bool> {
    match words {
        ["report"] => print(&report::answer(&input()?)),
        ["report", "tangled"] => print(&report::answer_tangled(&input()?)),
        ["picture"] => print(&picture::answer(&input()?, b"")),
        ["picture", names] => print(&picture::answer(&input()?, &start(fs::File::open(names)?, names::MAX_BYTES + 1)?)),
        ["steps"] => print(format!("{}\n", steps(&input()?)).as_bytes()),
        ["check"] => check(None),
        ["check", file] => check(Some(&fs::read(file)?)),
        ["gen", kind, seed] => print(&random_text(kind, number(seed)?)?),
        ["vectors", folder] => vectors(Path::new(folder)),
        ["requests", count] => print(lines(number(count)?, |q| q.to_string()).as_bytes()),
        ["outcomes", count] => print(lines(number(count)?, Request::outcome_line).as_bytes()),
        ["inputs", folder, count] => print(&of_every_kind(folder, count, readings::with_length)?),
        ["reports", folder, count] => print(&of_every_kind(folder, count, report::answer)?),
        ["script"] => print(&script::answers(&whole_input()?)),
        ["scripts", count, seed] => print(scripts::scripts(number(count)?, number(seed)?).as_bytes()),
        ["scripts", count, seed, "tangled"] => {
            print(scripts::tangled_scripts(number(count)?, number(seed)?).as_bytes())
        }
        ["scripts", count, seed, "text"] => print(scripts::text_scripts(number(count)?, number(seed)?).as_bytes()),
        ["scripts", count, seed, "walk"] => print(scripts::walk_scripts(number(count)?, number(seed)?).as_bytes()),
        ["scripts", count, seed, "rated"] => print(scripts::rated_scripts(number(count)?, number(seed)?).as_bytes()),
        ["answers", folder, start] => answers(Path::new(folder), start),
        _ => Err(wrong(USAGE)),
    }
}

fn wrong(message: &str) -> io::Error {
    io::Error::new(io::ErrorKind::InvalidInput, message.trim_end().to_string())
}

fn number(word: &str) -> io::Result<u64> {
    word.parse().map_err(|_| wrong("not a number"))
}

/// Standard input; of a text that is too long, one byte more than the limit.
fn input() -> io::Result<Vec<u8>> {
    let mut stdin = io::stdin().lock();
    let bytes = start(&mut stdin, text::MAX_BYTES + 1)?;
    io::copy(&mut stdin, &mut io::sink())?;
    Ok(bytes)
}

/// The first bytes, at most so many.
fn start(source: impl Read, most: usize) -> io::Result<Vec<u8>> {
    let mut bytes = Vec::with_capacity(most);
    source.take(most as u64).read_to_end(&mut bytes)?;
    Ok(bytes)
}

fn whole_input() -> io::Result<Vec<u8>> {
    let mut bytes = Vec::new();
    io::stdin().lock().read_to_end(&mut bytes)?;
    Ok(bytes)
}

fn print(bytes: &[u8]) -> io::Result<bool> {
    let mut out = io::stdout().lock();
    out.write_all(bytes)?;
    out.flush()?;
    Ok(true)
}

fn steps(bytes: &[u8]) -> u64 {
    text::read(bytes).map_or(0, |plan| passes::draw_and_count(&plan).1)
}

fn check(report: Option<&[u8]>) -> io::Result<bool> {
    let text = input()?;
    let own = report::answer(&text);
    let failures = judge(&text, report.unwrap_or(&own));
    if !failures.is_empty() {
        return print(failures.as_bytes()).map(|_| false);
    }
    match text::read(&text) {
        Ok(_) => print(b"ok\n"),
        Err(number) => print(&report::refused(number)),
    }
}

/// The promises that a report of this text breaks, one on each line. Of a refused text there is only its refusal.
fn judge(text: &[u8], report: &[u8]) -> String {
    let plan = match text::read(text) {
        Ok(plan) => plan,
        Err(number) if report == report::refused(number) => return String::new(),
        Err(number) => return format!("made: the text is refused with {number}\n"),
    };
    match report::read(&plan, report) {
        Some(drawing) => check::judge(&plan, &drawing).iter().map(|failure| format!("{failure}\n")).collect(),
        None => "made: not a report of this plan\n".to_string(),
    }
}

fn random_text(kind: &str, seed: u64) -> io::Result<Vec<u8>> {
    generate::generate(kind, seed).ok_or_else(|| wrong("no such kind"))
}

/// What is to be said of cases 3 to 7, E4's and E5's, and of random requests for place-run, those with short lines: `count` of any sort,
/// as many with boxes between feeds, and as many with ratings.
fn lines(count: u64, say: impl Fn(&Request) -> String) -> String {
    let count = usize::try_from(count).unwrap_or(0);
    let short = |name: &'static str, request: fn(&mut Random) -> Request| {
        let random = (0..).map(move |seed| request(&mut Random::new(name, seed)));
        random.filter(|q| q.to_string().len() <= MOST_IN_LINE).take(count)
    };
    let unrated = short("request", Request::any).chain(short("feeds", Request::between_feeds));
    let random = unrated.chain(short("rated", Request::rated));
    requests::cases().into_iter().chain(random).map(|q| say(&q) + "\n").collect()
}

/// What is to be said of plan texts: those at the edges of the checks, all in a folder, and random ones of each kind.
fn of_every_kind(folder: &str, count: &str, say: impl Fn(&[u8]) -> Vec<u8>) -> io::Result<Vec<u8>> {
    let texts = readings::of_every_kind(texts_in(folder)?, number(count)?);
    Ok(texts.iter().flat_map(|text| say(text)).collect())
}

/// The plan texts in a folder, by name.
fn texts_in(folder: &str) -> io::Result<Vec<Vec<u8>>> {
    files(Path::new(folder), "plan")?.iter().map(fs::read).collect()
}

/// The files NAME.`extension` in a folder, by name.
fn files(folder: &Path, extension: &str) -> io::Result<Vec<PathBuf>> {
    let all: Vec<PathBuf> = fs::read_dir(folder)?.map(|entry| Ok(entry?.path())).collect::<io::Result<_>>()?;
    let mut files: Vec<PathBuf> = all.into_iter().filter(|file| file.extension() == Some(extension.as_ref())).collect();
    files.sort();
    Ok(files)
}

/// Whether all reports in a folder are those of the plans beside them; names those that are not.
fn vectors(folder: &Path) -> io::Result<bool> {
    compare(&files(folder, "plan")?, "report", report::answer)
}

/// Whether all answers in a folder are those to the scripts beside them, of those scripts whose names start so.
fn answers(folder: &Path, start: &str) -> io::Result<bool> {
    let mut scripts = files(folder, "script")?;
    scripts.retain(|script| script.file_name().is_some_and(|name| name.to_string_lossy().starts_with(start)));
    compare(&scripts, "answers", script::answers)
}

/// Whether the file with that extension beside each file holds what is to be said of it; names those where it does not.
fn compare(files: &[PathBuf], extension: &str, say: impl Fn(&[u8]) -> Vec<u8>) -> io::Result<bool> {
    let mut result = String::new();
    let mut differ = 0;
    for file in files {
        let expected = fs::read(file.with_extension(extension))?;
        if say(&fs::read(file)?) != expected {
            result += &format!("{} differs\n", file.display());
            differ += 1;
        }
    }
    result += &format!("{} of {} agree\n", files.len() - differ, files.len());
    print(result.as_bytes()).map(|_| differ == 0)
}
