//! Random scripts, the same for the same seed.
//!
//! A script is answered while it is made, so that its commands know how many lines, marks and entries there are to ask for
//! or to alter. Scripts come with the commands of no request, of E1 (tangled loads, and pokes of what a sheet remembers), of
//! E1 and E2 (also lines of the text as it was read), of E1 to E3 (also walks along a level) or of E1 to E5 (also ratings, in
//! texts, pokes and runs). E4 has none of its own.

use crate::generate::generate;
use crate::pokes::{self, Damage, Pokes};
use crate::random::Random;
use crate::requests::Request;
use crate::script::Script;
use crate::sheet::Stage;
use crate::words::escaped;
use crate::{cables, ratings, run_line, text, walk_lines};

/// Most bytes in the line of a load.
const MOST_IN_LOAD: usize = 200_000;

/// Most bytes in the line of a request for place-run.
const MOST_IN_REQUEST: usize = 2_000;

/// Lines that are no commands.
const UNKNOWN: [&str; 60] = [
    " ",
    "drow 1",
    "Draw 1",
    " draw 1",
    "draw",
    "draw x",
    "draw 1 1",
    "draw 1 ",
    "clear",
    "clear 1 1",
    "stage",
    "stage 1 1",
    "line 1",
    "line 1 x",
    "line 1 -1",
    "line 1 0 -1",
    "line 1 0 99 99",
    "lines",
    "lines 1 0",
    "text 1",
    "text 1 x",
    "text 1 -1",
    "text 1 0 99 99",
    "texts",
    "texts 1 0",
    "mark 1",
    "mark 1 x",
    "mark 1 -1",
    "load",
    "load 1",
    "load 1 loose (end)\\n",
    "load 1 strict \\q",
    "load 1 strict \\x4",
    "load 1 strict (plan 1 1 1)\\",
    "placerun",
    "placerun r=0",
    "placerun r=0 old= counts= nbrs= dist= top=1",
    "placerun r=0 old= counts= nbrs= nbrs= dist=",
    "placerun r=x old= counts= nbrs= dist=",
    "poke",
    "poke 1",
    "poke 1 stage",
    "poke 1 stage full",
    "poke 1 stage loaded 1",
    "poke 1 stage drawn 1 0",
    "poke 1 k",
    "poke 1 k x",
    "poke 1 g 1 1",
    "poke 1 size 64 1",
    "poke 1 vertex 1024 box 1",
    "poke 1 vertex 0 bix 1",
    "poke 1 seg 2048 0 1",
    "poke 1 pre 1024 0",
    "poke 1 pos 0 18446744073709551616",
    "poke 1 pass 2048 1",
    "poke 1 level 2048 1",
    "poke 1 mem 1024 0",
    "poke 1 mem 0 -1",
    "poke 1 tangled",
    "poke 1 tangled 2",
];

/// Commands at the edges of the form.
const EDGES: [&str; 10] = [
    "load 1 strict ",
    "load 1 strict \\x28end)\\n",
    "load 1 strict \\x28plan 1 1 1)\\x0A(level (box 1))\\x0a(end)\\n",
    "line 1 18446744073709551615",
    "mark 1 18446744073709551615",
    "placerun dist= nbrs=3 counts=1 old=0 r=1",
    "placerun r=0 old= counts= nbrs= dist= answer=0",
    "placerun r=2 old=1,2 counts=0,0 nbrs= dist=-1",
    "placerun r=18446744073709551615 old= counts= nbrs= dist= answer=0",
    "poke 1 stage loaded 18446744073709551615 18446744073709551615",
];

/// Lines with ratings that are no commands.
const NO_RATINGS: [&str; 12] = [
    "poke 1 seg 0 0 1 x",
    "poke 1 seg 0 0 1 -1",
    "poke 1 seg 0 0 1 01",
    "poke 1 seg 0 0 1 18446744073709551616",
    "poke 1 seg 0 0 1 1 1",
    "poke 1 seg 0 0 1 ",
    "poke 1 seg 2048 0 1 1",
    "placerun r=1 old=0 counts=1 nbrs=3 dist= ratings=x",
    "placerun r=1 old=0 counts=1 nbrs=3 dist= ratings=1,",
    "placerun r=1 old=0 counts=1 nbrs=3 dist= ratings=1 ratings=1",
    "placerun r=1 old=0 counts=1 nbrs=3 dist= ratings=18446744073709551616",
    "placerun r=1 old=0 counts=1 nbrs=3 dist= rating=1",
];

/// Commands with ratings at the edges of the form, and of refusal 8.
const RATINGS: [&str; 16] = [
    "poke 1 seg 2047 18446744073709551615 0 18446744073709551615",
    "poke 1 seg 2047 0 0 0",
    "placerun ratings=2,3 dist= nbrs=3,8 counts=2 old=0 r=1",
    "placerun r=0 old= counts= nbrs= dist= ratings=",
    "placerun r=0 old= counts= nbrs= dist= ratings=1",
    "placerun r=1 old=0 counts=1 nbrs=3 dist= ratings=",
    "placerun r=1 old=0 counts=1 nbrs=3 dist= ratings=0",
    "placerun r=1 old=0 counts=1 nbrs=3 dist= ratings=1",
    "placerun r=1 old=0 counts=1 nbrs=3 dist= ratings=100",
    "placerun r=1 old=0 counts=1 nbrs=3 dist= ratings=101",
    "placerun r=1 old=0 counts=1 nbrs=3 dist= ratings=1,1",
    "placerun r=1 old=0 counts=1 nbrs=3 dist= ratings=4294967297",
    "placerun r=1 old=0 counts=1 nbrs=3 dist= ratings=18446744073709551615",
    "placerun r=1 old=0 counts=3 nbrs=3,8,9 dist= ratings=1,1,2",
    "placerun r=1 old=0 counts=3 nbrs=-9,-8,3 dist= ratings=2,1,1",
    "placerun r=2 old=0,0 counts=1,1 nbrs=5,5 dist=4 ratings=1,2",
];

/// Commands of later requests, each with the number of its request; until that has landed they are no commands either.
const LATER: [(u32, &str); 14] = [
    (13, "draw 2"),
    (9, "mark 1 1 0"),
    (9, "marks 1 1"),
    (8, "load 1 generous (plan 1 1 1)\\n(level (box 1))\\n(end)\\n"),
    (3, "walk 1 (plan 1 1 1)\\n(level (box 1))\\n(end)\\n"),
    (5, "placerun r=1 old=0 counts=1 nbrs=3 dist= ratings=1"),
    (6, "poke 1 slope none"),
    (5, "poke 1 seg 0 0 1 1"),
    (8, "tidy 1 0"),
    (9, "hide 1 1 1"),
    (10, "exchange 1 0"),
    (10, "preview 1 0 0"),
    (11, "taps 1 0 0,0"),
    (13, "total"),
];

/// So many scripts from a seed on, as one: each starts with a remark that has its seed, and a clear.
pub fn scripts(count: u64, seed: u64) -> String {
    joined(count, seed, script)
}

/// The same with the commands of E1.
pub fn tangled_scripts(count: u64, seed: u64) -> String {
    joined(count, seed, tangled_script)
}

/// The same with the commands of E1 and E2.
pub fn text_scripts(count: u64, seed: u64) -> String {
    joined(count, seed, text_script)
}

/// The same with the commands of E1 to E3.
pub fn walk_scripts(count: u64, seed: u64) -> String {
    joined(count, seed, walk_script)
}

/// The same with the commands of E1 to E5.
pub fn rated_scripts(count: u64, seed: u64) -> String {
    joined(count, seed, rated_script)
}

fn joined(count: u64, seed: u64, script: fn(u64) -> String) -> String {
    let one = |seed: u64| format!("# script {seed}\nclear 1\n{}", script(seed));
    (0..count).map(|i| one(seed.wrapping_add(i))).collect()
}

/// The script of a seed, with the commands of no request.
pub fn script(seed: u64) -> String {
    made(Random::new("script", seed), 0)
}

/// The script of a seed, with the commands of E1.
pub fn tangled_script(seed: u64) -> String {
    made(Random::new("tangled script", seed), 1)
}

/// The script of a seed, with the commands of E1 and E2.
pub fn text_script(seed: u64) -> String {
    made(Random::new("text script", seed), 2)
}

/// The script of a seed, with the commands of E1 to E3.
pub fn walk_script(seed: u64) -> String {
    made(Random::new("walk script", seed), 3)
}

/// The script of a seed, with the commands of E1 to E5.
pub fn rated_script(seed: u64) -> String {
    made(Random::new("rated script", seed), 5)
}

fn made(random: Random, requests: u32) -> String {
    let mut maker = Maker { random, requests, run: Script::new(), text: String::new(), repairs: Vec::new() };
    let pokes = maker.random.once_in(3);
    for _ in 0..maker.random.within(5, 40) {
        if pokes && maker.random.once_in(2) {
            maker.poke();
        } else {
            maker.step();
        }
    }
    maker.say("stage 1");
    maker.say("lines 1");
    maker.say("marks 1");
    if requests >= 2 {
        maker.say("texts 1");
    }
    maker.text
}

/// A script that is being made.
struct Maker {
    random: Random,
    /// How many requests it has the commands of.
    requests: u32,
    /// What the lines so far have done.
    run: Script,
    text: String,
    /// Pokes that take back those before, the latest last.
    repairs: Vec<String>,
}

impl Maker {
    fn say(&mut self, line: &str) {
        self.run.answers(line.as_bytes());
        self.text += line;
        self.text.push('\n');
    }

    /// Any command; seldom one that an empty sheet refuses.
    fn step(&mut self) {
        if self.run.sheet.stage == Stage::Empty && !self.random.once_in(4) {
            return self.load();
        }
        match self.random.below(24) {
            0..=2 => self.load(),
            3..=5 => self.say("draw 1"),
            6 => self.say("stage 1"),
            7 | 8 if self.requests >= 2 => self.text_line(),
            10 | 13 | 18 if self.requests >= 3 => self.walk(),
            7..=10 => self.line(),
            11..=13 => self.mark(),
            14 | 15 => self.ask(),
            16..=18 => self.place_run(),
            19 => self.say("clear 1"),
            20 if self.is_rated() => self.say_one_of(&NO_RATINGS),
            22 if self.is_rated() => self.say_one_of(&RATINGS),
            20 => self.say_one_of(&UNKNOWN),
            21 => self.later(),
            22 => self.say_one_of(&EDGES),
            _ => self.say_one_of(&["", "# a remark", "#draw 1"]),
        }
    }

    /// Whether it is ratings' turn, which is every other time in scripts that have them.
    fn is_rated(&mut self) -> bool {
        self.requests >= 5 && self.random.once_in(2)
    }

    fn say_one_of(&mut self, lines: &[&str]) {
        let line = self.random.pick(lines);
        self.say(line);
    }

    /// A command of a request beyond those that the script has the commands of.
    fn later(&mut self) {
        let beyond = LATER.iter().filter(|(request, _)| *request > self.requests);
        let lines: Vec<&str> = beyond.map(|&(_, line)| line).collect();
        self.say_one_of(&lines);
    }

    /// A text of any kind, drawn at once two times in three.
    fn load(&mut self) {
        let kinds = ["small", "small", "small", "medium", "vias", "vias", "tangled", "damaged", "damaged"];
        let large = ["wide", "deep", "max"];
        if self.requests >= 3 && self.random.once_in(4) {
            let way = self.random.pick(&["strict", "tangled"]);
            let mut draft = cables::draft(&mut self.random, cables::FEW);
            if self.is_rated() {
                ratings::rate(&mut self.random, &mut draft);
            }
            self.load_text(way, &text::write_form(&draft));
        } else if self.requests >= 1 && !self.random.once_in(3) {
            let kinds = ["small", "vias", "tangled", "crossed", "crossed", "crossed", "damaged", "damaged"];
            self.load_one_of("tangled", &kinds, &["wide", "max", "crossed-max"]);
        } else {
            self.load_one_of("strict", &kinds, &large);
        }
        if !self.random.once_in(3) {
            self.say("draw 1");
        }
    }

    fn load_one_of(&mut self, way: &str, kinds: &[&str], large: &[&str]) {
        let kind = if self.random.once_in(50) { self.random.pick(large) } else { self.random.pick(kinds) };
        let kind = if self.is_rated() { format!("rated-{kind}") } else { kind.to_string() };
        let seed = self.random.next();
        self.load_text(way, &generate(&kind, seed).unwrap_or_default());
    }

    fn load_text(&mut self, way: &str, text: &[u8]) {
        let line = format!("load 1 {way} {}", escaped(text));
        if line.len() <= MOST_IN_LOAD {
            self.say(&line);
            self.repairs.clear();
        }
    }

    /// One of the calls that show whether a sheet is as it should be.
    fn ask(&mut self) {
        match self.random.below(if self.requests >= 2 { 7 } else { 5 }) {
            0 => self.say("draw 1"),
            1 => self.say("lines 1"),
            2 => self.say("marks 1"),
            3 => self.line(),
            4 => self.mark(),
            5 => self.say("texts 1"),
            _ => self.text_line(),
        }
    }

    fn line(&mut self) {
        let lines = self.run.sheet.lines().unwrap_or_default();
        self.one_line("line", &lines);
    }

    fn text_line(&mut self) {
        let lines = self.run.sheet.text_lines().unwrap_or_default();
        self.one_line("text", &lines);
    }

    /// One of these lines, at times with a buffer that just holds it or just not.
    fn one_line(&mut self, name: &str, lines: &[Vec<u8>]) {
        let n = self.number_below(lines.len());
        let length = lines.get(n).map_or(20, Vec::len);
        let room = match self.random.below(8) {
            0 => length,
            1 => length - 1,
            2 => length + 1,
            3 => self.random.pick(&[0, 1, 5, 1_421]),
            _ => return self.say(&format!("{name} 1 {n}")),
        };
        self.say(&format!("{name} 1 {n} {room}"));
    }

    fn mark(&mut self) {
        let n = self.number_below(self.run.sheet.marks().unwrap_or_default().len());
        self.say(&format!("mark 1 {n}"));
    }

    fn walk(&mut self) {
        let is_rated = self.is_rated();
        walk_lines::lines(&mut self.random, is_rated).iter().for_each(|line| self.say(line));
    }

    /// A number that one of so many items has, or the next, or seldom any.
    fn number_below(&mut self, count: usize) -> usize {
        if self.random.once_in(8) {
            self.random.pick(&[0, 1, 7, 3_000, usize::MAX])
        } else {
            self.random.below(count + 1)
        }
    }

    fn place_run(&mut self) {
        let request = if self.is_rated() { Request::rated } else { Request::any };
        let line = run_line::line(&request(&mut self.random));
        if line.len() <= MOST_IN_REQUEST {
            self.say(&line);
        }
    }

    /// Damage, small or large, or the repair of all damage that was done; then the sheet is asked.
    fn poke(&mut self) {
        if self.run.sheet.stage == Stage::Empty && self.repairs.is_empty() {
            self.load();
        }
        if !self.repairs.is_empty() && self.random.once_in(2) {
            while let Some(repair) = self.repairs.pop() {
                self.say(&repair);
            }
        } else {
            for _ in 0..self.random.pick(&[1, 1, 1, 2, 5]) {
                self.damage();
            }
        }
        for _ in 0..self.random.below(3) {
            self.ask();
        }
    }

    fn damage(&mut self) {
        let pokes = Pokes { tangled: self.requests >= 1, rated: self.requests >= 5 };
        for Damage { poke, repair } in pokes::damage(&mut self.random, &self.run.sheet, pokes) {
            self.say(&poke);
            self.repairs.push(repair);
        }
    }
}

#[cfg(test)]
mod tests {
    use super::*;
    use crate::script;

    /// How many requests there are the commands of.
    const LANDED: u32 = 5;

    #[test]
    fn lines_that_are_no_commands() {
        let later = LATER.iter().filter(|(request, _)| *request > LANDED).map(|(_, line)| line);
        for line in UNKNOWN.iter().chain(&NO_RATINGS).chain(later) {
            assert_eq!(Script::new().answers(line.as_bytes()), ["unknown"], "{line}");
        }
    }

    #[test]
    fn commands_at_the_edges_of_the_form() {
        for line in EDGES.iter().chain(&RATINGS) {
            assert_ne!(Script::new().answers(line.as_bytes()), ["unknown"], "{line}");
        }
    }

    #[test]
    fn damage_is_repaired() {
        for seed in 0..600 {
            let random = &mut Random::new("damage", seed);
            let mut run = Script::new();
            let text = generate(if seed % 3 == 0 { "crossed" } else { "rated-crossed" }, seed).expect("a kind");
            run.sheet.load_tangled(&text).expect("a plan that may be tangled");
            run.sheet.draw().expect("a plan");
            let before = run.sheet.clone();
            let damage = pokes::damage(random, &run.sheet, Pokes { tangled: seed % 2 == 0, rated: seed % 3 > 0 });
            for Damage { poke, .. } in &damage {
                assert_eq!(run.answers(poke.as_bytes()), ["ok"], "{poke}");
            }
            for Damage { repair, .. } in damage.iter().rev() {
                assert_eq!(run.answers(repair.as_bytes()), ["ok"], "{repair}");
            }
            // A poke without a rating makes it 1, also beyond the segments, where it was 0.
            let segments = segments_in_use(&run.sheet);
            run.sheet.plan.ratings[segments..].copy_from_slice(&before.plan.ratings[segments..]);
            assert!(run.sheet == before, "{seed}");
        }
    }

    fn segments_in_use(sheet: &crate::sheet::Sheet) -> usize {
        match sheet.stage {
            Stage::Empty => 0,
            Stage::Loaded { segments, .. } | Stage::Drawn { segments, .. } => segments as usize,
        }
    }

    /// Damage that adds a box is none as a whole, and not less is needed.
    #[test]
    fn a_plan_that_grows_is_drawn() {
        let mut run = Script::new();
        run.sheet.load(&generate("vias", 1).expect("a kind")).expect("an acceptable plan");
        let damage = pokes::grow(&run.sheet);
        for Damage { poke, .. } in &damage {
            assert_eq!(run.answers(poke.as_bytes()), ["ok"], "{poke}");
        }
        assert_eq!(run.sheet.clone().draw(), Ok(()));
        for Damage { repair, .. } in damage.iter().rev().skip(1) {
            let mut other = run.clone();
            other.answers(repair.as_bytes());
            assert_eq!(other.sheet.draw(), Err(crate::refusal::NO_PLAN), "{repair}");
        }
    }

    #[test]
    fn scripts_meet_every_answer() {
        let numbers = [1, 2, 3, 4, 5, 6, 7, 8, 11, 12, 13, 14, 15];
        meet_every_answer(&scripts(300, 0), &numbers[..12]);
        meet_every_answer(&tangled_scripts(300, 0), &numbers[..12]);
        meet_every_answer(&text_scripts(300, 0), &numbers);
        meet_every_answer(&walk_scripts(300, 0), &numbers);
        meet_every_answer(&rated_scripts(300, 0), &numbers);
    }

    fn meet_every_answer(script: &str, numbers: &[u32]) {
        let answers = script::answers(script.as_bytes());
        let answers = String::from_utf8(answers).expect("ASCII");
        for number in numbers {
            let refused = format!("refused {number}");
            assert!(answers.lines().any(|line| line == refused), "{number}");
        }
        for start in ["ok", "unknown", "ok empty", "ok loaded ", "ok drawn ", "ok box ", "ok bend ", "ok line "] {
            assert!(answers.lines().any(|line| line.starts_with(start)), "{start}");
        }
    }

    /// What commands with that start are answered in scripts.
    fn answers_to(start: &str, scripts: &str) -> Vec<String> {
        let mut run = Script::new();
        let answered = scripts.lines().flat_map(|line| {
            let answers = run.answers(line.as_bytes());
            if line.starts_with(start) {
                answers
            } else {
                Vec::new()
            }
        });
        answered.collect()
    }

    #[test]
    fn tangled_loads_in_scripts_are_refused_with_1_to_5_only() {
        let answers = answers_to("load 1 tangled ", &tangled_scripts(300, 0));
        let count = |answer: &str| answers.iter().filter(|given| *given == answer).count();
        assert!(count("ok") > 500, "{}", count("ok"));
        let refused = [1, 2, 3, 4, 5].map(|number| count(&format!("refused {number}")));
        assert!(refused.iter().all(|&count| count > 10), "{refused:?}");
        assert_eq!(count("ok") + refused.iter().sum::<usize>(), answers.len());
    }

    #[test]
    fn lines_of_the_text_in_scripts() {
        for without in [scripts(300, 0), tangled_scripts(300, 0)] {
            assert_eq!(answers_to("text", &without).iter().find(|answer| *answer != "unknown"), None);
        }
        let answers = answers_to("text", &text_scripts(300, 0));
        let met = |start: &str| answers.iter().filter(|answer| answer.starts_with(start)).count();
        let counts = ["ok ", "refused 7", "refused 11", "refused 13", "refused 14", "refused 15", "unknown"].map(met);
        assert!(counts.iter().all(|&count| count > 10), "{counts:?}");
        assert_eq!(counts.iter().sum::<usize>(), answers.len());
    }

    /// Without E3 there is one walk among the commands of later requests, of a plan with one level.
    #[test]
    fn walks_in_scripts() {
        for without in [scripts(300, 0), tangled_scripts(300, 0), text_scripts(300, 0)] {
            assert_eq!(answers_to("walk", &without).iter().find(|answer| *answer != "refused 7"), None);
        }
        let answers = answers_to("walk", &walk_scripts(300, 0));
        let met = |start: &str| answers.iter().filter(|answer| answer.starts_with(start)).count();
        let others = ["refused 1", "refused 2", "refused 3", "refused 4", "refused 5", "refused 7", "unknown"];
        let counts = [["ok clear ", "ok crossed "].map(met).to_vec(), others.map(met).to_vec()].concat();
        assert!(counts.iter().all(|&count| count > 5), "{counts:?}");
        assert_eq!(counts.iter().sum::<usize>(), answers.len());
    }

    #[test]
    fn scripts_with_and_without_pokes_of_what_is_remembered() {
        let (without, with) = (scripts(300, 0), tangled_scripts(300, 0));
        for start in ["load 1 tangled ", "poke 1 mem ", "poke 1 tangled "] {
            let done = |scripts| answers_to(start, scripts).iter().filter(|answer| *answer == "ok").count();
            let (without, with) = (done(&without), done(&with));
            assert!(without == 0 && with > 20, "{start}: {without} and {with}");
        }
    }

    /// Without E5 there are one run with a rating and one poke of a rating among the commands of later requests.
    #[test]
    fn ratings_in_scripts() {
        let rated_loads = |scripts: &str| {
            let loads = scripts.lines().filter_map(|line| line.strip_prefix("load 1 ")?.split_once(' '));
            let texts = loads.filter_map(|(_, text)| text::read_form(&crate::words::unescaped(text.as_bytes())?));
            texts.filter(|draft| draft.segments.iter().any(|segment| segment.written.is_some())).count()
        };
        let runs = |scripts: &str| scripts.lines().filter(|line| line.contains(" ratings=")).count();
        let pokes = |scripts: &str| {
            let pokes = scripts.lines().filter(|line| line.starts_with("poke 1 seg ") && line.split(' ').count() == 7);
            pokes.count()
        };
        let others = |scripts: &str, line: &str| scripts.lines().filter(|other| *other == line).count();
        for without in [scripts(300, 0), tangled_scripts(300, 0), text_scripts(300, 0), walk_scripts(300, 0)] {
            let run = others(&without, "placerun r=1 old=0 counts=1 nbrs=3 dist= ratings=1");
            let poke = others(&without, "poke 1 seg 0 0 1 1");
            assert_eq!((runs(&without), pokes(&without)), (run, poke));
            assert!(rated_loads(&without) < 10, "{}", rated_loads(&without));
        }
        let with = rated_scripts(300, 0);
        let counts = [rated_loads(&with), runs(&with), pokes(&with)];
        assert!(counts.iter().all(|&count| count > 200), "{counts:?}");
        let answers = answers_to("placerun", &with);
        assert!(["ok ", "refused 8", "unknown"].iter().all(|start| answers.iter().any(|line| line.starts_with(start))));
    }
}
