//! Pictures: each is a well-formed document, holds each mark once, and shows all of them.

use std::collections::HashSet;
use std::{fs, str};

use reference::generate::generate;
use reference::marks::{marks, Mark};
use reference::picture::{self, Fault};
use reference::random::Random;
use reference::{passes, text};

/// An element of a document: its name and attributes, and how many elements it stands in.
struct Element {
    name: String,
    attributes: Vec<(String, String)>,
    depth: usize,
}

impl Element {
    fn number(&self, key: &str) -> f64 {
        let value = self.attributes.iter().find(|(name, _)| name == key).map(|(_, value)| value);
        value.expect("the attribute").parse().expect("a number")
    }
}

/// The elements of a well-formed document in their order; panics at what is not well formed. Knows what pictures have: elements,
/// attributes in double quotes, characters and the three escapes.
fn elements(document: &str) -> Vec<Element> {
    let mut open: Vec<&str> = Vec::new();
    let mut all = Vec::new();
    let mut rest = document;
    while let Some((characters, markup)) = rest.split_once('<') {
        assert!(!open.is_empty() || characters.trim().is_empty(), "characters outside the document");
        check_characters(characters);
        let (tag, after) = markup.split_once('>').expect("a tag ends");
        rest = after;
        if let Some(name) = tag.strip_prefix('/') {
            assert_eq!(open.pop(), Some(name));
            continue;
        }
        assert!(all.is_empty() || !open.is_empty(), "one root");
        let (tag, is_empty) = tag.strip_suffix('/').map_or((tag, false), |tag| (tag, true));
        let (name, attributes) = tag.split_once(' ').unwrap_or((tag, ""));
        let is_name = !name.is_empty() && name.bytes().all(|byte| byte.is_ascii_alphanumeric());
        assert!(is_name, "{name:?}");
        all.push(Element { name: name.to_string(), attributes: pairs(attributes), depth: open.len() });
        if !is_empty {
            open.push(name);
        }
    }
    assert!(open.is_empty() && rest.trim().is_empty());
    all
}

/// `KEY="VALUE"`, with a space between two; no key twice.
fn pairs(mut attributes: &str) -> Vec<(String, String)> {
    let mut all: Vec<(String, String)> = Vec::new();
    while !attributes.is_empty() {
        let (key, after) = attributes.split_once("=\"").expect("an attribute");
        let (value, after) = after.split_once('"').expect("a quote closes");
        assert!(key.bytes().all(|byte| byte.is_ascii_alphanumeric() || byte == b'-'), "{key:?}");
        assert!(all.iter().all(|(other, _)| other != key), "{key} twice");
        check_characters(value);
        all.push((key.to_string(), value.to_string()));
        attributes = if after.is_empty() { after } else { after.strip_prefix(' ').expect("a space") };
    }
    all
}

fn check_characters(characters: &str) {
    let escaped = |part: &str| ["amp;", "lt;", "gt;"].iter().any(|escape| part.starts_with(escape));
    assert!(characters.split('&').skip(1).all(escaped), "{characters:?}");
    let allowed = |c: char| c == '\n' || (c >= ' ' && c != '\u{fffe}' && c != '\u{ffff}');
    assert!(characters.chars().all(allowed) && !characters.contains("]]>"), "{characters:?}");
}

/// Random names for some of a plan's boxes, in any order.
fn random_names(plan_text: &[u8], random: &mut Random) -> Vec<u8> {
    const WORDS: [&str; 12] =
        ["pump", "a", "<&>", "Kühlbox", "漁船", "electronics", "x]]>y", "\"'", "…", "𝛑", "&amp;", "uninterruptible"];
    let plan = text::read(plan_text).expect("an acceptable plan");
    let mut boxes: Vec<usize> = (0..plan.vertices()).filter(|&v| !plan.is_via(v)).collect();
    let mut lines = String::new();
    while !boxes.is_empty() {
        let v = boxes.swap_remove(random.below(boxes.len()));
        if random.below(4) > 0 {
            let words: Vec<&str> = (0..1 + random.below(5)).map(|_| random.pick(&WORDS)).collect();
            lines += &format!("{v} {}\n", words.join(" "));
        }
    }
    lines.into_bytes()
}

/// Looks at the picture of an acceptable plan; gives how many boxes it has.
fn look(plan_text: &[u8], names: &[u8]) -> usize {
    let document = picture::picture(plan_text, names).expect("a picture");
    let all = elements(str::from_utf8(&document).expect("UTF-8"));
    let named = |name: &'static str| all.iter().filter(move |element| element.name == name);
    assert!(all[0].name == "svg" && all[0].depth == 0);
    let (_, frame) = all[0].attributes.iter().find(|(key, _)| key == "viewBox").expect("a viewBox");
    let frame: Vec<f64> = frame.split(' ').map(|number| number.parse().expect("a number")).collect();
    let inside = |x: f64, y: f64| frame[0] < x && x < frame[0] + frame[2] && frame[1] < y && y < frame[1] + frame[3];
    let plan = text::read(plan_text).expect("an acceptable plan");
    let (mut lines, mut bends, mut boxes) = (named("line"), named("circle"), named("rect"));
    for mark in marks(&plan, &passes::draw(&plan)) {
        match mark {
            Mark::Line(p, q) => {
                let line = lines.next().expect("a line");
                assert_eq!(["x1", "y1", "x2", "y2"].map(|key| line.number(key)), [p.x, p.y, q.x, q.y]);
            }
            Mark::Bend(p) => {
                let bend = bends.next().expect("a bend");
                assert_eq!([bend.number("cx"), bend.number("cy")], [p.x, p.y]);
                assert!(inside(p.x, p.y));
            }
            Mark::Box(p, half_width) => {
                let shape = boxes.next().expect("a box");
                let [x, y, width, height] = ["x", "y", "width", "height"].map(|key| shape.number(key));
                assert_eq!([x, width], [p.x - half_width, 2.0 * half_width]);
                assert!((y + height / 2.0 - p.y).abs() < 1e-6);
                assert!(height < plan.draft().spacing as f64, "boxes of two levels touch");
                assert!(inside(x, y) && inside(x + width, y + height));
            }
        }
    }
    assert!(lines.next().is_none() && bends.next().is_none() && boxes.next().is_none());
    let ids: Vec<&String> =
        all.iter().flat_map(|e| &e.attributes).filter(|(key, _)| key == "id").map(|(_, id)| id).collect();
    let different: HashSet<&String> = ids.iter().copied().collect();
    assert_eq!((ids.len(), different.len()), (plan.vertices(), plan.vertices()));
    assert!(named("text").all(|element| element.number("font-size") > 0.0));
    named("rect").count()
}

#[test]
fn well_formed_and_whole() {
    let mut random = Random::new("names", 1);
    for kind in ["small", "medium", "wide", "deep", "vias", "max", "rated-medium", "rated-vias"] {
        for seed in 0..if kind == "small" { 300 } else { 12 } {
            let plan_text = generate(kind, seed).expect("a kind");
            let names = random_names(&plan_text, &mut random);
            assert_eq!(look(&plan_text, &names), look(&plan_text, b""), "{kind} {seed}");
        }
    }
}

#[test]
fn the_example() {
    let read = |name: &str| fs::read(format!("../{name}")).expect("a file");
    let (plan_text, names) = (read("examples/boat.plan"), read("examples/boat.names"));
    assert_eq!(look(&plan_text, &names), 29);
    assert!(picture::answer(&plan_text, &names) == read("docs/boat.svg"), "docs/boat.svg is another picture");
}

/// Any bytes: an answer, and the plan's refusal before that of its names.
#[test]
fn damaged_texts() {
    let mut random = Random::new("damaged names", 1);
    let mut counts = [0; 3];
    for seed in 0..2_000 {
        let plan_text = generate(if seed % 2 == 0 { "damaged" } else { "small" }, seed).expect("a kind");
        let mut names = b"0 a\n1 b c\n2 \xc3\xa9\n".to_vec();
        let at = random.below(names.len());
        names[at] = random.below(256) as u8;
        match picture::picture(&plan_text, &names) {
            Err(Fault::Plan(number)) => {
                assert_eq!(text::read(&plan_text), Err(number));
                counts[0] += 1;
            }
            Err(Fault::Names(line)) => {
                assert!((1..=4).contains(&line) && text::read(&plan_text).is_ok());
                counts[1] += 1;
            }
            Ok(document) => {
                elements(str::from_utf8(&document).expect("UTF-8"));
                counts[2] += 1;
            }
        }
    }
    assert!(counts.iter().all(|&count| count > 100), "{counts:?}");
}
