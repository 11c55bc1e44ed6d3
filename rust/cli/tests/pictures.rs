//! The pictures are well-formed: every tag closed in order, every attribute quoted, no bare `<` or `&`.

mod common;

use common::{files, folder, Scratch};
use inputs::{bundles, sheets, Random};
use std::fs;

/// The names of all tags in a document, which is well-formed.
fn tags(text: &str) -> Vec<String> {
    let mut open: Vec<&str> = Vec::new();
    let mut tags = Vec::new();
    let mut rest = text;
    while let Some(at) = rest.find('<') {
        characters(&rest[..at]);
        let end = tag_end(&rest[at..]) + at;
        let tag = &rest[at + 1..end];
        rest = &rest[end + 1..];
        if let Some(name) = tag.strip_prefix('/') {
            assert_eq!(open.pop(), Some(name));
            continue;
        }
        let (inner, closed) = match tag.strip_suffix('/') {
            Some(inner) => (inner, true),
            None => (tag, false),
        };
        let (name, attributes) = inner.split_once(' ').unwrap_or((inner, ""));
        assert!(!name.is_empty() && name.chars().all(char::is_alphanumeric), "{tag}");
        quoted(attributes);
        assert!(tags.is_empty() || !open.is_empty(), "one tag holds all");
        tags.push(name.to_string());
        if !closed {
            open.push(name);
        }
    }
    assert!(open.is_empty() && rest.trim().is_empty());
    tags
}

/// Where a tag ends, which is not inside quotes.
fn tag_end(text: &str) -> usize {
    let mut quotes = false;
    let end = text.char_indices().find(|&(_, c)| {
        quotes ^= c == '"';
        c == '>' && !quotes
    });
    end.expect("the tag ends").0
}

/// Attributes: name="value", with one space between.
fn quoted(attributes: &str) {
    let mut rest = attributes.trim();
    let mut seen = Vec::new();
    while !rest.is_empty() {
        let (name, behind) = rest.split_once("=\"").expect("a value in quotes");
        assert!(name.chars().all(|c| c.is_alphanumeric() || c == '-' || c == ':'), "{name}");
        assert!(!seen.contains(&name), "{name} twice");
        seen.push(name);
        let (value, behind) = behind.split_once('"').expect("the quotes are closed");
        characters(value);
        assert!(!value.contains("NaN") && !value.contains("inf"), "{name}={value}");
        rest = behind.trim_start();
    }
}

/// Text in which every `&` begins an entity and no character is forbidden in XML.
fn characters(text: &str) {
    assert!(!text.contains(']') || !text.contains("]]>"));
    for (at, c) in text.char_indices() {
        assert!(!c.is_control() || c == '\n', "{c:?}");
        if c == '&' {
            let entities = ["&amp;", "&lt;", "&gt;", "&quot;"];
            assert!(entities.iter().any(|entity| text[at..].starts_with(entity)), "{text}");
        }
    }
}

fn drawn(scratch: &Scratch, arguments: &[&str]) -> (Vec<String>, i32) {
    let output = scratch.run(&[&["gantt", "-o", "-"], arguments].concat(), None);
    let text = String::from_utf8(output.stdout).unwrap();
    (tags(&text), output.status.code().unwrap())
}

fn count(tags: &[String], name: &str) -> usize {
    tags.iter().filter(|tag| *tag == name).count()
}

#[test]
fn the_parser_finds_faults() {
    assert_eq!(tags("<a b=\"1>2\"><c/>x &lt;</a>\n"), ["a", "c"]);
    for wrong in [
        "<a>",
        "<a></b>",
        "<a b=1></a>",
        "<a>&</a>",
        "<a></a><b/>",
        "<a b=\"1\" b=\"2\"/>",
        "x",
        "<a><b></a></b>",
    ] {
        assert!(std::panic::catch_unwind(|| tags(wrong)).is_err(), "{wrong}");
    }
}

#[test]
fn examples_are_well_formed() {
    let scratch = Scratch::new();
    let (buoy, status) = drawn(&scratch, &["buoy.txt"]);
    assert_eq!((status, count(&buoy, "svg")), (0, 1));
    assert!(count(&buoy, "rect") >= 14 && count(&buoy, "text") >= 14);
    let (stuck, status) = drawn(&scratch, &["stuck.txt"]);
    assert_eq!((status, count(&stuck, "circle")), (1, 2));
    let (odd, status) = drawn(&scratch, &["odd.txt"]);
    assert_eq!(status, 0);
    assert!(count(&odd, "rect") >= 8);
    // A ring for each time at which a processor gives store back, and one in the legend.
    let (released, status) = drawn(&scratch, &["release.txt"]);
    assert_eq!((status, count(&released, "circle")), (0, 5));
    assert_eq!(drawn(&scratch, &["k1.sheet", "k7.bundle"]).1, 1);
    assert_eq!(drawn(&scratch, &["bare.sheet"]).1, 0);
    assert_eq!(drawn(&scratch, &["bare.sheet", "bare-empty.txt"]).1, 0);
    assert_eq!(drawn(&scratch, &["bare.sheet", "bare-claim.txt"]).1, 1);
    for path in files(&folder("../../examples/figures")) {
        if path.extension().is_some_and(|kind| kind == "sheet") {
            assert_eq!(drawn(&scratch, &[path.to_str().unwrap()]).1, 0);
        }
    }
}

#[test]
fn stored_pictures_are_those_that_are_drawn() {
    let scratch = Scratch::new();
    for (bundle, picture) in
        [("buoy.bundle", "buoy"), ("buoy-hand.txt", "buoy-hand"), ("buoy-stuck.txt", "buoy-stuck")]
    {
        let drawn = scratch.run(&["gantt", "buoy.txt", bundle, "-o", "-"], None).stdout;
        let stored = fs::read(scratch.path(&format!("{picture}.svg"))).unwrap();
        assert!(drawn == stored, "{picture}.svg");
    }
}

/// Also in the terminal no picture of a made-up bundle fails, and none is wider than it may be.
#[test]
fn made_up_bundles_are_drawn() {
    let (scratch, mut random) = (Scratch::new(), Random::new(7));
    for _ in 0..60 {
        let mut sheet = sheets::valid(&mut random);
        sheet.limit = u32::MAX;
        fs::write(scratch.path("s"), sheet.encode()).unwrap();
        let mut bundle = bundles::tangled(&mut random, &sheet);
        if random.once_in(2) {
            bundles::release(&mut random, &sheet, &mut bundle);
        }
        fs::write(scratch.path("b"), bundle.encode()).unwrap();
        let (_, status) = drawn(&scratch, &["s", "b"]);
        let output = scratch.run(&["gantt", "s", "b", "--width", "72"], None);
        assert_eq!(output.status.code(), Some(status));
        let text = String::from_utf8(output.stdout).unwrap();
        let chart = text.lines().take_while(|line| !line.starts_with("Each"));
        assert!(chart.skip(1).all(|line| line.chars().count() <= 84), "{text}");
    }
}
