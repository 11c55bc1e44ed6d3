//! The fixed length of work areas and states: what the library says is what the header and docs/ say.

use std::fs;
use zeldrupa::raw::{self, Answer};

/// A file of the repository.
fn file(name: &str) -> String {
    let path = format!("{}/../../{name}", env!("CARGO_MANIFEST_DIR"));
    fs::read_to_string(path).unwrap()
}

/// A number as docs/ write it, with a comma before each three digits.
fn with_commas(number: usize) -> String {
    match number < 1000 {
        true => number.to_string(),
        false => format!("{},{:03}", with_commas(number / 1000), number % 1000),
    }
}

/// What every function answers to a work area, or a state, without a word.
fn answers_to_none() -> [Answer; 20] {
    let none: &mut [u32] = &mut [];
    let long: &mut [u32] = &mut vec![0; raw::work_length()];
    [
        raw::read_sheet(&[], none, &mut [], &mut [], &mut [0; 6]),
        raw::write_sheet(1, 0, 0, 0, &[], &[], none, &mut []),
        raw::levels(&[], none, &mut []),
        raw::plan(&[], none, &mut []),
        raw::least(&[], none, &mut []),
        raw::listing(&[], none, &mut []),
        raw::read_bundle(&[], &[], none, &mut [], &mut 0),
        raw::write_bundle(&[], &[], 0, none, &mut []),
        raw::check(&[], &[], none),
        raw::release(&[], &[], none, &mut []),
        raw::drift(&[], &[], none, &mut []),
        raw::better(&[], &[], &[], none).0,
        raw::start(&[], &[], none, long),
        raw::start(&[], &[], long, none),
        raw::run(&[], &[], &[], none, long),
        raw::run(&[], &[], &[], long, none),
        raw::step(&[], &[], none, 0),
        raw::left(&[], none),
        raw::processor(&[], none, 0, &mut [0; 3]),
        raw::stamp(none, 0),
    ]
}

#[test]
fn every_function_says_the_same_length() {
    assert_eq!(answers_to_none(), [(13, raw::work_length() as u64); 20]);
}

#[test]
fn header_and_documents_have_the_length() {
    let words = raw::work_length();
    let define = format!("#define ZELDRUPA_WORK_LENGTH {words}\n");
    assert!(file("include/zeldrupa.h").contains(&define), "{define}");
    let (words, bytes) = (with_commas(words), with_commas(4 * words));
    for (name, sentence) in [
        ("docs/INTERFACE.md", format!("at least **{words} words** ({bytes} bytes)")),
        ("docs/INTERFACE.md", format!("refused with 13, whose place is {words},")),
        ("docs/DECISIONS.md", format!("\n**{words} words**")),
    ] {
        assert!(file(name).contains(&sentence), "{name}: {sentence}");
    }
}
