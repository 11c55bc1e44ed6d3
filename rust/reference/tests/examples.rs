//! The files in the examples folder and those of the program `trials` are what the maker writes, and
//! the examples' page names each.

use reference::trials;
use std::collections::BTreeSet;
use std::fs;
use std::path::PathBuf;

fn root() -> PathBuf {
    PathBuf::from(env!("CARGO_MANIFEST_DIR")).join("../..")
}

fn folder() -> PathBuf {
    root().join("examples")
}

/// The file is stored with these bytes.
fn stored(path: PathBuf, bytes: &[u8]) {
    let name = path.display();
    let file = fs::read(&path).unwrap_or_else(|error| panic!("{name}: {error}"));
    assert!(file == bytes, "{name} differs: run make-examples");
}

/// The names of the files in a folder of the examples, which stands before each.
fn names(inner: &str) -> Vec<String> {
    let entries = fs::read_dir(folder().join(inner)).unwrap().map(Result::unwrap);
    let files = entries.filter(|entry| entry.file_type().unwrap().is_file());
    let names = files.map(|entry| inner.to_string() + entry.file_name().to_str().unwrap());
    names.filter(|name| name != "README.md").collect()
}

#[test]
fn files_are_what_the_maker_writes() {
    for (name, bytes) in trials::files() {
        stored(folder().join(name), &bytes);
    }
    for (name, bytes) in trials::program_files() {
        stored(root().join("crates/trials").join(name), &bytes);
    }
}

/// The program reads no more than its buffer holds.
#[test]
fn trials_fit_the_program() {
    assert!(trials::records().len() <= 16_384);
}

#[test]
fn page_names_each_file() {
    let page = fs::read_to_string(folder().join("README.md")).unwrap();
    let made: BTreeSet<String> = trials::files().into_iter().map(|(name, _)| name).collect();
    let found = BTreeSet::from_iter(names("").into_iter().chain(names("figures/")));
    assert_eq!(made, found);
    for name in made {
        assert!(page.contains(&format!("`{name}`")), "README.md does not name {name}");
    }
}
