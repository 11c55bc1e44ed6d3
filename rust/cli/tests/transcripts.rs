//! Stored runs of the program: after each `$ zeldrupa ..` what it printed, lines of standard error
//! behind `! `, and the exit status. `ZELDRUPA_STORE=1` stores them anew.

mod common;

use common::{files, folder, Scratch};
use std::fs;

/// A command and what came of it, as a transcript has it.
fn told(scratch: &Scratch, command: &str) -> String {
    let mut words: Vec<&str> = command.split_whitespace().skip(1).collect();
    let input = words.iter().position(|word| *word == "<").map(|at| {
        let path = scratch.path(words[at + 1]);
        words.truncate(at);
        path
    });
    let output = scratch.run(&words, input.as_deref());
    let mut text = format!("$ {command}\n");
    text += &String::from_utf8(output.stdout).unwrap();
    for line in String::from_utf8(output.stderr).unwrap().lines() {
        text += format!("! {line}").trim_end();
        text.push('\n');
    }
    text + &format!("status {}\n\n", output.status.code().unwrap())
}

#[test]
fn runs_print_what_is_stored() {
    let store = std::env::var_os("ZELDRUPA_STORE").is_some();
    let transcripts = files(&folder("tests/transcripts"));
    assert!(transcripts.len() >= 10);
    for path in transcripts {
        let stored = fs::read_to_string(&path).unwrap();
        let scratch = Scratch::new();
        let commands = stored.lines().filter_map(|line| line.strip_prefix("$ "));
        let text: String = commands.map(|command| told(&scratch, command)).collect();
        let text = text.trim_end().to_string() + "\n";
        if store {
            fs::write(&path, text).unwrap();
        } else {
            let name = path.display();
            assert!(text == stored, "{name}: now it prints\n{text}");
        }
    }
}

/// A page's blocks that begin with a command show what it prints.
#[test]
fn pages_show_what_is_printed() {
    for page in ["README.md", "docs/FITTER.md", "examples/buoy/README.md"] {
        let text = fs::read_to_string(folder("../..").join(page)).unwrap();
        let scratch = Scratch::new();
        let blocks = text.split("```text\n").skip(1).filter_map(|rest| rest.split_once("\n```"));
        let blocks = blocks.filter(|(block, _)| block.starts_with("$ zeldrupa"));
        let mut count = 0;
        for (block, _) in blocks {
            let commands = block.lines().filter_map(|line| line.strip_prefix("$ "));
            let mut shown = String::new();
            for command in commands {
                let words: Vec<&str> = command.split_whitespace().skip(1).collect();
                let output = scratch.run(&words, None);
                let printed = [output.stdout, output.stderr].concat();
                shown += &format!("$ {command}\n{}", String::from_utf8(printed).unwrap());
            }
            assert_eq!(block, shown.trim_end(), "{page}");
            count += 1;
        }
        assert!(count > 0, "{page}");
    }
}

/// No command prints a line that ends with a space, and every command has a transcript.
#[test]
fn transcripts_are_tidy_and_whole() {
    let all: String = files(&folder("tests/transcripts"))
        .iter()
        .map(|path| fs::read_to_string(path).unwrap())
        .collect();
    for line in all.lines() {
        assert_eq!(line, line.trim_end());
    }
    for name in [
        "plan", "least", "check", "better", "release", "drift", "list", "run", "gantt", "levels",
        "weight", "compare", "pack", "show", "generate",
    ] {
        for what in [format!("$ zeldrupa {name} --help"), format!("$ zeldrupa {name}\n")] {
            assert!(all.contains(&what), "{what}");
        }
    }
}
