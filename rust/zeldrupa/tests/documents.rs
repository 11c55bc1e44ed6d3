//! What docs/FORMAT.md and the header say of the formats is what the library reads and writes.

use std::fs;
use zeldrupa::{Board, Command, Link, Task, WorkArea};

/// A file of the repository.
fn file(name: &str) -> String {
    let path = format!("{}/../../{name}", env!("CARGO_MANIFEST_DIR"));
    fs::read_to_string(path).unwrap()
}

fn bytes(name: &str) -> Vec<u8> {
    fs::read(format!("{}/../../{name}", env!("CARGO_MANIFEST_DIR"))).unwrap()
}

/// The hexadecimal bytes at the front of each line of a listing in docs/FORMAT.md.
fn annotated(page: &str, title: &str) -> Vec<u8> {
    let behind = page.split_once(&format!("```text\n{title}\n")).expect("the listing is there").1;
    let lines = behind.lines().take_while(|line| *line != "```");
    lines
        .flat_map(|line| {
            // An offset, the bytes, and behind two spaces what they say.
            let (_, rest) = line.split_once("  ").expect("an offset");
            let bytes = rest.split("  ").next().unwrap_or_default();
            bytes.split(' ').map(|byte| u8::from_str_radix(byte, 16).unwrap()).collect::<Vec<_>>()
        })
        .collect()
}

#[test]
fn the_annotated_bytes_are_k1() {
    let page = file("docs/FORMAT.md");
    assert_eq!(annotated(&page, "sheet"), bytes("examples/k1.sheet"));
    assert_eq!(annotated(&page, "bundle"), bytes("examples/k1.bundle"));
}

/// A number of four digits or more as docs/ write it.
fn told(number: usize) -> String {
    format!("{},{:03}", number / 1000, number % 1000)
}

/// The most tasks, links and programmes with unpacking on a cube, and every link between two processors:
/// the longest sheet, and the longest bundle that is accepted, with all its releases.
#[test]
fn the_longest_files_are_as_long_as_is_said() {
    let mut work = WorkArea::new();
    let board = Board { unpacking: 65_535, cube: true, ..Board::new(16, u32::MAX) };
    let tasks = [Task { work: 65_535, store: 0 }; 256];
    let links: Vec<Link> = (0..1024)
        .map(|number| {
            let (source, target) = ((number / 8) as u8, (128 + (number / 8 + number) % 128) as u8);
            Link { source, target, cost: 65_535, bytes: 0 }
        })
        .collect();
    let sheet = work.write_sheet(board, &tasks, &links).unwrap();
    let mut programmes = vec![Vec::new(); 16];
    for task in 0..=255u8 {
        let programme = &mut programmes[usize::from(task / 16)];
        let numbered = || (0..).zip(&links);
        let into = numbered().filter(|(_, link)| link.target == task);
        programme.extend(into.map(|(number, _)| Command::Receive(number)));
        programme.push(Command::Run(task));
        let out_of = numbered().filter(|(_, link)| link.source == task);
        programme.extend(out_of.map(|(number, _)| Command::Send(number)));
    }
    let bundle = work.write_bundle(&sheet, &programmes, 0).unwrap();
    let claim = work.check(&sheet, &bundle).unwrap_err();
    assert_eq!(claim.number(), 30);
    let bundle = work.write_bundle(&sheet, &programmes, claim.place() as u32).unwrap();
    let without = bundle.bytes().len();
    let bundle = work.release(&sheet, &bundle).unwrap();
    work.check(&sheet, &bundle).unwrap();

    let (header, page) = (file("include/zeldrupa.h"), file("docs/FORMAT.md"));
    // A line of a listing has at most 29 bytes, and there is one line more than tasks.
    let listing = 29 * 257;
    assert!(work.listing(&sheet).len() <= listing);
    for (what, length) in
        [("SHEET", sheet.bytes().len()), ("BUNDLE", bundle.bytes().len()), ("LISTING", listing)]
    {
        let define = format!("#define ZELDRUPA_LONGEST_{what} {length}\n");
        assert!(header.contains(&define), "{define}");
        let told = told(length);
        assert!(page.contains(&format!("| {told} | `ZELDRUPA_LONGEST_{what}` |")), "{told}");
    }
    assert!(page.contains(&format!("without releases {}", told(without))));
}

/// What docs/NOTATION.md copies from the definitions and the code stands there, line by line.
#[test]
fn the_copied_definitions_are_there() {
    let page = file("docs/NOTATION.md");
    let sources = [
        "zeldrupa/src/lib.rt",
        "zeldrupa/specs/Promises.antt",
        "checker/specs/Checker.antt",
        "folds/specs/Answers.antt",
    ];
    let sources = sources.map(|name| file(&format!("crates/{name}"))).concat();
    let blocks = page.split("```text\n").skip(1).filter_map(|rest| rest.split_once("```"));
    for line in blocks.flat_map(|(block, _)| block.lines()).filter(|line| !line.is_empty()) {
        assert!(sources.lines().any(|source| source == line), "{line}");
    }
}
