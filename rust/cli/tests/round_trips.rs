//! What is packed and shown again is the same text, and what is shown and packed again the same
//! bytes: of all examples, and of made-up sheets and bundles.

mod common;

use common::{files, folder, Scratch};
use inputs::{bundles, sheets, Random};
use std::fs;
use zeldrupa::{Bundle, Sheet, WorkArea};
use zeldrupa_cli::text::{bundle_text, is_text, sheet_text, Claim, Names, Text};

/// A sheet's text read back, as bytes; the names with it.
fn packed(work: &mut WorkArea, text: &str) -> (Vec<u8>, Names) {
    assert!(is_text(text.as_bytes()));
    let sheet = Text::read(text.as_bytes()).unwrap().sheet.unwrap();
    let bytes = work.write_sheet(sheet.board, &sheet.tasks, &sheet.links);
    (bytes.unwrap().bytes().to_vec(), sheet.names)
}

/// The same of a bundle.
fn packed_bundle(work: &mut WorkArea, sheet: &Sheet, names: &Names, text: &str) -> Vec<u8> {
    assert!(is_text(text.as_bytes()));
    let bundle = Text::read(text.as_bytes()).unwrap().bundle.unwrap();
    let Claim::At(claim) = bundle.claim else { panic!("shown with its claim") };
    let programmes = bundle.programmes(sheet, names).unwrap();
    work.write_bundle(sheet, &programmes, claim).unwrap().bytes().to_vec()
}

/// Names with characters of all kinds for these tasks, and some without.
fn odd_names(random: &mut Random, tasks: usize) -> Names {
    const PARTS: [&str; 16] =
        ["a", "Z", "_", ".", "-", "->", "#", "\"", "\\", " ", "  ", "7", "&<>'", "ß", "波", "🌊"];
    let mut text = String::from("board processors 1 store 0\n");
    for task in 0..tasks {
        if random.once_in(5) {
            text += &format!("task {task} work 1 store 0\n");
            continue;
        }
        // The number keeps the names apart.
        let parts = (0..random.within(0..=6)).map(|_| random.pick(&PARTS)).collect::<String>();
        let name = format!("{parts}|{task}").replace('\\', "\\\\").replace('"', "\\\"");
        text += &format!("task \"{name}\" work 1 store 0\n");
    }
    Text::read(text.as_bytes()).unwrap().sheet.unwrap().names
}

fn trip(work: &mut WorkArea, random: &mut Random, sheet: &Sheet, bundles: &[Bundle]) {
    let tasks = sheet.tasks().len();
    for names in [Names::none(tasks), odd_names(random, tasks)] {
        let text = sheet_text(sheet, &names);
        let (bytes, names_again) = packed(work, &text);
        assert_eq!(bytes, sheet.bytes(), "{text}");
        assert_eq!(sheet_text(sheet, &names_again), text);
        for bundle in bundles {
            for known in [Some((sheet, &names)), None] {
                let text = bundle_text(bundle, known);
                assert_eq!(
                    packed_bundle(work, sheet, &names_again, &text),
                    bundle.bytes(),
                    "{text}"
                );
            }
        }
    }
}

#[test]
fn made_up_sheets_and_bundles_come_back() {
    let mut random = Random::new(20_260);
    let mut work = WorkArea::new();
    for number in 0..2000 {
        let made = match number % 40 {
            0 => sheets::largest(&mut random),
            _ => sheets::valid(&mut random),
        };
        let sheet = work.read_sheet(&made.encode()).unwrap();
        let mut released = bundles::orderly(&mut random, &made);
        bundles::release(&mut random, &made, &mut released);
        let made_bundles = [
            bundles::loose(&mut random, &made, 40),
            bundles::orderly(&mut random, &made),
            bundles::tangled(&mut random, &made),
            released,
        ];
        let bundles: Vec<Bundle> = made_bundles
            .iter()
            .map(|bundle| work.read_bundle(&sheet, &bundle.encode()).unwrap())
            .collect();
        trip(&mut work, &mut random, &sheet, &bundles);
    }
}

#[test]
fn examples_come_back_through_the_program() {
    let scratch = Scratch::new();
    let folders = ["../../examples", "../../examples/figures", "../../examples/buoy"];
    for path in folders.iter().flat_map(|name| files(&folder(name))) {
        let name = path.to_str().unwrap();
        // The sheets of K8 are refused.
        if !name.ends_with(".sheet") && !name.ends_with(".bundle") || name.contains("k8-") {
            continue;
        }
        let shown = scratch.run(&["show", name], None);
        assert!(shown.status.success(), "{name}");
        fs::write(scratch.path("shown.txt"), &shown.stdout).unwrap();
        let packed = scratch.run(&["pack", "shown.txt", "-o", "-"], None);
        assert_eq!(packed.stdout, fs::read(&path).unwrap(), "{name}");
        let again = scratch.run(&["show", "shown.txt"], None);
        assert_eq!(again.stdout, shown.stdout, "{name}");
    }
}

/// A claim before any programme may have letters for bytes, and is no text all the same.
#[test]
fn a_claim_of_letters_is_a_bundle() {
    let scratch = Scratch::new();
    fs::write(scratch.path("letters"), b"Zabcd").unwrap();
    let shown = scratch.run(&["show", "letters"], None);
    assert_eq!(shown.stdout, b"claim 1684234849\n");
    fs::write(scratch.path("shown.txt"), &shown.stdout).unwrap();
    let packed = scratch.run(&["pack", "shown.txt", "-o", "-"], None);
    assert_eq!(packed.stdout, b"Zabcd");
}

/// The examples' bytes are those of their texts and of their plans.
#[test]
fn texts_are_packed_and_planned() {
    let scratch = Scratch::new();
    for (arguments, file) in [
        (&["pack", "buoy.txt"][..], "buoy.sheet"),
        (&["pack", "buoy-formulas.txt"], "buoy.sheet"),
        (&["plan", "buoy.txt"], "buoy.bundle"),
        (&["pack", "unpacking.txt"], "unpacking.sheet"),
        (&["plan", "unpacking.txt"], "unpacking.bundle"),
        (&["pack", "cube.txt"], "cube.sheet"),
        (&["plan", "cube.txt"], "cube.bundle"),
        (&["pack", "release.txt", "--only", "sheet"], "release.sheet"),
        (&["pack", "release.txt", "--only", "bundle"], "release.bundle"),
        (&["release", "k1.sheet", "k1.bundle"], "k1-released.bundle"),
    ] {
        let output = scratch.run(&[arguments, &["-o", "-"]].concat(), None);
        assert_eq!(output.stdout, fs::read(scratch.path(file)).unwrap(), "{file}");
    }
}

#[test]
fn lines_of_a_megabyte_are_read() {
    let scratch = Scratch::new();
    let long = "x".repeat(1 << 20);
    let cases = [
        (
            format!("board processors 1 store 9 # {long}\ntask a work 1 store 1\n"),
            0,
            "PLAN 1 1\na 0 0 1\n",
        ),
        (format!("board processors 1 store 9\ntask {long} work 1 store 1\n"), 0, "PLAN 1 1\nxxxx"),
        (
            format!("board processors 1 store 9\ntask a work 1{} store 1\n", " ".repeat(1 << 20)),
            0,
            "PLAN",
        ),
        (
            format!("board processors 1 store 9\ntask a work {long} store 1\n"),
            1,
            "long.txt:2:14: \"xxxx",
        ),
        (
            format!("board processors 1 store 9\ntask a work {}1 store 1\n", "0+".repeat(1 << 19)),
            0,
            "PLAN 1 1",
        ),
        (
            format!("board processors 1 store 9\ntask a work {}1 store 1\n", "1+".repeat(1 << 19)),
            1,
            "long.txt:2:13: work is 1 to 65535",
        ),
        (
            format!("board processors 1 store 9\ntask a work {} store 1\n", "(".repeat(1 << 20)),
            1,
            "long.txt:2:45: \"((((",
        ),
        (
            format!("board processors 1 store 9\ntask a work {} store 1\n", "1".repeat(1 << 20)),
            1,
            "long.txt:2:13: work is at most",
        ),
        (format!("{}\n", "word ".repeat(1 << 18)), 1, "long.txt:1:1: expected"),
        (format!("{}\n", "\"".repeat(1 << 20)), 1, "long.txt:1:1: expected"),
        (long, 1, "long.txt:1:1: expected"),
    ];
    for (text, status, start) in cases {
        fs::write(scratch.path("long.txt"), &text).unwrap();
        let output = scratch.run(&["plan", "long.txt"], None);
        let all = String::from_utf8([output.stdout, output.stderr].concat()).unwrap();
        assert_eq!((output.status.code(), &all[..start.len()]), (Some(status), start));
        assert!(status == 0 || all.len() < 1000, "a short message");
    }
}

/// Damaged texts are read or told with a place in them, and nothing panics.
#[test]
fn damaged_texts_are_told() {
    const PIECES: [&str; 14] = [
        "\n",
        " ",
        "#",
        "\"",
        "->",
        "-",
        "9",
        "task ",
        "run ",
        "\\",
        "é",
        "\r\n",
        "claim auto",
        "99999999999",
    ];
    let (mut random, mut work) = (Random::new(11), WorkArea::new());
    for _ in 0..3000 {
        let made = sheets::small(&mut random);
        let sheet = work.read_sheet(&made.encode()).unwrap();
        let bundle = bundles::orderly(&mut random, &made).encode();
        let bundle = work.read_bundle(&sheet, &bundle).unwrap();
        let names = odd_names(&mut random, sheet.tasks().len());
        let text = sheet_text(&sheet, &names) + &bundle_text(&bundle, Some((&sheet, &names)));
        let mut letters: Vec<char> = text.chars().collect();
        for _ in 0..random.within(1..=4) {
            let at = random.below(letters.len() + 1);
            let end = (at + random.below(9)).min(letters.len());
            match random.below(8) {
                0 => letters.truncate(at),
                1..=4 => drop(letters.splice(at..end, random.pick(&PIECES).chars())),
                _ => drop(letters.drain(at..end)),
            }
        }
        let text: String = letters.into_iter().collect();
        let problems = match Text::read(text.as_bytes()) {
            Err(problems) => problems,
            Ok(Text { bundle: Some(bundle), .. }) => {
                bundle.programmes(&sheet, &names).err().unwrap_or_default()
            }
            Ok(_) => continue,
        };
        for problem in problems {
            let line = text.lines().nth(problem.line - 1).unwrap_or_default();
            assert!(problem.column <= line.chars().count() + 1, "{problem:?} in {line:?}");
            assert!((1..300).contains(&problem.told.chars().count()), "{problem:?}");
        }
    }
}
