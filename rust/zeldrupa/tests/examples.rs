//! The example files through the types of this crate.

use std::collections::BTreeMap;
use std::fs;
use zeldrupa::{raw, About, Board, Load, Refusal, Sheet, Subject, WorkArea};

/// The example files by name, the figures among them.
fn files() -> BTreeMap<String, Vec<u8>> {
    let root = concat!(env!("CARGO_MANIFEST_DIR"), "/../../examples");
    let folders = [root.to_string(), format!("{root}/figures")];
    let entries = folders.iter().flat_map(|folder| fs::read_dir(folder).unwrap());
    let paths = entries.map(|entry| entry.unwrap().path()).filter(|path| path.is_file());
    paths
        .map(|path| (path.file_name().unwrap().to_str().unwrap().into(), fs::read(&path).unwrap()))
        .collect()
}

fn number_and_place<T>(answer: Result<T, Refusal>) -> Option<(u8, u64)> {
    answer.err().map(|refusal| (refusal.number(), refusal.place()))
}

fn valid_sheets(work: &mut WorkArea) -> Vec<(String, Sheet)> {
    let files = files().into_iter().filter(|(name, _)| name.ends_with(".sheet"));
    let sheets = files.filter_map(|(name, bytes)| Some((name, work.read_sheet(&bytes).ok()?)));
    sheets.collect()
}

#[test]
fn what_is_written_is_what_was_read() {
    let mut work = WorkArea::new();
    let sheets = valid_sheets(&mut work);
    assert!(sheets.len() >= 20);
    for (name, sheet) in sheets {
        let again = work.write_sheet(sheet.board(), sheet.tasks(), sheet.links());
        assert_eq!(again.as_ref(), Ok(&sheet), "{name}");
        let Ok(bundle) = work.plan(&sheet) else { continue };
        let again = work.write_bundle(&sheet, bundle.programmes(), bundle.claim());
        assert_eq!(again.as_ref(), Ok(&bundle), "{name}");
    }
}

#[test]
fn plans_are_accepted_and_run_to_their_claims() {
    let (mut work, files) = (WorkArea::new(), files());
    for (name, sheet) in valid_sheets(&mut work) {
        let Ok(bundle) = work.plan(&sheet) else {
            let task = if name == "release.sheet" { 3 } else { 4 };
            assert_eq!(work.listing(&sheet), format!("REFUSED 11 {task}\n"), "{name}");
            continue;
        };
        // The bundles of K5, K6 and the figure are by hand.
        let planned = ["k1", "k2", "k3", "k4", "bare", "free-link", "unpacking", "cube"];
        if planned.iter().any(|trial| name.starts_with(trial)) {
            assert_eq!(bundle.bytes(), files[&name.replace(".sheet", ".bundle")], "{name}");
        }
        assert_eq!(work.check(&sheet, &bundle), Ok(()), "{name}");
        let mut machine = work.start(&sheet, &bundle).unwrap();
        machine.run_out();
        assert_eq!((machine.left(), machine.latest_clock()), (0, bundle.claim()), "{name}");
    }
}

#[test]
fn refusals_have_number_place_and_word() {
    let (mut work, files) = (WorkArea::new(), files());
    let k1 = &files["k1.sheet"];
    let loops = work.read_sheet(&files["k8-circle.sheet"]).unwrap_err();
    assert_eq!((loops.number(), loops.place(), loops.word()), (10, 1, "loop"));
    assert_eq!(number_and_place(work.read_sheet(&k1[..47])), Some((1, 47)));
    let claim = work.check(k1, &files["k7.bundle"]).unwrap_err();
    assert_eq!(claim.to_string(), "refused: wrong claim (30), place 5");
    assert_eq!(number_and_place(work.check(k1, [])), Some((21, 0)));
    let sheet = work.read_sheet(k1).unwrap();
    assert_eq!(number_and_place(work.read_bundle(&sheet, &[0x50, 1])), Some((23, 0)));
    let seventeen = vec![Vec::new(); 17];
    assert_eq!(number_and_place(work.write_bundle(&sheet, &seventeen, 0)), Some((23, 6)));
}

/// C-13: a board with no jobs yet is read, written, levelled, planned, listed, checked and started.
#[test]
fn a_bare_board_is_whole() {
    let (mut work, files) = (WorkArea::new(), files());
    let sheet = work.read_sheet(&files["bare.sheet"]).unwrap();
    assert_eq!(sheet.board(), Board::new(3, 100));
    assert!(sheet.tasks().is_empty() && sheet.links().is_empty());
    assert_eq!(work.write_sheet(Board::new(3, 100), &[], &[]).as_ref(), Ok(&sheet));
    assert_eq!(work.levels(&sheet), Ok(Vec::new()));
    assert_eq!(work.listing(&sheet), "PLAN 0 0\n");
    for programmes in 0..=3 {
        let programmes = vec![Vec::new(); programmes];
        let bundle = work.write_bundle(&sheet, &programmes, 0).unwrap();
        assert_eq!(work.read_bundle(&sheet, bundle.bytes()).as_ref(), Ok(&bundle));
        assert_eq!(work.check(&sheet, &bundle), Ok(()));
        let late = work.write_bundle(&sheet, &programmes, 1).unwrap();
        assert_eq!(number_and_place(work.check(&sheet, &late)), Some((30, 0)));
        for bundle in [&bundle, &late] {
            let mut machine = work.start(&sheet, bundle).unwrap();
            assert!((0..4).all(|k| !machine.step(k)) && !machine.step(u64::MAX));
            assert_eq!(machine.processors().count(), programmes.len());
            assert_eq!((machine.left(), machine.latest_clock(), machine.stamp(0)), (0, 0, None));
            assert_eq!(machine.run(&mut work, &[0, 1, 255]), 0);
        }
    }
    let four = vec![Vec::new(); 4];
    assert_eq!(number_and_place(work.write_bundle(&sheet, &four, 0)), Some((23, 6)));
    for (bundle, refusal) in [
        (&[][..], (21, 0)),
        (&[0x5A, 0, 0, 0], (21, 0)),
        (&[0x5A, 0, 0, 0, 0, 0], (24, 5)),
        (&[0x52, 0], (23, 0)),
        (&[0x53], (23, 0)),
        (&[0x56, 0, 0], (23, 0)),
        (&[0x50, 0, 0x52, 0], (25, 2)),
    ] {
        assert_eq!(number_and_place(work.check(&sheet, bundle)), Some(refusal), "{bundle:02X?}");
    }
    let k1 = &files["k1.sheet"];
    assert_eq!(number_and_place(work.check(k1, &files["bare.bundle"])), Some((23, 0)));
}

/// C-12: the very slice that was lent comes back, and a refusal's front is that of the first.
#[test]
fn the_better_bundle_is_the_lent_one() {
    let (mut work, files) = (WorkArea::new(), files());
    let (k1, planned, late) =
        (&files["k1.sheet"], &files["k1.bundle"][..], &files["k7.bundle"][..]);
    let copy = planned.to_vec();
    for (first, second, right) in [
        (planned, late, planned),
        (late, planned, planned),
        (planned, &copy[..], planned),
        (&copy[..], planned, &copy[..]),
    ] {
        let kept = work.better(k1, first, second).unwrap();
        assert!(std::ptr::eq(kept, right));
    }
    assert_eq!(number_and_place(work.better(k1, late, b"")), Some((34, 0)));
    assert_eq!(number_and_place(work.better(&k1[..47], planned, late)), Some((1, 47)));
    let mut area = vec![7; raw::work_length()];
    for (sheet, first, second) in [(&k1[..], late, &b""[..]), (&k1[..47], planned, late)] {
        let (_, front) = raw::better(sheet, first, second, &mut area);
        assert!(std::ptr::eq(front, &first[..0]));
    }
    let (short, front) = raw::better(k1, planned, late, &mut area[1..]);
    assert_eq!(short, (13, raw::work_length() as u64));
    assert!(std::ptr::eq(front, &planned[..0]));

    // On a bare board the one with more empty programmes is better: 50 is below 5A.
    let (bare, none) = (&files["bare.sheet"], &files["bare.bundle"][..]);
    let opened = [&[0x50, 0, 0x50, 1], none].concat();
    assert!(std::ptr::eq(work.better(bare, none, &opened).unwrap(), &opened[..]));
}

/// C-18: plans with their releases claim the same, run to their ends and give all store back; passing
/// twice is passing once.
#[test]
fn plans_with_their_releases() {
    let (mut work, files) = (WorkArea::new(), files());
    for (name, sheet) in valid_sheets(&mut work) {
        let Ok(bundle) = work.plan(&sheet) else { continue };
        let passed = work.release(&sheet, &bundle).unwrap();
        assert_eq!(work.check(&sheet, &passed), Ok(()), "{name}");
        assert_eq!(work.release(&sheet, &passed).as_ref(), Ok(&passed), "{name}");
        let again = work.write_bundle(&sheet, passed.programmes(), passed.claim());
        assert_eq!(again.as_ref(), Ok(&passed), "{name}");
        let mut machine = work.start(&sheet, &passed).unwrap();
        machine.run_out();
        assert_eq!((machine.left(), machine.latest_clock()), (0, bundle.claim()), "{name}");
        assert!(machine.processors().all(|processor| processor.store == 0), "{name}");
    }
    let sheet = work.read_sheet(&files["release.sheet"]).unwrap();
    let bundle = work.read_bundle(&sheet, &files["release.bundle"]).unwrap();
    assert_eq!(work.check(&sheet, &bundle), Ok(()));
    assert_eq!(work.release(&sheet, &bundle).as_ref(), Ok(&bundle));
    let (late, k1) = (&files["k7.bundle"], work.read_sheet(&files["k1.sheet"]).unwrap());
    let late = work.read_bundle(&k1, late).unwrap();
    assert_eq!(number_and_place(work.release(&k1, &late)), Some((30, 5)));
}

/// C-19: with a task's work longer by its drift the plan's programmes end as before, and by one more later;
/// where a work can be so long.
#[test]
fn plans_drift_as_far_as_is_told() {
    let mut work = WorkArea::new();
    let mut moved = 0;
    for (name, sheet) in valid_sheets(&mut work) {
        let Ok(bundle) = work.plan(&sheet) else { continue };
        let drifts = work.drift(&sheet, &bundle).unwrap();
        assert_eq!(drifts.len(), sheet.tasks().len());
        for (task, drift) in drifts.into_iter().enumerate() {
            for (d, late) in [(drift, false), (drift + 1, true)] {
                let mut tasks = sheet.tasks().to_vec();
                let Ok(longer) = u16::try_from(u32::from(tasks[task].work) + d) else { continue };
                tasks[task].work = longer;
                let raised = work.write_sheet(sheet.board(), &tasks, sheet.links()).unwrap();
                let checked = number_and_place(work.check(&raised, &bundle));
                let right = late.then_some((30, u64::from(bundle.claim()) + 1));
                assert_eq!(checked, right, "{name}, task {task}");
                moved += usize::from(late);
            }
        }
    }
    assert!(moved > 100);
}

/// C-21: the stored loads are made again, byte for byte, and refused loads have number and place.
#[test]
fn loads_are_made_again() {
    let (mut work, files) = (WorkArea::new(), files());
    let small = Load { seed: 3, tasks: 3, tries: 6, processors: 2, limit: 100 };
    let load = Load { seed: 21, tasks: 24, tries: 60, processors: 4, limit: 600 };
    for (name, load) in [("load-small.sheet", small), ("load.sheet", load)] {
        let sheet = work.generate(load).unwrap();
        assert_eq!(sheet.bytes(), files[name]);
        assert_eq!(work.generate(load).as_ref(), Ok(&sheet));
        assert_eq!(sheet.tasks().len(), load.tasks as usize);
        assert!(sheet.links().len() <= load.tries as usize);
        let other = work.generate(Load { seed: load.seed + 1, ..load }).unwrap();
        assert_ne!(other, sheet);
    }
    for outside in [
        Load { seed: 0, ..load },
        Load { tasks: 0, ..load },
        Load { tasks: 257, ..load },
        Load { tries: 1025, ..load },
        Load { processors: 0, ..load },
        Load { processors: 17, ..load },
        Load { processors: 257, ..load },
    ] {
        assert_eq!(number_and_place(work.generate(outside)), Some((6, 0)), "{outside:?}");
        assert!(!work.generate(outside).unwrap_err().explain_load(outside).place.is_empty());
    }
}

#[test]
fn a_stuck_bundle_starts_and_stops() {
    let (mut work, files) = (WorkArea::new(), files());
    let sheet = work.read_sheet(&files["k6.sheet"]).unwrap();
    let bundle = work.read_bundle(&sheet, &files["k6.bundle"]).unwrap();
    assert_eq!(number_and_place(work.check(&sheet, &bundle)), Some((29, 0)));
    let mut machine = work.start(&sheet, &bundle).unwrap();
    machine.run_out();
    assert_eq!((machine.left(), machine.stamp(0), machine.processor(2)), (8, None, None));
    assert_eq!(machine.run(&mut work, &[0, 1, 255]), 0);
}

#[test]
fn refusals_are_explained() {
    let (mut work, files) = (WorkArea::new(), files());
    let names = ["in", "ping", "pong", "out"].map(String::from);
    let circle = &files["k8-circle.sheet"];
    let about = About { sheet: circle, bundle: &[], names: &names };
    let explained = work.read_sheet(circle).unwrap_err().explain(about);
    assert_eq!(explained.place, "task ping: ping -> pong -> ping");
    assert_eq!(explained.subject, Subject::Task(1));

    let (sheet, bundle) = (&files["k6.sheet"], &files["k6.bundle"]);
    let about = About { sheet, bundle, names: &names };
    let explained = work.check(sheet, bundle).unwrap_err().explain(about);
    assert!(explained.place.starts_with("processor 0 waits at command 0 for link 1, pong -> out"));
    assert_eq!(explained.commands, [[0, 0], [1, 3], [1, 0], [0, 3]]);

    // Unpacking in a wrong place, twice, of 0, and cut; a cube in a wrong place and twice.
    let board = [0x4D, 1, 0, 0, 0, 0];
    for (rest, place) in [
        (&[0x54, 1, 0, 0, 0, 0x55][..], "byte 11: unpacking: not directly behind the board"),
        (&[0x55, 1, 0, 0x55, 1, 0], "byte 9: unpacking: a second one"),
        (&[0x55, 0, 0], "byte 6: unpacking: time 0"),
        (&[0x55, 7], "byte 6: unpacking: 1 of its 2 operand bytes"),
        (&[0x48, 0x55, 1, 0], "byte 7: unpacking: not directly behind the board"),
        (
            &[0x54, 1, 0, 0, 0, 0x48],
            "byte 11: cube: not directly behind the board or its unpacking",
        ),
        (&[0x48, 0x48], "byte 7: cube: a second one"),
    ] {
        let sheet = &[&board, rest].concat();
        let refusal = work.read_sheet(sheet).unwrap_err();
        assert!(refusal.explain(About { sheet, ..About::default() }).place.starts_with(place));
    }

    // Also where the caller lends something else than what was refused, there are words.
    for bundle in [&[][..], &[0x50][..], b"?"] {
        let refusal = work.check(sheet, &files["k6.bundle"]).unwrap_err();
        let explained = refusal.explain(About { sheet: &[], bundle, names: &[] });
        assert_eq!((explained.word, &explained.place[..]), ("stuck", "place 0"));
    }
}

/// C-18: releases of what is needed, not there yet, there no more and never there; and too full a store.
#[test]
fn wrong_releases_are_explained() {
    let (mut work, files) = (WorkArea::new(), files());
    let (sheet, bundle) = (&files["release.sheet"], &files["release.bundle"]);
    let (mut early, mut twice, mut elsewhere) = (bundle.clone(), bundle.clone(), bundle.clone());
    early[10] = 1;
    twice[14] = 0;
    elsewhere[32] = 1;
    let mut first = bundle.clone();
    first.splice(2..2, [0x46, 4]);
    let mut full = bundle.clone();
    full.drain(9..11);
    for (bundle, place) in [
        (
            early,
            "byte 9: processor 0, command 3: release 1; it is still needed at command 4, run 2",
        ),
        (
            first,
            "byte 2: processor 0, command 0: release 4; it is not there before command 7, run 4",
        ),
        (twice, "byte 13: processor 0, command 5: release 0; it is released already at command 3"),
        (elsewhere, "byte 31: processor 1, command 3: release 1; processor 1 does not have it"),
        (full, "processor 0: needs 150 behind command 3 (tasks 150, received messages 0)"),
    ] {
        let refusal = work.check(sheet, &bundle).unwrap_err();
        let explained = refusal.explain(About { sheet, bundle: &bundle, names: &[] });
        assert!(explained.place.starts_with(place), "{}", explained.place);
        assert!(!explained.commands.is_empty());
    }
}
