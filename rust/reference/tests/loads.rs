//! Test loads by hand, and against the literal rules.

use reference::interface::generate;
use reference::load::Load;
use reference::sheet::{Link, Sheet, Task};
use reference::trials::{LOAD, SMALL_LOAD};

/// The sheet of a load, as it is read.
fn sheet(load: Load) -> Sheet {
    Sheet::read(&load.to_bytes().unwrap()).unwrap()
}

/// Number and place of a load's refusal, if there is one.
fn refusal(load: Load) -> Option<(u8, u64)> {
    load.to_bytes().err().map(|refusal| (refusal.number, refusal.place))
}

/// Draws in their order: work before store, and four for a try whether it is written or not.
#[test]
fn a_small_load() {
    let sheet = sheet(SMALL_LOAD);
    assert_eq!((sheet.processors, sheet.limit), (2, 100));
    let task = |work, store| Task { work, store };
    assert_eq!(sheet.tasks, [task(45, 13), task(59, 29), task(89, 17)]);
    let link = |source, target, cost, bytes| Link { source, target, cost, bytes };
    assert_eq!(sheet.links, [link(1, 2, 32, 15), link(0, 2, 14, 13)]);
}

#[test]
fn what_is_out_of_range() {
    for (load, outside) in [
        (Load { seed: 0, ..LOAD }, true),
        (Load { seed: u32::MAX, ..LOAD }, false),
        (Load { tasks: 0, ..LOAD }, true),
        (Load { tasks: 1, ..LOAD }, false),
        (Load { tasks: 256, ..LOAD }, false),
        (Load { tasks: 257, ..LOAD }, true),
        (Load { tries: 0, ..LOAD }, false),
        (Load { tries: 1024, ..LOAD }, false),
        (Load { tries: 1025, ..LOAD }, true),
        (Load { processors: 0, ..LOAD }, true),
        (Load { processors: 16, ..LOAD }, false),
        (Load { processors: 17, ..LOAD }, true),
        (Load { processors: 257, ..LOAD }, true),
        (Load { limit: u32::MAX, ..LOAD }, false),
    ] {
        assert_eq!(refusal(load), outside.then_some((6, 0)), "{load:?}");
    }
    let outside = Load { seed: 0, ..SMALL_LOAD };
    assert_eq!(generate(outside, &mut []).unwrap_err().number, 6);
    let short = generate(SMALL_LOAD, &mut [0; 35]).unwrap_err();
    assert_eq!((short.number, short.place), (12, 36));
    assert_eq!(generate(SMALL_LOAD, &mut [0; 40]), Ok(36));
}

/// One task has no link to anywhere, and no load has more links than tries or pairs.
#[test]
fn links_lead_on() {
    assert!(sheet(Load { tasks: 1, tries: 1024, ..LOAD }).links.is_empty());
    for seed in 1..200 {
        let sheet = sheet(Load { seed, tasks: 2 + seed % 9, tries: seed % 64, ..LOAD });
        let pairs = sheet.tasks.len() * (sheet.tasks.len() - 1) / 2;
        assert!(sheet.links.len() <= pairs.min(seed as usize % 64));
        assert!(sheet.links.iter().all(|link| link.source < link.target));
    }
}

#[test]
fn the_literal_rules_make_the_same() {
    for seed in 1..400 {
        let (tasks, tries) = (1 + seed % 17, seed * 7 % 90);
        let load = Load { seed, tasks, tries, processors: 1 + seed % 16, limit: seed };
        let made = literal::interface::generate(seed, tasks, tries, load.processors, load.limit);
        assert_eq!(load.to_bytes(), Ok(made.unwrap()), "{load:?}");
    }
}
