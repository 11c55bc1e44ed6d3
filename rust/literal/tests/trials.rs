//! The trial sheets of document 01 on the literal rules.

use literal::better::Decided;
use literal::interface::{better, check, least, levels, listing, placed, plan};
use literal::interface::{read_bundle, read_sheet};
use literal::interface::{release, start, write_bundle, write_sheet};
use literal::placing::{place, Rules};
use literal::sheet::Sheet;
use literal::Refusal;
use std::fs;

/// An example file.
fn example(name: &str) -> Vec<u8> {
    fs::read(format!("{}/../../examples/{name}", env!("CARGO_MANIFEST_DIR"))).unwrap()
}

fn refused<T>(number: u8, place: usize) -> Result<T, Refusal> {
    Err(Refusal::new(number, place))
}

/// A plan's rows: task, processor, start.
fn rows(sheet: &[u8]) -> Vec<(usize, usize, u64)> {
    placed(sheet).unwrap().iter().map(|row| (row.task, row.processor, row.start)).collect()
}

#[test]
fn k1_whole() {
    let (sheet, bundle) = (example("k1.sheet"), example("k1.bundle"));
    assert_eq!(plan(&sheet), Ok(bundle.clone()));
    assert_eq!(listing(&sheet), b"PLAN 2 5\n0 1 0 1\n1 0 2 5\n2 1 3 5\n3 0 0 2\n");
    assert_eq!(levels(&sheet), Ok(vec![5, 3, 2, 7]));
    assert_eq!(check(&sheet, &bundle), Ok(()));
    let tables = read_sheet(&sheet).unwrap();
    assert_eq!(tables.board, [3, 100, 4, 3, 0, 0]);
    assert_eq!(write_sheet(3, 100, 0, 0, &tables.tasks, &tables.links), Ok(sheet.clone()));
    let (commands, claim) = read_bundle(&sheet, &bundle).unwrap();
    assert_eq!(write_bundle(&sheet, &commands, claim), Ok(bundle.clone()));
    start(&sheet, &bundle, |machine| {
        let machine = machine.unwrap();
        assert_eq!((machine.left(), machine.step(2), machine.step(u64::MAX)), (8, false, false));
        assert!([1, 1, 0, 0, 0, 0, 1, 1].into_iter().all(|choice| machine.step(choice)));
        assert_eq!((machine.left(), machine.latest_clock()), (0, 5));
    });
}

#[test]
fn k2_to_k4() {
    assert_eq!(rows(&example("k2.sheet")), [(3, 0, 0), (0, 0, 2), (1, 0, 3), (2, 0, 6)]);
    let k3 = example("k3.sheet");
    assert!(rows(&k3).contains(&(2, 1, 3)) && rows(&k3).contains(&(0, 2, 0)));
    assert!(placed(&k3).unwrap().iter().any(|row| row.join_guarded));
    let claim = |guard| {
        let placed = place(&Sheet::read(&k3).unwrap(), Rules { guard, ..Rules::WHOLE }).unwrap();
        placed.iter().map(|row| row.finish).max()
    };
    assert_eq!([claim(true), claim(false)], [Some(6), Some(7)]);
    assert_eq!(plan(&example("k4-24.sheet")), Ok(example("k1.bundle")));
    let k4 = rows(&example("k4-23.sheet"));
    assert!(k4.contains(&(1, 2, 4)) && k4.contains(&(2, 0, 2)));
    assert_eq!(plan(&example("k4-23.sheet")), Ok(example("k4-23.bundle")));
}

#[test]
fn k5_to_k8() {
    let k5 = example("k5.sheet");
    assert_eq!(plan(&k5), refused(11, 4));
    assert_eq!(listing(&k5), b"REFUSED 11 4\n");
    assert_eq!(check(&k5, &example("k5.bundle")), Ok(()));
    assert_eq!(check(&example("k6.sheet"), &example("k6.bundle")), refused(29, 0));
    assert_eq!(check(&example("k1.sheet"), &example("k7.bundle")), refused(30, 5));
    assert_eq!(read_sheet(&example("k8-self.sheet")), refused(10, 0));
    assert_eq!(read_sheet(&example("k8-circle.sheet")), refused(10, 1));
}

/// C-13: a board with no jobs yet.
#[test]
fn bare_board() {
    let (sheet, bundle) = (example("bare.sheet"), example("bare.bundle"));
    assert_eq!((&sheet[..], &bundle[..]), (&b"\x4D\x03\x64\0\0\0\x51"[..], &b"\x5A\0\0\0\0"[..]));
    let tables = read_sheet(&sheet).unwrap();
    assert_eq!(
        (tables.board, tables.tasks.len(), tables.links.len()),
        ([3, 100, 0, 0, 0, 0], 0, 0)
    );
    assert_eq!(write_sheet(3, 100, 0, 0, &[], &[]), Ok(sheet.clone()));
    assert_eq!(levels(&sheet), Ok(Vec::new()));
    assert_eq!(plan(&sheet), Ok(bundle.clone()));
    assert_eq!(listing(&sheet), b"PLAN 0 0\n");
    assert_eq!(read_bundle(&sheet, &bundle), Ok((Vec::new(), 0)));
    assert_eq!(write_bundle(&sheet, &[], 0), Ok(bundle.clone()));
    // A link has no task to lead to, and what follows the end is a tail.
    assert_eq!(write_sheet(3, 100, 0, 0, &[], &[0, 0, 0, 0]), refused(7, 6));
    assert_eq!(read_sheet(&[&sheet[..], &[0x51]].concat()), refused(4, 7));
    for programmes in 0..=4 {
        let mut opened: Vec<u8> = (0..programmes).flat_map(|number| [0x50, number]).collect();
        opened.extend(&bundle);
        if programmes > 3 {
            assert_eq!(check(&sheet, &opened), refused(23, 6));
            continue;
        }
        assert_eq!(check(&sheet, &opened), Ok(()));
        let claim = opened.len() - 5;
        opened[claim + 1] = 7;
        assert_eq!(check(&sheet, &opened), refused(30, 0));
        start(&sheet, &opened, |machine| {
            let machine = machine.unwrap();
            assert!([0, 1, 2, 3, u64::MAX].into_iter().all(|choice| !machine.step(choice)));
            assert_eq!((machine.left(), machine.latest_clock()), (0, 0));
        });
        assert_eq!(check(&sheet, &opened[..claim + 4]), refused(21, claim));
        opened.push(0x5A);
        assert_eq!(check(&sheet, &opened), refused(24, claim + 5));
    }
    for command in [0x52, 0x53, 0x56] {
        assert_eq!(check(&sheet, &[&[command], &bundle[..]].concat()), refused(23, 0));
    }
    // On a sheet with tasks it is 23 as before.
    assert_eq!(check(&example("k1.sheet"), &bundle), refused(23, 0));
    assert_eq!(check(&example("k1.sheet"), &bundle[..3]), refused(23, 0));
}

/// C-14: K1 with a time of 1 for each receive.
#[test]
fn unpacking() {
    let (sheet, bundle) = (example("unpacking.sheet"), example("unpacking.bundle"));
    let tables = read_sheet(&sheet).unwrap();
    assert_eq!(tables.board, [3, 100, 4, 3, 1, 0]);
    assert_eq!(write_sheet(3, 100, 1, 0, &tables.tasks, &tables.links), Ok(sheet.clone()));
    assert_eq!(write_sheet(3, 100, 0, 0, &tables.tasks, &tables.links), Ok(example("k1.sheet")));
    assert_eq!(levels(&sheet), levels(&example("k1.sheet")));
    assert_eq!(rows(&sheet), [(3, 0, 0), (2, 1, 4), (0, 2, 0), (1, 0, 3)]);
    assert_eq!(plan(&sheet), Ok(bundle.clone()));
    assert_eq!(check(&sheet, &bundle), Ok(()));
    assert_eq!(check(&sheet, &example("k1.bundle")), refused(30, 6));
    start(&sheet, &bundle, |machine| {
        let machine = machine.unwrap();
        assert!([0, 0, 1].into_iter().all(|choice| machine.step(choice)));
        // "the later of clock and stamp, plus this time": 0 and 3, then 4; and 2 and 2, then 3.
        assert_eq!(machine.processors[1].clock, 4);
        assert!([2, 2, 0].into_iter().all(|choice| machine.step(choice)));
        assert_eq!(machine.processors[0].clock, 3);
    });
    // "a value of 0 gives 6, a wrong position gives 3".
    for (bytes, refusal) in [
        (&b"\x4D\x03\x64\0\0\0\x55\0\0\x51"[..], (6, 6)),
        (b"\x55\x01\0\x4D\x03\x64\0\0\0\x51", (3, 0)),
        (b"\x4D\x03\x64\0\0\0\x55\x01\0\x55\0", (3, 9)),
        (b"\x4D\x03\x64\0\0\0\x54\x01\0\0\0\x55", (3, 11)),
        (b"\x4D\x03\x64\0\0\0\x55\x01", (1, 6)),
    ] {
        assert_eq!(read_sheet(bytes), refused(refusal.0, refusal.1), "{bytes:02X?}");
    }
}

/// C-20: a cube of four processors, on which number 2 is skipped.
#[test]
fn cube() {
    let (sheet, bundle) = (example("cube.sheet"), example("cube.bundle"));
    let tables = read_sheet(&sheet).unwrap();
    assert_eq!(tables.board, [4, 100, 5, 4, 0, 1]);
    for cube in [1, 2, 255] {
        assert_eq!(write_sheet(4, 100, 0, cube, &tables.tasks, &tables.links), Ok(sheet.clone()));
    }
    let plain = write_sheet(4, 100, 0, 0, &tables.tasks, &tables.links).unwrap();
    assert_eq!(plain, [&sheet[..6], &sheet[7..]].concat());
    assert_eq!(levels(&sheet), levels(&plain));
    // The last task is on processor 3 at 4, one hop from processor 1 and two from processor 0.
    let placed = |sheet| rows(sheet).into_iter().find(|row| row.0 == 4);
    assert_eq!([placed(&sheet), placed(&plain)], [Some((4, 3, 4)), Some((4, 2, 3))]);
    assert_eq!(plan(&sheet), Ok(bundle.clone()));
    assert_eq!(listing(&sheet), b"PLAN 3 5\n0 0 0 2\n1 1 0 1\n2 0 2 4\n3 1 1 4\n4 3 4 5\n");
    assert_eq!(check(&sheet, &bundle), Ok(()));
    assert_eq!(check(&plain, &bundle), refused(30, 4));
    start(&sheet, &bundle, |machine| {
        let machine = machine.unwrap();
        assert!([0, 0, 1, 1].into_iter().all(|choice| machine.step(choice)));
        // "its cost times the count of bits in which the two processor numbers differ": 2 + 1 * 2 from
        // 0 to 3, and 1 + 2 * 1 from 1 to 3.
        assert_eq!((machine.stamps[2], machine.stamps[3]), (Some(4), Some(3)));
        assert!(!machine.step(2) && machine.step(3));
        assert_eq!(machine.processors[3].clock, 4);
    });
    // "directly after `4D` or the `55` if there is one [..] elsewhere it gives 3".
    for (bytes, refusal) in [
        (&b"\x48\x4D\x03\x64\0\0\0\x51"[..], (3, 0)),
        (b"\x4D\x03\x64\0\0\0\x48\x48\x51", (3, 7)),
        (b"\x4D\x03\x64\0\0\0\x48\x55\x01\0\x51", (3, 7)),
        (b"\x4D\x03\x64\0\0\0\x54\x01\0\0\0\x48", (3, 11)),
        (b"\x4D\x03\x64\0\0\0\x48", (1, 7)),
    ] {
        assert_eq!(read_sheet(bytes), refused(refusal.0, refusal.1), "{bytes:02X?}");
    }
}

/// C-18: K1's plan behind the pass, and a sheet that only fits with releases.
#[test]
fn releases() {
    let (sheet, bundle, passed) =
        (example("k1.sheet"), example("k1.bundle"), example("k1-released.bundle"));
    assert_eq!(release(&sheet, &bundle), Ok(passed.clone()));
    assert_eq!(check(&sheet, &passed), Ok(()));
    // "An accepted bundle that already has releases comes out as it went in, and a refused one gets the
    // checker's refusal."
    assert_eq!(release(&sheet, &passed), Ok(passed.clone()));
    assert_eq!(release(&sheet, &example("k7.bundle")), refused(30, 5));
    let (commands, claim) = read_bundle(&sheet, &passed).unwrap();
    assert_eq!((commands.len(), claim), (32, 5));
    assert_eq!(write_bundle(&sheet, &commands, claim), Ok(passed.clone()));
    start(&sheet, &passed, |machine| {
        let machine = machine.unwrap();
        assert_eq!(machine.left(), 14);
        assert!([1, 1, 1].into_iter().all(|choice| machine.step(choice)));
        // Run, send and release: the store is back, and no time went by.
        assert_eq!((machine.processors[1].clock, machine.processors[1].store), (1, 0));
        assert!([0; 7].into_iter().all(|choice| machine.step(choice)));
        assert_eq!((machine.processors[0].clock, machine.processors[0].store), (5, 0));
    });
    // Before the local reader, before the send, and twice: the offset of the first wrong one.
    for (at, bytes) in [(7, &[0x46, 3][..]), (23, &[0x46, 0]), (14, &[0x46, 1])] {
        let wrong = [&passed[..at], bytes, &passed[at..]].concat();
        assert_eq!(check(&sheet, &wrong), refused(37, at));
        start(&sheet, &wrong, |machine| assert_eq!(machine.err(), Some(Refusal::new(37, at))));
    }

    let (sheet, bundle) = (example("release.sheet"), example("release.bundle"));
    // "Placing still counts sums, so 11 keeps its condition."
    assert_eq!(plan(&sheet), refused(11, 3));
    assert_eq!(check(&sheet, &bundle), Ok(()));
    let kept = [&bundle[..9], &bundle[11..]].concat();
    assert_eq!(check(&sheet, &kept), refused(28, 0));
}

/// C-22: K1's best bundle, K5's, which has no plan, and what is refused.
#[test]
fn least_time() {
    assert_eq!(least(&example("k1.sheet")), Ok(example("k1-least.bundle")));
    let mut k5 = example("k5.sheet");
    assert_eq!(least(&k5), Ok(example("k5.bundle")));
    k5[2] = 5;
    assert_eq!(least(&k5), refused(11, 4));
    // "11 is given exactly if no bundle without releases is accepted": one with releases is.
    assert_eq!(least(&example("release.sheet")), refused(11, 4));
    assert_eq!(least(&example("bare.sheet")), Ok(example("bare.bundle")));
    assert_eq!(least(&example("cube.sheet")), refused(38, 5));
    assert_eq!(least(b"\x4D\x03\x64\0\0\0\x48\x51"), refused(38, 0));
    let seven = [&b"\x4D\x02\0\0\0\0"[..], &b"\x54\x01\0\0\0".repeat(7), b"\x51"].concat();
    assert_eq!(least(&seven), refused(38, 7));
    assert_eq!(least(&seven[..40]), refused(1, 36));
    assert_eq!(least(&example("k8-circle.sheet")), refused(10, 1));
}

/// C-12: two tasks of work 1 joined by a free link, and bundles of them.
#[test]
fn better_of_two() {
    let sheet = b"\x4D\x03\x64\0\0\0\x54\x01\0\0\0\x54\x01\0\0\0\x45\0\x01\0\0\0\0\x51";
    let one = &b"\x50\0\x52\0\x52\x01\x5A\x02\0\0\0"[..];
    let behind_empty = &b"\x50\0\x50\x01\x52\0\x52\x01\x5A\x02\0\0\0"[..];
    let two = &b"\x50\0\x50\x01\x52\0\x53\0\0\x50\x02\x56\0\0\x52\x01\x5A\x02\0\0\0"[..];
    let hasty = &b"\x50\0\x52\0\x52\x01\x5A\x01\0\0\0"[..];
    for bundle in [one, behind_empty, two] {
        assert_eq!(check(sheet, bundle), Ok(()));
    }
    assert_eq!(check(sheet, hasty), refused(30, 2));
    let chosen = |first, second, decided| {
        assert_eq!(better(sheet, first, second), Ok((first, decided)));
        assert_eq!(better(sheet, second, first), Ok((first, decided)));
    };
    // A refused bundle is not preferred for its smaller claim.
    chosen(one, hasty, Decided::Acceptance);
    chosen(one, b"", Decided::Acceptance);
    // Fewer processors run a task, though the bytes of the other are lower; empty programmes don't
    // count, and then the lower byte decides.
    chosen(one, two, Decided::Rule(1));
    chosen(behind_empty, one, Decided::Rule(2));
    assert_eq!(better(sheet, hasty, b"\x50"), refused(34, 0));
    assert_eq!(better(&sheet[..9], one, hasty), refused(1, 6));
    // Of equal bundles the first that was lent.
    let (copy, other) = (one.to_vec(), one.to_vec());
    let (kept, decided) = better(sheet, &copy, &other).unwrap();
    assert!(std::ptr::eq(kept, &copy[..]) && decided == Decided::Nothing);
    // K1's plan claims 5, and all on one processor take 8.
    let k1 = example("k1.bundle");
    let alone = b"\x50\0\x52\x03\x52\0\x52\x01\x52\x02\x5A\x08\0\0\0";
    assert_eq!(better(&example("k1.sheet"), alone, &k1), Ok((&k1[..], Decided::Rule(0))));
    // On a bare board the one with more empty programmes is better: 50 is below 5A.
    let (bare, none) = (example("bare.sheet"), example("bare.bundle"));
    let (mut least, mut opened) = (none, Vec::new());
    for number in 0..3 {
        opened.extend([0x50, number]);
        let more = [&opened[..], b"\x5A\0\0\0\0"].concat();
        assert_eq!(better(&bare, &least, &more), Ok((&more[..], Decided::Rule(2))));
        least = more;
    }
}

#[test]
fn k9_and_k10() {
    let mut sheet = example("k1.sheet");
    assert_eq!(read_sheet(&sheet[..47]), refused(1, 47));
    sheet.push(0);
    assert_eq!(read_sheet(&sheet), refused(4, 48));
    sheet.pop();
    for (processors, passes) in [(0, false), (1, true), (16, true), (17, false)] {
        sheet[1] = processors;
        assert_eq!(read_sheet(&sheet).map(|_| ()), if passes { Ok(()) } else { refused(6, 0) });
    }
    assert_eq!(read_sheet(&[]), refused(1, 0));
}
