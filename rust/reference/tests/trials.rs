//! The trial sheets K1 to K10, with every number that is published for them.

use reference::better::better;
use reference::checker::{check, merits};
use reference::graph::levels;
use reference::least::least;
use reference::listing;
use reference::machine::{Machine, Step};
use reference::planner::{plan, Plan};
use reference::release::pass;
use reference::sheet::Sheet;
use reference::trials::*;
use reference::Refusal;

fn read(bytes: &[u8]) -> Sheet {
    Sheet::read(bytes).expect("a valid sheet")
}

fn planned(bytes: &[u8]) -> Plan {
    plan(&read(bytes)).expect("a plan")
}

/// Processor, start and finish of each task.
fn rows(plan: &Plan) -> Vec<(u8, u32, u32)> {
    plan.placements.iter().map(|p| (p.processor, p.start, p.finish)).collect()
}

fn refused<T>(number: u8, place: u64) -> Result<T, Refusal> {
    Err(Refusal { number, place })
}

/// The plan's own bundle is accepted.
fn accepted(sheet: &[u8]) {
    let sheet = read(sheet);
    let bundle = plan(&sheet).unwrap().to_bundle(&sheet);
    assert_eq!(check(&sheet, &bundle), Ok(()));
}

#[test]
fn k1() {
    let sheet = read(&k1_sheet());
    assert_eq!(levels(&sheet), [5, 3, 2, 7]);
    let plan = plan(&sheet).unwrap();
    assert_eq!(plan.to_bundle(&sheet), K1_BUNDLE);
    assert_eq!(listing::print(&k1_sheet()), K1_LISTING);
    assert_eq!(check(&sheet, &K1_BUNDLE), Ok(()));
}

#[test]
fn k2() {
    let plan = planned(&k2_sheet());
    assert_eq!(plan.programmes, [[3, 0, 1, 2]]);
    assert_eq!([3, 0, 1, 2].map(|task: usize| plan.placements[task].start), [0, 2, 3, 6]);
    assert_eq!(plan.claim, 8);
    accepted(&k2_sheet());
}

#[test]
fn k3() {
    let plan = planned(&k3_sheet());
    assert_eq!((plan.placements[2].processor, plan.placements[2].start), (1, 3));
    assert_eq!(plan.placements[0].processor, 2);
    assert_eq!(plan.claim, 6);
    accepted(&k3_sheet());
}

#[test]
fn k4() {
    assert_eq!(planned(&k4_sheet(24)), planned(&k1_sheet()));
    let plan = planned(&k4_sheet(23));
    assert_eq!((plan.placements[1].processor, plan.placements[1].start), (2, 4));
    assert_eq!((plan.placements[2].processor, plan.placements[2].start), (0, 2));
    assert_eq!(plan.claim, 7);
    accepted(&k4_sheet(24));
    accepted(&k4_sheet(23));
}

#[test]
fn k5() {
    let sheet = read(&k5_sheet());
    assert_eq!(plan(&sheet), refused(11, 4));
    assert_eq!(listing::print(&k5_sheet()), b"REFUSED 11 4\n");
    assert_eq!(check(&sheet, &k5_bundle()), Ok(()));
}

#[test]
fn k6() {
    assert_eq!(check(&read(&k6_sheet()), &k6_bundle()), refused(29, 0));
}

#[test]
fn k7() {
    assert_eq!(check(&read(&k1_sheet()), &k7_bundle()), refused(30, 5));
}

#[test]
fn k8() {
    assert_eq!(Sheet::read(&k8_self_sheet()).err(), refused::<()>(10, 0).err());
    assert_eq!(Sheet::read(&k8_circle_sheet()).err(), refused::<()>(10, 1).err());
    assert_eq!(listing::print(&k8_circle_sheet()), b"REFUSED 10 1\n");
}

#[test]
fn k9() {
    let mut sheet = k1_sheet();
    assert_eq!(sheet.len(), 48);
    assert_eq!(Sheet::read(&sheet[..47]).err(), refused::<()>(1, 47).err());
    sheet.push(0);
    assert_eq!(Sheet::read(&sheet).err(), refused::<()>(4, 48).err());
}

#[test]
fn k10() {
    let with = |processors| {
        let mut sheet = k1_sheet();
        sheet[1] = processors;
        Sheet::read(&sheet).map(|sheet| sheet.processors)
    };
    assert_eq!([with(1), with(16)], [Ok(1), Ok(16)]);
    assert_eq!([with(0), with(17)], [refused(6, 0), refused(6, 0)]);
    assert_eq!(Sheet::read(&[]).err(), refused::<()>(1, 0).err());
}

/// C-13: a board with no jobs yet.
#[test]
fn bare_board() {
    let bytes = bare_sheet();
    assert_eq!(bytes, [0x4D, 3, 100, 0, 0, 0, 0x51]);
    let sheet = read(&bytes);
    assert!(sheet.is_bare() && sheet.links.is_empty() && levels(&sheet).is_empty());
    assert_eq!(sheet.to_bytes(), bytes);
    assert_eq!(planned(&bytes).to_bundle(&sheet), BARE_BUNDLE);
    assert_eq!(listing::print(&bytes), b"PLAN 0 0\n");
    for programmes in 0..=3 {
        let mut bundle: Vec<u8> = (0..programmes).flat_map(|number| [0x50, number]).collect();
        bundle.extend(BARE_BUNDLE);
        assert_eq!(check(&sheet, &bundle), Ok(()));
        let mut machine = Machine::start(&sheet, &bundle).unwrap();
        assert_eq!(machine.processors().len(), programmes.into());
        for choice in [0, 1, 2, 3, u64::MAX] {
            assert_eq!(machine.step(choice), Step::Ended);
        }
        assert_eq!((machine.left(), machine.latest_clock()), (0, 0));
        bundle[2 * usize::from(programmes) + 1] = 1;
        assert_eq!(check(&sheet, &bundle), refused(30, 0));
        assert_eq!(Machine::start(&sheet, &bundle).unwrap().latest_clock(), 0);
    }
    // On a sheet with tasks it is 23 as before, and not 26.
    assert_eq!(check(&read(&k1_sheet()), &BARE_BUNDLE), refused(23, 0));
    assert_eq!(check(&read(&k1_sheet()), &[&[0x50, 0], &BARE_BUNDLE[..]].concat()), refused(26, 0));
}

/// C-17: two tasks joined by a link of cost 0 are on one processor.
#[test]
fn free_link() {
    let plan = planned(&free_link_sheet());
    assert_eq!(rows(&plan), [(0, 0, 1), (0, 1, 2)]);
    assert_eq!((plan.programmes.len(), plan.claim), (1, 2));
    assert_eq!(listing::print(&free_link_sheet()), b"PLAN 1 2\n0 0 0 1\n1 0 1 2\n");
    accepted(&free_link_sheet());
}

/// C-14: K1 with a time of 1 for each receive. Task 2 starts at 4 on a fresh processor, behind a receive
/// from 3 to 4; the guard bars processor 0 for it, and task 1 starts there at 3, behind one from 2 to 3.
#[test]
fn unpacking() {
    let bytes = unpacking_sheet();
    assert_eq!(bytes[6..9], [0x55, 1, 0]);
    assert_eq!([&bytes[..6], &bytes[9..]].concat(), k1_sheet());
    assert_eq!(rows(&planned(&bytes)), [(2, 0, 1), (0, 3, 6), (1, 4, 6), (0, 0, 2)]);
    assert_eq!(listing::print(&bytes), b"PLAN 3 6\n0 2 0 1\n1 0 3 6\n2 1 4 6\n3 0 0 2\n");
    assert_eq!(levels(&read(&bytes)), levels(&read(&k1_sheet())));
    accepted(&bytes);
    // The plan of K1 still runs, with each of its two receives one later.
    assert_eq!(check(&read(&bytes), &K1_BUNDLE), refused(30, 6));
}

/// C-20: on a cube of four task 4 needs task 0, at 2 on processor 0, and task 1, at 1 on processor 1, both
/// with the arrival 3. It starts at 5 on processor 2 and at 4 on processor 3, which is opened before it;
/// the number that is skipped has an empty programme and does not count.
#[test]
fn cube() {
    let bytes = cube_sheet();
    assert_eq!(bytes[6], 0x48);
    let sheet = read(&bytes);
    assert_eq!(sheet.board(), [4, 100, 5, 4, 0, 1]);
    let plan = planned(&bytes);
    assert_eq!(rows(&plan), [(0, 0, 2), (1, 0, 1), (0, 2, 4), (1, 1, 4), (3, 4, 5)]);
    assert_eq!(plan.programmes, [&[0, 2][..], &[1, 3], &[], &[4]]);
    assert_eq!(listing::print(&bytes), b"PLAN 3 5\n0 0 0 2\n1 1 0 1\n2 0 2 4\n3 1 1 4\n4 3 4 5\n");
    accepted(&bytes);
    // Without the wires every message makes one hop: task 4 starts at 3 on the next processor.
    let plain = [&bytes[..6], &bytes[7..]].concat();
    assert_eq!(rows(&planned(&plain))[4], (2, 3, 4));
    assert_eq!(levels(&sheet), levels(&read(&plain)));
    assert_eq!(check(&read(&plain), &plan.to_bundle(&sheet)), refused(30, 4));
}

/// C-18: K1 behind the pass, and a sheet that only fits with releases.
#[test]
fn released() {
    let k1 = read(&k1_sheet());
    assert_eq!(pass(&k1, &K1_BUNDLE), Ok(K1_RELEASED.to_vec()));
    assert_eq!(pass(&k1, &K1_RELEASED), Ok(K1_RELEASED.to_vec()));
    assert_eq!(check(&k1, &K1_RELEASED), Ok(()));
    assert_eq!(pass(&k1, &k7_bundle()), refused(30, 5));
    // Processor 1 holds task 0's result no more when it receives: 14 where it needed 24.
    let store = |sheet: &Sheet, bundle: &[u8]| {
        let mut machine = Machine::start(sheet, bundle).unwrap();
        let mut highest = 0;
        while (0..2).any(|k| machine.step(k).stepped()) {
            highest = highest.max(machine.processors()[1].store);
        }
        highest
    };
    assert_eq!([store(&k1, &K1_BUNDLE), store(&k1, &K1_RELEASED)], [24, 14]);

    let (sheet, bundle) = (read(&release_sheet()), release_bundle());
    assert_eq!(plan(&sheet).err(), refused::<()>(11, 3).err());
    assert_eq!(check(&sheet, &bundle), Ok(()));
    // Without the release of task 0, 150 are in use behind the run of task 2.
    let kept = [&bundle[..9], &bundle[11..]].concat();
    assert_eq!((bundle[9..11].to_vec(), check(&sheet, &kept)), (vec![0x46, 0], refused(28, 0)));
}

/// C-22: of K1's bundles that claim 5 on two processors the one with the lowest bytes begins with task 0.
#[test]
fn least_time() {
    let sheet = read(&k1_sheet());
    let bundle = least(&sheet).unwrap();
    assert_eq!(bundle[..4], [0x50, 0, 0x52, 0]);
    assert_eq!(better(&sheet, &K1_BUNDLE, &bundle), Ok(&bundle[..]));
    assert_eq!(merits(&sheet, &bundle), merits(&sheet, &K1_BUNDLE));
    // K5 has no plan, but a bundle: the one that is published is the best of them.
    assert_eq!(least(&read(&k5_sheet())), Ok(k5_bundle()));
    let with = |bytes: &[u8], edit: fn(&mut Sheet)| {
        let mut sheet = read(bytes);
        edit(&mut sheet);
        least(&sheet)
    };
    assert_eq!(with(&k5_sheet(), |sheet| sheet.limit = 5), refused(11, 4));
    // Only a bundle with releases fits.
    assert_eq!(least(&read(&release_sheet())), refused(11, 4));
    // A bare board has its five bytes; a cube has none, bare or not.
    assert_eq!(least(&read(&bare_sheet())), Ok(BARE_BUNDLE.to_vec()));
    assert_eq!(with(&bare_sheet(), |sheet| sheet.cube = true), refused(38, 0));
    assert_eq!(least(&read(&cube_sheet())), refused(38, 5));
    // With unpacking another claim is the least.
    let unpacked = read(&unpacking_sheet());
    assert_eq!(merits(&unpacked, &least(&unpacked).unwrap()).unwrap().claim, 6);
}

#[test]
fn starts_are_those_of_the_runs() {
    let plan = planned(&k1_sheet());
    assert_eq!(rows(&plan), [(1, 0, 1), (0, 2, 5), (1, 3, 5), (0, 0, 2)]);
}
