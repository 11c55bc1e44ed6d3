//! The sources' figures that can be read whole, with their published levels, plans and lengths.
//! Tasks count from 0 here, from 1 in the sources; numbers are the printed ones times the factor
//! that makes them whole.

use literal::placing::{place, Rules};
use reference::checker::{check, merits};
use reference::figures::{all, bundle, gauss_jordan_bundle, Figure};
use reference::graph::levels;
use reference::least::least;
use reference::planner::{plan, plan_with, Plan, Step};
use reference::sheet::Sheet;
use reference::Refusal;
use Step::{Idle, Join, Open, Share};

fn figure(name: &str) -> Figure {
    all().into_iter().find(|figure| figure.name == name).expect(name)
}

fn planned(name: &str) -> Plan {
    plan(&figure(name).sheet()).expect("nothing needs store")
}

/// The steps that gave the tasks of a figure their processors, and how often the guard barred one.
fn steps(name: &str) -> (Vec<Step>, usize) {
    let mut turns = Vec::new();
    plan_with(&figure(name).sheet(), |turn| turns.push(turn)).expect("nothing needs store");
    let barred = turns.iter().filter(|turn| turn.join_barred).count();
    (turns.into_iter().map(|turn| turn.step).collect(), barred)
}

fn starts(plan: &Plan) -> Vec<u32> {
    plan.placements.iter().map(|placement| placement.start).collect()
}

/// The machine runs a published schedule in its published length.
fn takes(name: &str, programmes: &[&[u8]], length: u32) {
    let sheet = figure(name).sheet_on(programmes.len() as u8);
    assert_eq!(check(&sheet, &bundle(&sheet, programmes, length)), Ok(()), "{name}");
}

/// The checker accepts the plan of each figure on any number of processors.
#[test]
fn plans_are_accepted() {
    for figure in all() {
        for processors in 1..=16 {
            let sheet = figure.sheet_on(processors);
            let bundle = plan(&sheet).unwrap().to_bundle(&sheet);
            assert_eq!(check(&sheet, &bundle), Ok(()), "{} on {processors}", figure.name);
        }
    }
}

/// The least times of the figures of at most six tasks. The planner's 13 of 000-F3 is the source's; 12 has
/// its third task behind a message.
#[test]
fn least_times() {
    for (name, processors, time) in [
        ("000-F1", 3, 5),
        ("000-F3", 3, 12),
        ("001-F2.2", 2, 7),
        ("001-F2.2", 3, 6),
        ("001-F3.1", 4, 8),
        ("001-F5.5", 2, 6),
    ] {
        let sheet = figure(name).sheet_on(processors);
        let bundle = least(&sheet).unwrap();
        let merits = merits(&sheet, &bundle).unwrap();
        assert_eq!(merits.claim, time, "{name} on {processors}");
        assert!(plan(&sheet).unwrap().claim >= time);
    }
    for figure in all().into_iter().filter(|figure| figure.sheet().tasks.len() > 6) {
        let sheet = figure.sheet();
        assert_eq!(least(&sheet), Err(Refusal::new(38, sheet.tasks.len())), "{}", figure.name);
    }
}

/// 000, figures 1 and 2. The source takes its third task before its first at equal priority, where
/// the greater level goes first here, and so uses a third cluster; the length is the same.
#[test]
fn scheduling_example() {
    assert_eq!(levels(&figure("000-F1").sheet()), [5, 3, 2, 7]);
    let plan = planned("000-F1");
    assert_eq!((plan.programmes.len(), plan.claim), (2, 5));
    assert_eq!(steps("000-F1"), (vec![Open, Open, Join, Idle], 0));
    takes("000-F1", &[&[3, 1], &[2], &[0]], 5);
    // Without the guard.
    takes("000-F1", &[&[3, 2], &[0, 1]], 7);
}

/// 000, figures 3 and 4: the very schedule of the source, on two processors or more. The last
/// task's printed priority is that of the unplaced graph, and 14 for the unbounded schedule is a
/// misprint: its clusters take 13.
#[test]
fn bounded_example() {
    let figure = figure("000-F3");
    assert_eq!(levels(&figure.sheet()), [15, 12, 13, 6, 5, 2]);
    for processors in [2, 3, 16] {
        let plan = plan(&figure.sheet_on(processors)).unwrap();
        assert_eq!(plan.programmes, [vec![0, 2, 4, 5], vec![1, 3]]);
        assert_eq!(starts(&plan), [0, 2, 1, 7, 8, 11]);
        assert_eq!(plan.claim, 13);
    }
    assert_eq!(steps("000-F3"), (vec![Open, Join, Open, Join, Idle, Join], 0));
    takes("000-F3", &[&[0, 2, 5], &[1, 3], &[4]], 13);
}

/// 001, figures 2.2 to 2.4: the source's best schedule, with four schedules of its own.
#[test]
fn six_statements() {
    let plan = planned("001-F2.2");
    assert_eq!(plan.claim, 6);
    assert_eq!(plan.programmes, [vec![0, 1, 5, 4], vec![2], vec![3]]);
    takes("001-F2.2", &[&[0], &[1, 4], &[2, 5], &[3]], 12);
    takes("001-F2.2", &[&[0, 4], &[1, 5], &[2], &[3]], 8);
    takes("001-F2.2", &[&[0, 1, 4, 5], &[2], &[3]], 6);
    takes("001-F2.2", &[&[0], &[4, 1], &[5, 2], &[3]], 15);
}

/// 001, figure 3.1: with dear messages one processor is best, as the source says. It prints 0.6
/// microseconds for it, but its own works come to 0.4, which is 8 here.
#[test]
fn dear_messages() {
    let plan = planned("001-F3.1");
    assert_eq!((plan.programmes.len(), plan.claim), (1, 8));
    takes("001-F3.1", &[&[0, 4], &[1, 5], &[2], &[3]], 2756);
}

/// 001, figures 4.1, 4.2 and 4.9. Reading A keeps every printed level; reading B gives task 4 the
/// level 14, printed 15, but keeps all else. The plan has the source's clusters and length. It
/// takes task 3 before task 2 at equal priority (the greater level first), and gives task 2 its
/// processor by the idle step, where the source moves both together later.
#[test]
fn seven_tasks() {
    assert_eq!(levels(&figure("001-F4.1-A").sheet()), [26, 18, 16, 19, 15, 9, 2]);
    assert_eq!(levels(&figure("001-F4.1-B").sheet()), [26, 18, 16, 19, 14, 9, 2]);
    for name in ["001-F4.1-A", "001-F4.1-B"] {
        let plan = planned(name);
        assert_eq!(plan.programmes, [vec![0, 1, 6], vec![3, 2, 5], vec![4]]);
        assert_eq!(plan.claim, 16);
        takes(name, &[&[0], &[1], &[2], &[3], &[4], &[5], &[6]], 26);
        takes(name, &[&[0, 1], &[2], &[3], &[4], &[5], &[6]], 20);
        takes(name, &[&[0], &[1, 6], &[2], &[3], &[4], &[5]], 22);
        takes(name, &[&[0, 1, 6], &[2], &[3], &[4], &[5]], 19);
        takes(name, &[&[0], &[1], &[2], &[3, 5], &[4], &[6]], 26);
        takes(name, &[&[0, 1], &[4, 2, 3, 5, 6]], 20);
    }
}

/// 001, figure 5.5: the order and the schedule of its critical path rule, on two processors.
#[test]
fn without_communication() {
    assert_eq!(levels(&figure("001-F5.5").sheet()), [4, 4, 6, 2, 1]);
    let plan = planned("001-F5.5");
    assert_eq!(plan.programmes, [vec![2, 4], vec![0, 1, 3]]);
    assert_eq!(plan.claim, 6);
    // Its other rule.
    takes("001-F5.5", &[&[0, 3], &[1, 2, 4]], 8);
}

/// 001, figure 5.7: the levels without an assignment. The source's levels with one differ, since
/// costs inside a processor are taken as nought there; its two schedules have lengths 6 and 7.
#[test]
fn unit_weights() {
    assert_eq!(levels(&figure("001-F5.7").sheet()), [9, 7, 5, 5, 3, 3, 1]);
    let plan = planned("001-F5.7");
    assert_eq!(plan.programmes, [vec![0, 1, 3, 4, 6], vec![2, 5]]);
    assert_eq!(plan.claim, 6);
    takes("001-F5.7", &[&[0, 2, 1, 3, 4, 6], &[5]], 6);
    takes("001-F5.7", &[&[0, 1, 2, 3, 4, 6], &[5]], 7);
}

/// 001, figure 6.1: its two programmes are never stuck. No length is printed; weights of 1 give 8.
#[test]
fn gauss_jordan() {
    let sheet = figure("001-F6.1").sheet();
    assert_eq!(check(&sheet, &gauss_jordan_bundle()), Ok(()));
    // Five messages cross.
    assert_eq!(gauss_jordan_bundle().len(), 2 * (2 + 5 * 2) + 5 * 2 * 3 + 5);
}

/// 001, figure 7.14: the first task's level is the critical path without messages, 2^(m+1) - 2 for
/// m = 3 (times 4), the works come to m 2^m, and four processors reach the critical path.
#[test]
fn fourier() {
    let sheet: Sheet = figure("001-F7.14").sheet();
    assert_eq!(levels(&sheet)[0], 4 * 14);
    assert_eq!(sheet.tasks.iter().map(|task| u32::from(task.work)).sum::<u32>(), 4 * 24);
    assert_eq!(planned("001-F7.14").claim, 4 * 14);
}

/// Processors and claim of a figure on so many processors, by the steps without C-17 and with it.
fn without_and_with(name: &str, processors: u8) -> [(usize, u64); 2] {
    let bytes = figure(name).sheet_on(processors).to_bytes();
    let sheet = literal::sheet::Sheet::read(&bytes).unwrap();
    [Rules::BEFORE, Rules::WHOLE].map(|rules| {
        let placed = place(&sheet, rules).expect("nothing needs store");
        let opened = placed.iter().map(|row| row.processor + 1).max().unwrap();
        (opened, placed.iter().map(|row| row.finish).max().unwrap())
    })
}

/// C-17 takes back a processor that was opened in vain, but promises no shorter plan: with appendix A.5
/// on sixteen processors the claim rises, and two more are opened. On its own four it stays.
#[test]
fn free_links() {
    for (name, processors, before, now) in [
        ("001-F5.5", 4, (4, 6), (3, 6)),
        ("001-F5.7", 3, (3, 6), (2, 6)),
        ("001-F6.1", 16, (5, 7), (4, 7)),
        ("001-F7.14", 16, (5, 56), (4, 56)),
        ("001-A5", 4, (4, 74_400), (4, 74_400)),
        ("001-A5", 16, (11, 71_584), (13, 73_144)),
    ] {
        assert_eq!(without_and_with(name, processors), [before, now], "{name} on {processors}");
        let plan = plan(&figure(name).sheet_on(processors)).unwrap();
        assert_eq!((plan.programmes.len(), u64::from(plan.claim)), now, "{name} on {processors}");
    }
    // Every link of 001-F7.14 is free, so that nothing joins.
    let (steps, _) = steps("001-F7.14");
    assert_eq!(steps[..3], [Open, Share, Open]);
    assert!(!steps.contains(&Join));
}

/// 001, appendices A.3 to A.5: nothing is published for these sizes but the tasks and links.
#[test]
fn appendices() {
    for (name, tasks, links) in [("001-A3", 36, 63), ("001-A4", 101, 100), ("001-A5", 62, 76)] {
        let sheet = figure(name).sheet();
        assert_eq!((sheet.tasks.len(), sheet.links.len()), (tasks, links));
    }
}

/// A claim one off is refused for every figure, with the right one.
#[test]
fn claims_are_checked() {
    for figure in all() {
        let sheet = figure.sheet();
        let mut plan = plan(&sheet).unwrap();
        let right = Refusal { number: 30, place: plan.claim.into() };
        plan.claim += 1;
        assert_eq!(check(&sheet, &plan.to_bundle(&sheet)), Err(right));
    }
}
