//! C-17 of document 02 on the literal rules: what the amended step changes in the plans of the steps
//! without it.

use inputs::{sheets, Random};
use literal::levels::levels;
use literal::placing::{place, turns, Placed, Rules, Step};
use literal::sheet::{Link, Sheet, Task};
use literal::Refusal;
use std::collections::HashSet;
use std::fs;

/// A schedule, or its refusal: of each task in placing order the task, its processor, start and finish.
type Schedule = Result<Vec<(usize, usize, u64, u64)>, Refusal>;

fn schedule(placed: &[Placed], outcome: Result<(), Refusal>) -> Schedule {
    let row = |p: &Placed| (p.task, p.processor, p.start, p.finish);
    outcome.map(|()| placed.iter().map(row).collect())
}

/// A small sheet, mostly one with free links.
fn sheet(random: &mut Random, round: usize) -> Sheet {
    let values = match round % 4 {
        0 => sheets::small_board(random),
        _ => sheets::sharing(random, 10),
    };
    Sheet::read(&values.encode()).expect("a valid sheet")
}

/// "A plan changes exactly when step 3 was used in it while such a processor existed, a refusal 11 only
/// then": plan, refusal and turn are those of the steps without C-17.
#[test]
fn what_it_changes() {
    let mut random = Random::new(17);
    // How often a plan stayed, became another and became a refusal; and how often a refusal stayed
    // without and with such a turn, named another task and became a plan.
    let mut plans = [0; 3];
    let mut refusals = [0; 4];
    for round in 0..60_000 {
        let sheet = sheet(&mut random, round);
        let levels = levels(&sheet);
        let (placed, outcome) = turns(&sheet, &levels, Rules::BEFORE);
        let in_vain = placed.iter().any(|placed| placed.opened_in_vain);
        let before = schedule(&placed, outcome);
        let (placed, outcome) = turns(&sheet, &levels, Rules::WHOLE);
        assert!(placed.iter().all(|placed| !placed.opened_in_vain));
        let now = schedule(&placed, outcome);
        match before {
            Ok(_) => assert_eq!(before != now, in_vain, "{sheet:?}"),
            Err(_) => assert!(before == now || in_vain, "{sheet:?}"),
        }
        match (&before, &now) {
            (Ok(_), Ok(_)) => plans[usize::from(in_vain)] += 1,
            (Ok(_), Err(_)) => plans[2] += 1,
            (Err(_), Err(_)) if before == now => refusals[usize::from(in_vain)] += 1,
            (Err(_), Err(_)) => refusals[2] += 1,
            (Err(_), Ok(_)) => refusals[3] += 1,
        }
    }
    let mut counts = plans.iter().chain(&refusals);
    assert!(counts.all(|&count| count > 10), "{plans:?} {refusals:?}");
}

/// It is used where a processor is left, and starts the task at its arrival: a task that starts before
/// it has joined.
#[test]
fn when_it_is_used() {
    let mut random = Random::new(18);
    let [mut shared, mut barred] = [0; 2];
    for round in 0..12_000 {
        let sheet = sheet(&mut random, round);
        let (placed, _) = turns(&sheet, &levels(&sheet), Rules::WHOLE);
        for (i, turn) in placed.iter().enumerate() {
            let open: HashSet<usize> = placed[..i].iter().map(|placed| placed.processor).collect();
            barred += usize::from(turn.share_guarded);
            if turn.step == Step::Share {
                assert!(open.len() < sheet.processors && open.contains(&turn.processor));
                let finish =
                    |task| placed.iter().find(|placed| placed.task == task).unwrap().finish;
                let arrival = sheet.links_into(turn.task).fold(0, |clock, (_, link)| {
                    clock.max(finish(link.from) + link.cost) + sheet.unpacking
                });
                assert_eq!(turn.start, arrival);
                shared += 1;
            }
        }
    }
    assert!(shared > 1000 && barred > 100, "{shared} {barred}");
}

/// "the smallest is two tasks joined by a link of cost 0, formerly on two processors, now on one with
/// the same claim".
#[test]
fn smallest() {
    for works in [[1, 1], [1, 65_535], [7, 2]] {
        let tasks = works.map(|work| Task { work, store: 3 }).to_vec();
        let links = vec![Link { from: 0, to: 1, cost: 0, bytes: 5 }];
        let mut sheet = Sheet { processors: 2, limit: 8, tasks, links, ..Sheet::default() };
        let rows = |sheet: &Sheet, rules| {
            let placed = place(sheet, rules).unwrap();
            placed.iter().map(|row| (row.processor, row.step)).collect::<Vec<_>>()
        };
        let claim = |sheet: &Sheet, rules| {
            place(sheet, rules).unwrap().iter().map(|row| row.finish).max().unwrap()
        };
        let before = [(0, Step::Open), (1, Step::Open)];
        assert_eq!(rows(&sheet, Rules::BEFORE), before);
        assert_eq!(rows(&sheet, Rules::WHOLE), [(0, Step::Open), (0, Step::Share)]);
        assert_eq!(claim(&sheet, Rules::BEFORE), claim(&sheet, Rules::WHOLE));
        // On one processor there is none left to open, so that it is the last resort as before.
        sheet.processors = 1;
        let alone = [(0, Step::Open), (0, Step::LastResort)];
        assert_eq!([Rules::BEFORE, Rules::WHOLE].map(|rules| rows(&sheet, rules)), [alone; 2]);
        // Where the two do not fit together nothing is changed.
        sheet.processors = 2;
        sheet.tasks[0].store = 6;
        assert_eq!(rows(&sheet, Rules::WHOLE), before);
    }
}

/// "K1 to K5 don't change."
#[test]
fn trial_sheets() {
    for name in ["k1", "k2", "k3", "k4-24", "k4-23", "k5"] {
        let path = format!("{}/../../examples/{name}.sheet", env!("CARGO_MANIFEST_DIR"));
        let sheet = Sheet::read(&fs::read(path).unwrap()).unwrap();
        let [before, now] = [Rules::BEFORE, Rules::WHOLE].map(|rules| {
            let (placed, outcome) = turns(&sheet, &levels(&sheet), rules);
            (schedule(&placed, outcome), placed.len())
        });
        assert_eq!(before, now, "{name}");
    }
}
