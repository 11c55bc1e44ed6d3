//! The rewrite held against the literal rules on made-up inputs.

use inputs::{bundles, damage, sheets, Random};
use literal::better::Decided;
use literal::placing::Rules;
use reference::graph;
use reference::machine::Machine;
use reference::planner::plan;
use reference::refusal::lend;
use reference::sheet::Sheet;
use reference::{interface, Refusal};

/// The rewrite's refusal as the literal rules have it.
fn same(refusal: Refusal) -> literal::Refusal {
    literal::Refusal { number: refusal.number, place: refusal.place }
}

/// The whole result of a function of the rewrite that writes to a lent output.
fn whole<T: Copy + Default>(
    call: impl FnOnce(&mut [T]) -> Result<usize, Refusal>,
) -> Result<Vec<T>, literal::Refusal> {
    let mut out = vec![T::default(); 4096];
    let length = call(&mut out).map_err(same)?;
    out.truncate(length);
    Ok(out)
}

#[test]
fn levels_of_all_paths() {
    let mut random = Random::new(6);
    for _ in 0..1000 {
        let sheet = sheets::telling(&mut random, 12).encode();
        assert_eq!(whole(|out| interface::levels(&sheet, out)), literal::interface::levels(&sheet));
    }
}

/// The literal bundle and listing of a sheet, by the rewrite's levels: all paths of a larger sheet
/// are too many to walk.
fn literal_plan(bytes: &[u8]) -> (Result<Vec<u8>, literal::Refusal>, Vec<u8>) {
    let levels = graph::levels(&Sheet::read(bytes).unwrap());
    let levels: Vec<u64> = levels.into_iter().map(u64::from).collect();
    let sheet = literal::sheet::Sheet::read(bytes).unwrap();
    let placed = literal::placing::place_by(&sheet, &levels, Rules::WHOLE);
    let lines = literal::listing::lines(&placed).into_bytes();
    (placed.map(|placed| literal::bundle::Bundle::of_plan(&sheet, &placed)), lines)
}

#[test]
fn plans() {
    let mut random = Random::new(1);
    let mut refusals = 0;
    for round in 0..12_000 {
        let mut sheet = match round % 8 {
            0 => sheets::guarded(&mut random),
            1 => sheets::telling(&mut random, 24),
            2 => sheets::sharing(&mut random, 24),
            3 => {
                let mut sheet = sheets::guarded(&mut random);
                sheets::free_links(&mut random, &mut sheet);
                sheet
            }
            4..=5 => sheets::cube(&mut random, 16),
            _ => sheets::telling(&mut random, 12),
        };
        if random.once_in(2) {
            sheets::unpack(&mut random, &mut sheet);
        }
        if random.once_in(4) {
            sheets::wire(&mut random, &mut sheet);
        }
        let sheet = sheet.encode();
        let bundle = whole(|out| interface::plan(&sheet, out));
        let lines = whole(|out| interface::listing(&sheet, out)).unwrap();
        assert_eq!((bundle.clone(), lines), literal_plan(&sheet), "{sheet:02X?}");
        match bundle {
            Ok(bundle) => assert_eq!(interface::check(&sheet, &bundle), Ok(())),
            Err(_) => refusals += 1,
        }
    }
    assert!((100..6000).contains(&refusals));
}

/// The best of all arrangements, of which no other is better by C-12's order; and what is not small.
#[test]
fn least_times() {
    let mut random = Random::new(22);
    let (mut counts, mut shorter) = ([0; 39], 0);
    for round in 0..4000 {
        let tasks = match round % 16 {
            0 => random.within(7..=9),
            1 => 0,
            2 if round % 256 == 2 => 5,
            _ => random.within(1..=4),
        };
        let mut sheet = sheets::compact(&mut random, tasks);
        if random.once_in(32) {
            sheet.cube = 1;
        }
        let bytes = sheet.encode();
        let bundle = whole(|out| interface::least(&bytes, out));
        assert_eq!(bundle, literal::interface::least(&bytes), "{sheet:?}");
        counts[bundle.as_ref().err().map_or(0, |refusal| usize::from(refusal.number))] += 1;
        let Ok(bundle) = bundle else { continue };
        assert_eq!(interface::check(&bytes, &bundle), Ok(()));
        if let Ok(planned) = whole(|out| interface::plan(&bytes, out)) {
            assert_eq!(interface::better(&bytes, &planned, &bundle), Ok(&bundle[..]), "{sheet:?}");
            shorter += usize::from(claim(&planned) > claim(&bundle));
        }
    }
    assert!(
        shorter > 30 && [0, 11, 38].iter().all(|&number| counts[number] > 100),
        "{shorter} {counts:?}"
    );
}

/// The claim at the end of a bundle.
fn claim(bundle: &[u8]) -> u32 {
    u32::from_le_bytes(*bundle.last_chunk().expect("a claim"))
}

/// On a sheet without unpacking no accepted bundle without releases, of whatever form, claims less.
#[test]
fn least_of_any_form() {
    let mut random = Random::new(23);
    let mut as_short = 0;
    for _ in 0..3000 {
        let tasks = random.within(1..=5);
        let sheet = sheets::Sheet { unpacking: 0, ..sheets::compact(&mut random, tasks) };
        let bytes = sheet.encode();
        let least = whole(|out| interface::least(&bytes, out)).map(|bundle| claim(&bundle));
        for _ in 0..20 {
            let bundle = bundles::orderly(&mut random, &sheet);
            if interface::check(&bytes, &bundle.encode()).is_ok() {
                let least = least.expect("a bundle is accepted");
                assert!(least <= bundle.claim, "{sheet:?} {bundle:?}");
                as_short += usize::from(least == bundle.claim);
            }
        }
    }
    assert!(as_short > 1000, "{as_short}");
}

#[test]
fn large_plans_are_accepted() {
    let mut random = Random::new(2);
    for _ in 0..60 {
        let bytes = sheets::largest(&mut random).encode();
        let sheet = Sheet::read(&bytes).unwrap();
        if let Ok(plan) = plan(&sheet) {
            assert_eq!(interface::check(&bytes, &plan.to_bundle(&sheet)), Ok(()));
        }
    }
}

/// A small sheet with up to three more links, which may close circles; on a bare board they are loose.
fn perhaps_circular(random: &mut Random) -> sheets::Sheet {
    let mut values = sheets::small(random);
    let tasks = values.task_count();
    for _ in 0..random.below(4) {
        let ends = [0; 2].map(|_| random.below(tasks.max(1)) as u16);
        if !values.links.chunks(4).any(|link| link[..2] == ends) {
            values.links.extend([ends[0], ends[1], 0, 0]);
        }
    }
    values
}

/// Small sheets as an edit leaves them; each of these answers comes now and then.
fn wrong_boards(seed: u64, edit: fn(&mut Random, &[u8]) -> Vec<u8>, answers: &[usize]) {
    let mut random = Random::new(seed);
    let mut counts = [0; 11];
    for _ in 0..8000 {
        let sheet = sheets::small(&mut random).encode();
        let sheet = edit(&mut random, &sheet);
        let literal = literal::sheet::Sheet::read(&sheet).map(|_| ());
        assert_eq!(Sheet::read(&sheet).map(|_| ()).map_err(same), literal, "{sheet:02X?}");
        counts[literal.err().map_or(0, |refusal| usize::from(refusal.number))] += 1;
    }
    for &number in answers {
        assert!(counts[number] > 100, "{number} came {} times", counts[number]);
    }
}

/// Sheets with a time for receives where none may stand, twice, of 0 or cut.
#[test]
fn wrong_unpacking() {
    wrong_boards(9, damage::unpacking, &[0, 1, 3, 4, 6]);
}

/// Sheets with the wires of a cube where they may not stand, or twice.
#[test]
fn wrong_cubes() {
    wrong_boards(10, damage::cube, &[0, 1, 3, 4]);
}

#[test]
fn circles() {
    let mut random = Random::new(3);
    for round in 0..1500 {
        let values = match round % 3 {
            0 => perhaps_circular(&mut random),
            _ => {
                let size = random.within(1..=20);
                sheets::circle(&mut random, size)
            }
        };
        let sheet = values.encode();
        let literal = literal::sheet::Sheet::read(&sheet).map(|_| ());
        assert_eq!(Sheet::read(&sheet).map(|_| ()).map_err(same), literal);
    }
}

/// Any list of choices: each step takes one off the commands left, and the ends are alike.
fn any_choices(
    random: &mut Random,
    limit: u32,
    mut machine: Machine,
    literal: &mut literal::machine::Machine,
    verdict: Result<(), Refusal>,
) {
    for _ in 0..400 {
        let left = machine.left();
        let choice = random.below(machine.processors().len() + 1) as u64;
        let stepped = machine.step(choice).stepped();
        assert_eq!(stepped, literal.step(choice));
        assert_eq!(machine.left() + usize::from(stepped), left);
        assert!(machine.processors().iter().all(|processor| processor.store <= limit));
    }
    while (0..machine.processors().len()).any(|k| machine.step(k as u64).stepped()) {}
    match verdict {
        Ok(()) => assert_eq!((machine.left(), machine.latest_clock()), (0, machine.claim)),
        Err(refusal) if refusal.number == 29 => {
            assert!(machine.processors()[refusal.place as usize].unfinished())
        }
        Err(refusal) => {
            assert_eq!((refusal.number, refusal.place), (30, machine.latest_clock().into()))
        }
    }
    assert!(!machine.step(u64::MAX).stepped());
}

/// A pair through checker, pass and machine; the number that the checker gave.
fn judged(random: &mut Random, values: &sheets::Sheet, bundle: &[u8]) -> usize {
    let sheet = values.encode();
    let verdict = interface::check(&sheet, bundle);
    let literal = literal::interface::check(&sheet, bundle);
    assert_eq!(verdict.map_err(same), literal, "{values:?} {bundle:02X?}");
    let passed = whole(|out| interface::release(&sheet, bundle, out));
    let literal = literal::interface::release(&sheet, bundle);
    assert_eq!(passed, literal, "{values:?} {bundle:02X?}");

    let valid = Sheet::read(&sheet).unwrap();
    literal::interface::start(&sheet, bundle, |literal| {
        match (Machine::start(&valid, bundle), literal) {
            (Ok(machine), Ok(literal)) => {
                any_choices(random, values.limit, machine, literal, verdict)
            }
            (machine, literal) => {
                assert_eq!(machine.err().map(same), literal.err());
                assert!(verdict.is_err_and(|refusal| !matches!(refusal.number, 29 | 30)));
            }
        }
    });
    verdict.err().map_or(0, |refusal| refusal.number.into())
}

#[test]
fn verdicts_and_machines() {
    let mut random = Random::new(4);
    let mut counts = [0; 38];
    for _ in 0..8000 {
        let values = sheets::small(&mut random);
        let bundle = match random.below(3) {
            0 => bundles::tangled(&mut random, &values),
            _ => bundles::orderly(&mut random, &values),
        };
        let mut bundle = bundle.encode();
        for _ in 0..random.below(3) {
            damage::bytes(&mut random, &mut bundle, damage::bundle_command);
        }
        counts[judged(&mut random, &values, &bundle)] += 1;
    }
    for number in [0, 21, 22, 23, 24, 25, 26, 28, 29, 30, 31, 32, 33] {
        assert!(counts[number] > 10, "{number} came {} times", counts[number]);
    }
}

/// Releases at right positions, moved, doubled, dropped, with another number and of the other kind.
#[test]
fn releases() {
    let mut random = Random::new(10);
    let mut counts = [0; 38];
    for _ in 0..12_000 {
        let mut values = sheets::small(&mut random);
        let mut bundle = match random.once_in(4) {
            true => bundles::tangled(&mut random, &values),
            false => bundles::orderly(&mut random, &values),
        };
        bundles::release(&mut random, &values, &mut bundle);
        let need = bundles::needs(&values, &bundle).into_iter().max().unwrap_or(0);
        values.limit = (need + random.below(3) as u32).saturating_sub(1);
        for _ in 0..random.below(3) {
            bundles::unsettle(&mut random, &values, &mut bundle);
        }
        counts[judged(&mut random, &values, &bundle.encode())] += 1;
    }
    for number in [0, 23, 25, 28, 29, 30, 37] {
        assert!(counts[number] > 10, "{number} came {} times", counts[number]);
    }
}

/// What is passed is accepted, needs no more store, and is passed to itself.
#[test]
fn passed_bundles() {
    let mut random = Random::new(11);
    for round in 0..3000 {
        let mut values = match round % 64 {
            0 => sheets::valid(&mut random),
            _ => sheets::small(&mut random),
        };
        let bundle = bundles::orderly(&mut random, &values);
        let needs = bundles::needs(&values, &bundle);
        values.limit = needs.iter().copied().max().unwrap_or(0);
        let sheet = values.encode();
        let mut out = vec![0; 10_277];
        let length = interface::release(&sheet, &bundle.encode(), &mut out).unwrap();
        let passed = &out[..length];
        assert_eq!(interface::check(&sheet, passed), Ok(()));
        let mut commands = vec![0; 2 * length];
        let (count, claim) = interface::read_bundle(&sheet, passed, &mut commands).unwrap();
        commands.truncate(count);
        assert_eq!(claim, bundle.claim);
        let after = bundles::needs(&values, &bundles::Bundle { commands, claim });
        assert!(after.iter().zip(&needs).all(|(after, before)| after <= before));
        let mut again = vec![0; length];
        assert_eq!(interface::release(&sheet, passed, &mut again), Ok(length));
        assert_eq!(again, passed);
    }
}

/// How far each task may drift: of accepted bundles with ties, unpacking, cubes and releases, and refused
/// ones.
#[test]
fn drifts() {
    let mut random = Random::new(12);
    let mut counts = [0; 3];
    for round in 0..3000 {
        let mut values = match round % 3 {
            0 => sheets::even(&mut random),
            1 => sheets::small_board(&mut random),
            _ => sheets::small(&mut random),
        };
        values.limit = u32::MAX;
        if random.once_in(2) {
            sheets::unpack(&mut random, &mut values);
        }
        let mut bundle = match random.once_in(4) {
            true => bundles::tangled(&mut random, &values),
            false => bundles::orderly(&mut random, &values),
        };
        if random.once_in(2) {
            bundles::release(&mut random, &values, &mut bundle);
        }
        let (sheet, bundle) = (values.encode(), bundle.encode());
        let report = whole(|out| interface::drift(&sheet, &bundle, out));
        assert_eq!(report, literal::interface::drift(&sheet, &bundle), "{values:?} {bundle:02X?}");
        match report {
            Err(_) => counts[0] += 1,
            Ok(report) => {
                let drifts = report.as_chunks().0.iter().map(|&d| u32::from_le_bytes(d));
                drifts.for_each(|d| counts[1 + usize::from(d > 0)] += 1);
            }
        }
    }
    assert!(counts.iter().all(|&count| count > 50), "{counts:?}");
}

/// Bare boards, with bundles right and wrong: all functions, and any choices.
#[test]
fn bare_boards() {
    let mut random = Random::new(7);
    let mut counts = [0; 38];
    for _ in 0..8000 {
        let values = sheets::bare(&mut random);
        let sheet = values.encode();
        assert_eq!(whole(|out| interface::levels(&sheet, out)), Ok(Vec::new()));
        assert_eq!(whole(|out| interface::plan(&sheet, out)), literal::interface::plan(&sheet));
        let lines = whole(|out| interface::listing(&sheet, out));
        assert_eq!(lines, Ok(literal::interface::listing(&sheet)));
        let bundle = bundles::bare(&mut random, &values);
        let written =
            whole(|out| interface::write_bundle(&sheet, &bundle.commands, bundle.claim, out));
        let literal = literal::interface::write_bundle(&sheet, &bundle.commands, bundle.claim);
        assert_eq!(written, literal, "{values:?} {bundle:?}");
        let bytes = bundles::frayed(&mut random, &bundle);
        counts[judged(&mut random, &values, &bytes)] += 1;
    }
    for number in [0, 21, 23, 24, 25, 30] {
        assert!(counts[number] > 100, "{number} came {} times", counts[number]);
    }
}

/// Of two bundles the same one, by its address, or the same refusal; everything decides now and then.
#[test]
fn better_bundles() {
    let mut random = Random::new(8);
    let mut counts = [0; 6];
    for round in 0..12_000 {
        let values = match round % 4 {
            0 => sheets::small(&mut random),
            1 => sheets::bare(&mut random),
            _ => sheets::even(&mut random),
        };
        let mut sheet = values.encode();
        if random.once_in(16) {
            sheet = damage::few(&mut random, sheet, damage::sheet_command);
        }
        let bundle = bundles::orderly(&mut random, &values);
        let mut lent = [bundle.encode(), bundles::rival(&mut random, &values, &bundle)];
        if random.once_in(8) {
            let tangled = bundles::tangled(&mut random, &values);
            lent[0] = bundles::frayed(&mut random, &tangled);
        }
        if random.once_in(2) {
            lent.swap(0, 1);
        }
        let answer = interface::better(&sheet, &lent[0], &lent[1]).map_err(same);
        let literal = literal::interface::better(&sheet, &lent[0], &lent[1]);
        match (answer, literal) {
            (Ok(one), Ok((other, decided))) => {
                assert!(std::ptr::eq(one, other), "{values:?} {lent:02X?}");
                counts[match decided {
                    Decided::Acceptance => 0,
                    Decided::Rule(rule) => 1 + rule,
                    Decided::Nothing => 5,
                }] += 1;
            }
            (answer, literal) => {
                assert_eq!(answer.err(), literal.err(), "{values:?} {lent:02X?}")
            }
        }
    }
    // No accepted bundle begins another one, so that the length alone never decides.
    assert_eq!(counts[4], 0);
    counts[4] = usize::MAX;
    assert!(counts.iter().all(|&count| count > 100), "{counts:?}");
}

/// Values are refused as their bytes are, and what is written is read again.
#[test]
fn writers_and_readers() {
    let mut random = Random::new(5);
    for _ in 0..20_000 {
        let mut values = sheets::small(&mut random);
        for _ in 0..random.below(3) {
            match random.below(3) {
                0 => damage::values(&mut random, &mut values.tasks, 2),
                _ => damage::values(&mut random, &mut values.links, 4),
            }
        }
        let sheets::Sheet { processors, limit, unpacking, cube, ref tasks, ref links } = values;
        let sheet = Sheet::from_values(processors, limit, unpacking, cube != 0, tasks, links);
        let literal =
            literal::interface::write_sheet(processors, limit, unpacking, cube, tasks, links);
        assert_eq!(sheet.map(|sheet| sheet.to_bytes()).map_err(same), literal, "{values:?}");

        let values = sheets::small(&mut random);
        let sheet = values.encode();
        let mut bundle = bundles::loose(&mut random, &values, 6);
        for _ in 0..random.below(3) {
            damage::values(&mut random, &mut bundle.commands, 2);
        }
        let bundles::Bundle { ref commands, claim } = bundle;
        let written = whole(|out| interface::write_bundle(&sheet, commands, claim, out));
        let literal = literal::interface::write_bundle(&sheet, commands, claim);
        assert_eq!(written, literal, "{values:?} {bundle:?}");
        if let Ok(bytes) = written {
            let mut out = vec![0; commands.len()];
            let read = interface::read_bundle(&sheet, &bytes, &mut out);
            assert_eq!((read, &out), (Ok((commands.len(), claim)), commands));
        }
    }
}

/// A result as long as what is lent fits; one that is longer is refused (12), and nothing is
/// written.
#[test]
fn short_outputs() {
    let mut out = [7; 4];
    for needed in 0..8 {
        let literal = literal::refusal::output(needed, out.len());
        let answer = lend(&vec![9; needed], &mut out);
        assert_eq!(answer.map(|_| ()).map_err(same), literal);
    }
    assert_eq!(out, [9; 4]);
}
