//! C-19 of document 02 on the literal rules.

use inputs::{bundles, sheets, Random};
use literal::bundle::Bundle;
use literal::checker::check;
use literal::drift::{finishing_time, raised, report};
use literal::interface::drift;
use literal::sheet::Sheet;
use literal::Refusal;
use std::fs;

/// An example file.
fn example(name: &str) -> Vec<u8> {
    fs::read(format!("{}/../../examples/{name}", env!("CARGO_MANIFEST_DIR"))).unwrap()
}

/// The report of a sheet and a bundle as numbers.
fn numbers(sheet: &[u8], bundle: &[u8]) -> Result<Vec<u32>, Refusal> {
    let bytes = drift(sheet, bundle)?;
    Ok(bytes.as_chunks().0.iter().map(|&d| u32::from_le_bytes(d)).collect())
}

#[test]
fn by_hand() {
    // In K1's plan every task is on a way that takes 5.
    let k1 = example("k1.sheet");
    assert_eq!(numbers(&k1, &example("k1.bundle")), Ok(vec![0; 4]));
    // The chain takes 20; task 3 beside it ends at 9.
    let (sheet, bundle) = (example("release.sheet"), example("release.bundle"));
    assert_eq!(numbers(&sheet, &bundle), Ok(vec![0, 0, 0, 11, 0]));
    assert_eq!(drift(&sheet, &bundle).unwrap()[12..16], [11, 0, 0, 0]);
    // K2's one processor never waits; K3's tasks 0 and 1 are on a way that ends at 5, of 6.
    assert_eq!(numbers(&example("k2.sheet"), &example("k2.bundle")), Ok(vec![0; 4]));
    assert_eq!(numbers(&example("k3.sheet"), &example("k3.bundle")), Ok(vec![1, 1, 0, 0]));
    assert_eq!(numbers(&k1, &example("k7.bundle")), Err(Refusal::new(30, 5)));
    assert_eq!(drift(&example("bare.sheet"), &example("bare.bundle")), Ok(Vec::new()));
}

/// Two tasks of work 65,535 on one processor, and one of work 1 on another: it may drift farther than a
/// sheet can say.
#[test]
fn farther_than_a_work() {
    let sheet = b"\x4D\x02\0\0\0\0\x54\xFF\xFF\0\0\x54\xFF\xFF\0\0\x54\x01\0\0\0\x51";
    let bundle = b"\x50\0\x52\0\x52\x01\x50\x01\x52\x02\x5A\xFE\xFF\x01\0";
    assert_eq!(numbers(sheet, bundle), Ok(vec![0, 0, 131_069]));
}

/// "raising one task's work by d moves the finishing time by no less than 0 and no more than d", and the
/// report has the greatest that leaves it: each d up to it does, and one more does not.
#[test]
fn what_raising_a_work_does() {
    let mut random = Random::new(19);
    let mut tasks = 0;
    for round in 0..600 {
        let mut values = match round % 2 {
            0 => sheets::even(&mut random),
            _ => sheets::small(&mut random),
        };
        values.limit = u32::MAX;
        if random.once_in(2) {
            sheets::unpack(&mut random, &mut values);
            values.unpacking = values.unpacking.min(9);
        }
        let made = bundles::orderly(&mut random, &values).encode();
        let sheet = Sheet::read(&values.encode()).unwrap();
        let bundle = Bundle::read(&sheet, &made).unwrap();
        assert_eq!(check(&sheet, &bundle), Ok(()));
        for (task, greatest) in report(&sheet, &bundle).into_iter().enumerate() {
            let with = |d| finishing_time(&raised(&sheet, task, d), &bundle);
            let more = [greatest + 1, greatest + 2, random.below(200_000) as u64];
            let all = (0..=greatest.min(300)).chain([greatest]).chain(more);
            for d in all {
                let moved = with(d) - bundle.claim;
                assert!(moved <= d && (moved == 0) == (d <= greatest), "{task} {d} {values:?}");
            }
            tasks += 1;
        }
    }
    assert!(tasks > 1000);
}
