//! C-23 of document 02 on the literal rules: every clause after lists of choices that end early, and why
//! the claim is a bound and not the time.

use inputs::{bundles, sheets, Random};
use literal::bundle::Bundle;
use literal::checker::check;
use literal::early::Run;
use literal::sheet::Sheet;
use std::fs;

/// An example's sheet and bundle.
fn example(name: &str) -> (Sheet, Bundle) {
    let file = |end: &str| {
        fs::read(format!("{}/../../examples/{name}.{end}", env!("CARGO_MANIFEST_DIR"))).unwrap()
    };
    let sheet = Sheet::read(&file("sheet")).unwrap();
    let bundle = Bundle::read(&sheet, &file("bundle")).unwrap();
    (sheet, bundle)
}

/// The latest clock when these choices are made, each a processor and how much earlier its step ends.
fn ends(sheet: &Sheet, bundle: &Bundle, choices: &[(u64, u64)]) -> u64 {
    let mut run = Run::fresh(sheet, bundle);
    for &(processor, early) in choices {
        assert_eq!(run.choose(processor, early), Ok(true));
    }
    assert_eq!(run.machine.left(), 0);
    run.machine.latest_clock()
}

/// K1 takes 5 with stated times. One job of the last two that ends 1 earlier changes nothing, both do; and
/// where all ends at once, so does the run.
#[test]
fn the_claim_is_a_bound() {
    let (sheet, bundle) = example("k1");
    let list = |last: [u64; 2]| {
        [(1, 0), (1, 0), (0, 0), (0, 0), (0, 0), (0, last[0]), (1, 0), (1, last[1])]
    };
    assert_eq!(ends(&sheet, &bundle, &list([0, 0])), 5);
    assert_eq!(ends(&sheet, &bundle, &list([1, 0])), 5);
    assert_eq!(ends(&sheet, &bundle, &list([0, 1])), 5);
    assert_eq!(ends(&sheet, &bundle, &list([1, 1])), 4);
    let at_once = list([0, 0]).map(|(processor, _)| (processor, u64::MAX));
    assert_eq!(ends(&sheet, &bundle, &at_once), 0);
    // A message that comes 1 earlier, and a receive that is unpacked at once.
    let (sheet, bundle) = example("unpacking");
    let list = |sent: u64, unpacked: u64| {
        [(0, 0), (0, sent), (1, unpacked), (1, 0), (2, 0), (2, 0), (0, unpacked), (0, 0)]
    };
    assert_eq!(ends(&sheet, &bundle, &list(0, 0)), 6);
    assert_eq!(ends(&sheet, &bundle, &list(1, 0)), 6);
    assert_eq!(ends(&sheet, &bundle, &list(0, 1)), 5);
}

/// Random lists on accepted bundles, with messages, unpacking and releases: no clause is ever broken, and
/// many lists are done before the claim.
#[test]
fn every_clause_holds() {
    let mut random = Random::new(23);
    let (mut lists, mut earlier) = (0, 0);
    while lists < 3000 {
        let mut values = sheets::small_board(&mut random);
        if random.once_in(2) {
            sheets::unpack(&mut random, &mut values);
        }
        let mut made = bundles::orderly(&mut random, &values);
        if random.once_in(2) {
            bundles::release(&mut random, &values, &mut made);
        }
        let sheet = Sheet::read(&values.encode()).unwrap();
        let bundle = Bundle::read(&sheet, &made.encode()).unwrap();
        if check(&sheet, &bundle).is_err() {
            continue;
        }
        let mut run = Run::fresh(&sheet, &bundle);
        while run.machine.left() > 0 {
            let early = random.below(40) as u64;
            let processor = random.below(bundle.programmes.len() + 1) as u64;
            run.choose(processor, early).unwrap();
        }
        lists += 1;
        earlier += usize::from(run.machine.latest_clock() < bundle.claim);
    }
    assert!(earlier > 1000, "{earlier}");
}

/// A bundle that is not accepted breaks a clause: over the store, stuck, or with another claim.
#[test]
fn clauses_are_broken_by_others() {
    let mut all = Vec::new();
    let (k6, stuck) = example("k6");
    all.push(Run::fresh(&k6, &stuck).choose(0, 0));
    let (k1, plan) = example("k1");
    let full = Sheet { limit: 9, ..k1.clone() };
    all.push(Run::fresh(&full, &plan).choose(0, 0));
    let hasty = Bundle { claim: 1, ..plan };
    all.push(Run::fresh(&k1, &hasty).choose(0, 0));
    let words = [
        "some processor can step while any is left",
        "store holds",
        "the latest clock is at most the claim",
    ];
    assert_eq!(all, words.map(Err));
}
