//! The trial sheets with their bundles, as bytes and as files, and what the program `trials` reads and
//! prints.

use crate::bundle::{write_claim, Command};
use crate::least::MOST_ARRANGED;
use crate::load::Load;
use crate::sheet::Sheet;
use crate::{figures, least, listing, planner};
use Command::{Discard, Open, Receive, Release, Run, Send};

/// K1: four tasks of store 10 and three links of 4 bytes on three processors.
pub fn k1_sheet() -> Vec<u8> {
    like_k1(3, 100, 2)
}

/// The bundle of K1 as it is published.
pub const K1_BUNDLE: [u8; 29] = [
    0x50, 0x00, 0x52, 0x03, 0x53, 0x00, 0x00, 0x56, 0x02, 0x00, 0x52, 0x01, // processor 0
    0x50, 0x01, 0x52, 0x00, 0x53, 0x02, 0x00, 0x56, 0x00, 0x00, 0x52, 0x02, // processor 1
    0x5A, 0x05, 0x00, 0x00, 0x00,
];

/// The listing of K1 as it is published.
pub const K1_LISTING: &[u8] = b"PLAN 2 5\n0 1 0 1\n1 0 2 5\n2 1 3 5\n3 0 0 2\n";

/// K2: K1 with one processor.
pub fn k2_sheet() -> Vec<u8> {
    like_k1(1, 100, 2)
}

/// K3: K1 with work 3 for task 2.
pub fn k3_sheet() -> Vec<u8> {
    like_k1(3, 100, 3)
}

/// K4: K1 with another store limit.
pub fn k4_sheet(limit: u32) -> Vec<u8> {
    like_k1(3, limit, 2)
}

/// K5: five unlinked tasks that fit two processors, though the planner does not see how.
pub fn k5_sheet() -> Vec<u8> {
    valid_sheet(2, 6, &[1, 3, 1, 3, 1, 2, 1, 2, 1, 2], &[])
}

/// The bundle that fits K5.
pub fn k5_bundle() -> Vec<u8> {
    bundle(&[Open(0), Run(0), Run(1), Open(1), Run(2), Run(3), Run(4)], 3)
}

/// K6: two links between four tasks of work 1.
pub fn k6_sheet() -> Vec<u8> {
    valid_sheet(2, 0, &[1, 0, 1, 0, 1, 0, 1, 0], &[0, 1, 1, 0, 2, 3, 1, 0])
}

/// The bundle of K6 in which both processors wait for each other.
pub fn k6_bundle() -> Vec<u8> {
    let commands = [
        [Open(0), Receive(1), Run(3), Run(0), Send(0)],
        [Open(1), Receive(0), Run(1), Run(2), Send(1)],
    ];
    bundle(commands.as_flattened(), 4)
}

/// K7: K1's bundle with the claim 6.
pub fn k7_bundle() -> Vec<u8> {
    let mut bundle = K1_BUNDLE.to_vec();
    bundle[25] = 6;
    bundle
}

/// K8: a task that links to itself.
pub fn k8_self_sheet() -> Vec<u8> {
    circle_sheet(1, &[[0, 0]])
}

/// K8: a task before a circle of two.
pub fn k8_circle_sheet() -> Vec<u8> {
    circle_sheet(3, &[[0, 1], [1, 2], [2, 1]])
}

/// K1's board with no jobs yet.
pub fn bare_sheet() -> Vec<u8> {
    valid_sheet(3, 100, &[], &[])
}

/// The bundle of a bare board's plan: no programme, and the claim 0.
pub const BARE_BUNDLE: [u8; 5] = [0x5A, 0, 0, 0, 0];

/// The smallest sheet with a free link: two tasks, joined by a link of cost 0.
pub fn free_link_sheet() -> Vec<u8> {
    valid_sheet(2, 0, &[1, 0, 1, 0], &[0, 1, 0, 0])
}

/// K1 on a board on which each receive takes 1: a third processor is opened.
pub fn unpacking_sheet() -> Vec<u8> {
    Sheet { unpacking: 1, ..read(&k1_sheet()) }.to_bytes()
}

/// The same as text.
const UNPACKING_TEXT: &str = "\
# K1 on a board on which each receive takes 1.
board processors 3 store 100 unpacking 1

task 0 work 1 store 10
task 1 work 3 store 10
task 2 work 2 store 10
task 3 work 2 store 10

link 3 -> 2 cost 1 bytes 4
link 3 -> 1 cost 2 bytes 4
link 0 -> 1 cost 1 bytes 4
";

/// Five tasks on a cube of four processors. The last starts first on processor 3, two hops from its first
/// source and one from its second, so that processor 2 is skipped.
pub fn cube_sheet() -> Vec<u8> {
    let tasks = [2, 10, 1, 10, 2, 10, 3, 10, 1, 10];
    let links = [0, 2, 1, 4, 1, 3, 1, 4, 0, 4, 1, 4, 1, 4, 2, 4];
    let sheet = Sheet::from_values(4, 100, 0, true, &tasks, &links);
    sheet.expect("the trial sheet is valid").to_bytes()
}

/// The same as text.
const CUBE_TEXT: &str = "\
# Two halves and a task that needs both, on a board wired as a square.
board processors 4 store 100 cube

task 0 work 2 store 10
task 1 work 1 store 10
task 2 work 2 store 10
task 3 work 3 store 10
task 4 work 1 store 10

link 0 -> 2 cost 1 bytes 4
link 1 -> 3 cost 1 bytes 4
link 0 -> 4 cost 1 bytes 4
link 1 -> 4 cost 2 bytes 4
";

/// K1's bundle behind the pass: each result and each message is released behind its last use.
pub const K1_RELEASED: [u8; 43] = [
    0x50, 0x00, 0x52, 0x03, 0x53, 0x00, 0x00, 0x56, 0x02, 0x00, 0x52, 0x01, // processor 0
    0x46, 0x01, 0x46, 0x03, 0x47, 0x02, 0x00, // its releases
    0x50, 0x01, 0x52, 0x00, 0x53, 0x02, 0x00, 0x46, 0x00, // processor 1
    0x56, 0x00, 0x00, 0x52, 0x02, 0x46, 0x02, 0x47, 0x00, 0x00, // its other half
    0x5A, 0x05, 0x00, 0x00, 0x00,
];

/// Five tasks whose stores fit two processors only if results are released once they are read.
pub fn release_sheet() -> Vec<u8> {
    let tasks = [4, 60, 6, 40, 8, 50, 3, 30, 2, 10];
    let links = [0, 1, 9, 60, 0, 3, 2, 60, 1, 2, 9, 40, 2, 4, 9, 50];
    valid_sheet(2, 100, &tasks, &links)
}

/// The programmes that fit it.
pub fn release_bundle() -> Vec<u8> {
    let chain = [Run(0), Send(1), Run(1), Release(0), Run(2), Release(1), Run(4)];
    let beside = [Receive(1), Run(3), Discard(1), Release(3)];
    let ends = [Release(2), Release(4)];
    bundle(&[&[Open(0)], &chain[..], &ends, &[Open(1)], &beside].concat(), 20)
}

/// Both as text.
const RELEASE_TEXT: &str = "\
# The stores of the chain come to 160, but never more than 100 of them are in use.
board processors 2 store 100

task record   work 4 store 60
task filter   work 6 store 40
task spectrum work 8 store 50
task archive  work 3 store 30
task report   work 2 store 10

link record -> filter   cost 9 bytes 60
link record -> archive  cost 2 bytes 60
link filter -> spectrum cost 9 bytes 40
link spectrum -> report cost 9 bytes 50

processor 0
  run record
  send record -> archive
  run filter
  release record
  run spectrum
  release filter
  run report
  release spectrum
  release report
processor 1
  receive record -> archive
  run archive
  discard record -> archive
  release archive
claim 20
";

/// A load whose six tries have each way to go: 2 to 2 twice, 2 to 1, 1 to 2, which is written, 1 to 2
/// again, and 0 to 2.
pub const SMALL_LOAD: Load = Load { seed: 3, tasks: 3, tries: 6, processors: 2, limit: 100 };

/// A load of some tasks on four processors.
pub const LOAD: Load = Load { seed: 21, tasks: 24, tries: 60, processors: 4, limit: 600 };

/// The sheet of a load.
fn load_sheet(load: Load) -> Vec<u8> {
    load.to_bytes().expect("the load is in range")
}

/// K9 and K10 by name: K1's sheet a byte shorter and longer, with other processors, and no bytes.
pub fn k9_and_k10() -> Vec<(String, Vec<u8>)> {
    let whole = k1_sheet();
    let mut sheets = vec![
        ("K9-47".into(), whole[..47].to_vec()),
        ("K9-49".into(), [&whole[..], &[0x51]].concat()),
    ];
    for processors in [0, 1, 16, 17] {
        let mut sheet = whole.clone();
        sheet[1] = processors;
        sheets.push((format!("K10-{processors}"), sheet));
    }
    sheets.push(("K10-empty".into(), Vec::new()));
    sheets
}

/// The sheets of the program `trials` by name: K9, K10, a bare board, a free link, K1 with unpacking, a
/// cube and each figure.
pub fn named() -> Vec<(String, Vec<u8>)> {
    let figures = figures::all().into_iter();
    let figures = figures.map(|figure| (figure.name.to_string(), figure.sheet().to_bytes()));
    let own = [
        ("bare", bare_sheet()),
        ("free-link", free_link_sheet()),
        ("unpacking", unpacking_sheet()),
        ("cube", cube_sheet()),
    ];
    let own = own.map(|(name, sheet)| (name.to_string(), sheet));
    k9_and_k10().into_iter().chain(own).chain(figures).collect()
}

/// What the program `trials` reads: for each sheet the name's length (u8), the name, the sheet's
/// length (u16, lowest byte first), the sheet.
pub fn records() -> Vec<u8> {
    let mut records = Vec::new();
    for (name, sheet) in named() {
        records.push(u8::try_from(name.len()).expect("a short name"));
        records.extend(name.as_bytes());
        records.extend(u16::try_from(sheet.len()).expect("a short sheet").to_le_bytes());
        records.extend(sheet);
    }
    records
}

/// What the program `trials` prints: the name and the listing of each sheet.
pub fn listings() -> Vec<u8> {
    named()
        .into_iter()
        .flat_map(|(name, sheet)| [name.as_bytes(), b"\n", &listing::print(&sheet)].concat())
        .collect()
}

/// The files of the program `trials`: their names and bytes.
pub fn program_files() -> [(&'static str, Vec<u8>); 2] {
    [("stdin", records()), ("stdout", listings())]
}

/// The files of the examples: their names and bytes.
pub fn files() -> Vec<(String, Vec<u8>)> {
    let mut files = vec![
        ("k1.sheet", k1_sheet()),
        ("k1.bundle", K1_BUNDLE.to_vec()),
        ("k1-least.bundle", best(&read(&k1_sheet()))),
        ("k2.sheet", k2_sheet()),
        ("k2.bundle", planned(&k2_sheet())),
        ("k3.sheet", k3_sheet()),
        ("k3.bundle", planned(&k3_sheet())),
        ("k4-24.sheet", k4_sheet(24)),
        ("k4-24.bundle", planned(&k4_sheet(24))),
        ("k4-23.sheet", k4_sheet(23)),
        ("k4-23.bundle", planned(&k4_sheet(23))),
        ("k5.sheet", k5_sheet()),
        ("k5.bundle", k5_bundle()),
        ("k6.sheet", k6_sheet()),
        ("k6.bundle", k6_bundle()),
        ("k7.bundle", k7_bundle()),
        ("k8-self.sheet", k8_self_sheet()),
        ("k8-circle.sheet", k8_circle_sheet()),
        ("bare.sheet", bare_sheet()),
        ("bare.bundle", BARE_BUNDLE.to_vec()),
        ("free-link.sheet", free_link_sheet()),
        ("free-link.bundle", planned(&free_link_sheet())),
        ("unpacking.sheet", unpacking_sheet()),
        ("unpacking.bundle", planned(&unpacking_sheet())),
        ("unpacking.txt", UNPACKING_TEXT.into()),
        ("cube.sheet", cube_sheet()),
        ("cube.bundle", planned(&cube_sheet())),
        ("cube.txt", CUBE_TEXT.into()),
        ("k1-released.bundle", K1_RELEASED.to_vec()),
        ("release.sheet", release_sheet()),
        ("release.bundle", release_bundle()),
        ("release.txt", RELEASE_TEXT.into()),
        ("load-small.sheet", load_sheet(SMALL_LOAD)),
        ("load.sheet", load_sheet(LOAD)),
        ("figures/001-F6.1.bundle", figures::gauss_jordan_bundle()),
    ]
    .into_iter()
    .map(|(name, bytes)| (name.to_string(), bytes))
    .collect::<Vec<_>>();
    for figure in figures::all() {
        let (name, sheet) = (figure.name, figure.sheet());
        if sheet.tasks.len() <= MOST_ARRANGED {
            files.push((format!("figures/{name}-least.bundle"), best(&sheet)));
        }
        files.push((format!("figures/{name}.sheet"), sheet.to_bytes()));
    }
    files
}

/// K1 but for the processors, the store limit and the work of task 2.
fn like_k1(processors: u8, limit: u32, work_2: u16) -> Vec<u8> {
    let tasks = [1, 10, 3, 10, work_2, 10, 2, 10];
    let links = [3, 2, 1, 4, 3, 1, 2, 4, 0, 1, 1, 4];
    valid_sheet(processors, limit, &tasks, &links)
}

fn valid_sheet(processors: u8, limit: u32, tasks: &[u16], links: &[u16]) -> Vec<u8> {
    Sheet::from_values(processors, limit, 0, false, tasks, links)
        .expect("the trial sheet is valid")
        .to_bytes()
}

/// A sheet that no writer writes: tasks of work 1 and store 0, links of cost and bytes 0.
fn circle_sheet(tasks: usize, links: &[[u8; 2]]) -> Vec<u8> {
    let mut sheet = vec![0x4D, 1, 0, 0, 0, 0];
    for _ in 0..tasks {
        sheet.extend([0x54, 1, 0, 0, 0]);
    }
    for &[source, target] in links {
        sheet.extend([0x45, source, target, 0, 0, 0, 0]);
    }
    sheet.push(0x51);
    sheet
}

fn bundle(commands: &[Command], claim: u32) -> Vec<u8> {
    let mut bundle = Vec::new();
    commands.iter().for_each(|command| command.write(&mut bundle));
    write_claim(claim, &mut bundle);
    bundle
}

fn read(sheet: &[u8]) -> Sheet {
    Sheet::read(sheet).expect("the trial sheet is valid")
}

fn planned(sheet: &[u8]) -> Vec<u8> {
    let sheet = read(sheet);
    planner::plan(&sheet).expect("the trial sheet has a plan").to_bundle(&sheet)
}

fn best(sheet: &Sheet) -> Vec<u8> {
    least::least(sheet).expect("the trial sheet has a plan")
}
