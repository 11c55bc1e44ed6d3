//! The task graphs of the two sources' figures and listings that can be read whole. Their works and
//! costs are the printed ones, times a factor where those are no whole numbers; stores, bytes and
//! limits are 0, since the sources print none.

use crate::planner::{Placement, Plan};
use crate::sheet::Sheet;

/// A task graph of a source.
#[derive(Clone, Debug)]
pub struct Figure {
    /// The source's number, then F and the figure, or A and the section of its appendix.
    pub name: &'static str,
    /// The processors that the source has, or as many as its best schedule uses.
    pub processors: u8,
    works: Vec<u16>,
    /// Source, target and cost.
    links: Vec<[u16; 3]>,
}

impl Figure {
    /// The figure's sheet on its own number of processors.
    pub fn sheet(&self) -> Sheet {
        self.sheet_on(self.processors)
    }

    /// The figure's sheet on so many processors.
    pub fn sheet_on(&self, processors: u8) -> Sheet {
        let tasks: Vec<u16> = self.works.iter().flat_map(|&work| [work, 0]).collect();
        let links: Vec<u16> = self
            .links
            .iter()
            .flat_map(|&[source, target, cost]| [source, target, cost, 0])
            .collect();
        Sheet::from_values(processors, 0, 0, false, &tasks, &links)
            .expect("the figure is a valid sheet")
    }
}

/// Every figure.
pub fn all() -> Vec<Figure> {
    vec![
        scheduling_example(),
        bounded_example(),
        six_statements("001-F2.2", 3, 4),
        six_statements("001-F3.1", 4, 2752),
        seven_tasks("001-F4.1-A", [2, 2], [5, 5, 2]),
        seven_tasks("001-F4.1-B", [1, 3], [6, 4, 1]),
        without_communication(),
        unit_weights(),
        gauss_jordan(),
        fourier("001-F7.14", 3, 8, 24, |_| 0),
        elimination_with_pivots(),
        fork(),
        // 0.5 and 2 operations an item of 1.6 microseconds, messages of 200 microseconds and 0.6 a
        // byte, four bytes an item; all times 5.
        fourier("001-A5", 5, 4096, 16_384, |layer| 1000 + 3 * (4096 >> layer)),
    ]
}

/// Figures 1 and 2 of 000, which are K1 but for stores and bytes.
fn scheduling_example() -> Figure {
    Figure {
        name: "000-F1",
        processors: 3,
        works: vec![1, 3, 2, 2],
        links: vec![[3, 2, 1], [3, 1, 2], [0, 1, 1]],
    }
}

/// Figures 3 and 4 of 000.
fn bounded_example() -> Figure {
    Figure {
        name: "000-F3",
        processors: 3,
        works: vec![1, 5, 2, 3, 2, 2],
        links: vec![[0, 1, 1], [0, 2, 1], [1, 3, 1], [1, 4, 1], [2, 5, 9], [3, 5, 1], [4, 5, 1]],
    }
}

/// The six assignments of 001's figures 2.2 and 3.1, whose weights the second gives in microseconds
/// (times 20 here).
fn six_statements(name: &'static str, processors: u8, cost: u16) -> Figure {
    let pairs = [[0, 1], [0, 2], [0, 3], [0, 4], [1, 5]];
    Figure {
        name,
        processors,
        works: vec![1, 1, 1, 1, 2, 2],
        links: pairs.map(|[source, target]| [source, target, cost]).to_vec(),
    }
}

/// 001's figures 4.1, 4.2 and 4.9 (times 2 here). The printed facts contradict each other, so there
/// are two readings: they differ in the works of tasks 2 and 5 and in the costs of three links.
fn seven_tasks(name: &'static str, [n3, n6]: [u16; 2], [n3_n6, n6_n7, n5_n6]: [u16; 3]) -> Figure {
    Figure {
        name,
        processors: 3,
        works: vec![2, 12, n3, 2, 4, n6, 2],
        links: vec![
            [3, 5, 8],
            [0, 1, 6],
            [2, 5, n3_n6],
            [5, 6, n6_n7],
            [1, 6, 4],
            [0, 2, 1],
            [4, 5, n5_n6],
        ],
    }
}

/// 001's figure 5.5, where messages cost nothing.
fn without_communication() -> Figure {
    Figure {
        name: "001-F5.5",
        processors: 2,
        works: vec![2, 2, 5, 1, 1],
        links: vec![[0, 3, 0], [1, 3, 0], [2, 4, 0], [3, 4, 0]],
    }
}

/// 001's figure 5.7, with those seven links that every fitting graph has.
fn unit_weights() -> Figure {
    let pairs = [[0, 1], [0, 2], [1, 3], [2, 5], [3, 4], [4, 6], [5, 6]];
    Figure {
        name: "001-F5.7",
        processors: 2,
        works: vec![1; 7],
        links: pairs.map(|[source, target]| [source, target, 1]).to_vec(),
    }
}

/// 001's figure 6.1, Gauss-Jordan elimination of four rows. Its weights are symbols; they are 1 here.
fn gauss_jordan() -> Figure {
    let pairs = [
        [0, 4],
        [1, 4],
        [0, 5],
        [2, 5],
        [0, 6],
        [3, 6],
        [4, 7],
        [5, 7],
        [4, 8],
        [6, 8],
        [7, 9],
        [8, 9],
    ];
    Figure {
        name: "001-F6.1",
        processors: 2,
        works: vec![1; 10],
        links: pairs.map(|[source, target]| [source, target, 1]).to_vec(),
    }
}

/// The two programmes of 001's figure 6.1, as its bundle; with its weights of 1 it takes 8.
pub fn gauss_jordan_bundle() -> Vec<u8> {
    bundle(&gauss_jordan().sheet(), &[&[0, 1, 4, 7, 9], &[2, 5, 3, 6, 8]], 8)
}

/// 001's fast Fourier transform, figure 7.14 and appendix A.5: a tree of splits and one of merges.
/// The works halve and the messages shrink from layer to layer; `split` and `merge` are those of
/// layer 0.
fn fourier(
    name: &'static str,
    layers: u32,
    split: u16,
    merge: u16,
    cost: impl Fn(u32) -> u16,
) -> Figure {
    let splits = (1 << layers) - 1;
    // The numbers of a layer's first split and first merge: the merges of the last layer come first.
    let first_split = |layer: u32| (1u16 << layer) - 1;
    let first_merge = |layer: u32| splits + (1 << layers) - (1 << (layer + 1));
    let mut works = Vec::new();
    let mut links = Vec::new();
    for layer in 0..layers {
        works.extend(vec![split >> layer; 1 << layer]);
        for i in 0..1 << layer {
            let from = first_split(layer) + i;
            match layer + 1 == layers {
                true => links.push([from, first_merge(layer) + i, cost(layer)]),
                false => links.extend(
                    [0, 1].map(|half| [from, first_split(layer + 1) + 2 * i + half, cost(layer)]),
                ),
            }
        }
    }
    for layer in (0..layers).rev() {
        works.extend(vec![merge >> layer; 1 << layer]);
        for i in 0..(1 << layer) * u16::from(layer > 0) {
            let to = first_merge(layer - 1) + i / 2;
            links.push([first_merge(layer) + i, to, cost(layer - 1)]);
        }
    }
    Figure { name, processors: 4, works, links }
}

/// 001's appendix A.3 with pivots, of eight rows (in hundredths of a microsecond): in each of eight
/// rounds a pivot, then an update of each column behind it.
fn elimination_with_pivots() -> Figure {
    const ROWS: u16 = 8;
    /// Messages of 160, 32 and 128 bytes.
    const PIVOT_TO_UPDATE: u16 = 29_600;
    const PIVOT_TO_PIVOT: u16 = 21_920;
    const UPDATE_ONWARDS: u16 = 27_680;
    let mut works = Vec::new();
    let mut links = Vec::new();
    let mut pivot = 0;
    for round in 0..ROWS {
        let updates = ROWS - 1 - round;
        works.extend(vec![(ROWS + 1 - round) * 8 * 234; usize::from(updates) + 1]);
        links.extend((1..=updates).map(|i| [pivot, pivot + i, PIVOT_TO_UPDATE]));
        let next = pivot + updates + 1;
        if updates > 0 {
            links.push([pivot, next, PIVOT_TO_PIVOT]);
        }
        // The first update leads to the next pivot, the others to the next update of their column.
        links.extend((1..=updates).map(|i| [pivot + i, next + i - 1, UPDATE_ONWARDS]));
        pivot = next;
    }
    Figure { name: "001-A3", processors: 4, works, links }
}

/// 001's appendix A.4, the product of two matrices of 100 columns, in microseconds.
fn fork() -> Figure {
    const COLUMNS: u16 = 100;
    let mut works = vec![8000];
    works.extend(vec![16_000; COLUMNS.into()]);
    let links = (1..=COLUMNS).map(|column| [0, column, 24_160]).collect();
    Figure { name: "001-A4", processors: 4, works, links }
}

/// The bundle of a published schedule: its tasks by processor, and its length as the claim.
pub fn bundle(sheet: &Sheet, programmes: &[&[u8]], length: u32) -> Vec<u8> {
    let mut placements = vec![Placement::default(); sheet.tasks.len()];
    for (processor, programme) in (0..).zip(programmes) {
        for &task in *programme {
            placements[usize::from(task)].processor = processor;
        }
    }
    let programmes = programmes.iter().map(|programme| programme.to_vec()).collect();
    Plan { placements, programmes, claim: length }.to_bundle(sheet)
}
