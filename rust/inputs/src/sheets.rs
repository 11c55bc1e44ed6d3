//! Made-up task sheets: graphs of many shapes, weights of many sizes, bare boards, and circles.

use crate::random::Random;
use std::collections::HashSet;

/// The most tasks of a sheet.
pub const MOST_TASKS: usize = 256;
/// The most links of a sheet.
pub const MOST_LINKS: usize = 1024;

/// The command of a sheet that says how long a receive takes.
pub const UNPACKING: u8 = 0x55;
/// The command of a sheet that says that its board is a cube.
pub const CUBE: u8 = 0x48;

/// The values of a sheet: two for a task (work, store), four for a link (source, target, cost, bytes).
#[derive(Clone, Debug, Default)]
pub struct Sheet {
    pub processors: u8,
    pub limit: u32,
    /// The time of each receive, 0 for a sheet that has none.
    pub unpacking: u16,
    /// Any number but 0 for a cube.
    pub cube: u8,
    pub tasks: Vec<u16>,
    pub links: Vec<u16>,
}

impl Sheet {
    /// How many tasks there are.
    pub fn task_count(&self) -> usize {
        self.tasks.len() / 2
    }

    /// Whether the board is bare: no task, and so no link.
    pub fn is_bare(&self) -> bool {
        self.task_count() == 0
    }

    /// How many links there are.
    pub fn link_count(&self) -> usize {
        self.links.len() / 4
    }

    /// How often a message's cost counts between two processors that differ.
    pub fn hops(&self, from: usize, to: usize) -> u32 {
        match self.cube {
            0 => 1,
            _ => (from ^ to).count_ones(),
        }
    }

    /// The values as bytes, right or not; of source and target only the low byte.
    pub fn encode(&self) -> Vec<u8> {
        let mut bytes = vec![0x4D, self.processors];
        bytes.extend(self.limit.to_le_bytes());
        if self.unpacking > 0 {
            bytes.push(UNPACKING);
            bytes.extend(self.unpacking.to_le_bytes());
        }
        if self.cube > 0 {
            bytes.push(CUBE);
        }
        for task in self.tasks.chunks_exact(2) {
            bytes.push(0x54);
            bytes.extend(task.iter().flat_map(|value| value.to_le_bytes()));
        }
        for link in self.links.chunks_exact(4) {
            bytes.extend([0x45, link[0] as u8, link[1] as u8]);
            bytes.extend(link[2..].iter().flat_map(|value| value.to_le_bytes()));
        }
        bytes.push(0x51);
        bytes
    }
}

/// The shape of a graph.
#[derive(Clone, Copy, Debug, PartialEq, Eq)]
pub enum Shape {
    /// No links.
    Loose,
    /// One path through all tasks.
    Chain,
    /// One task before all others.
    FanOut,
    /// One task behind all others.
    FanIn,
    /// About as many links as tasks.
    Sparse,
    /// As many links as there may be.
    Dense,
    /// Links from each layer of tasks to the next.
    Layers,
}

/// Every shape.
pub const SHAPES: [Shape; 7] = [
    Shape::Loose,
    Shape::Chain,
    Shape::FanOut,
    Shape::FanIn,
    Shape::Sparse,
    Shape::Dense,
    Shape::Layers,
];

/// A valid sheet of random size, shape and weights, now and then a bare board.
pub fn valid(random: &mut Random) -> Sheet {
    let tasks = match random.below(17) {
        16 => 0,
        0 => 1,
        1..=7 => random.within(2..=8),
        8..=12 => random.within(9..=40),
        13..=14 => random.within(41..=255),
        _ => MOST_TASKS,
    };
    let shape = random.pick(&SHAPES);
    with_shape(random, tasks, shape)
}

/// A valid sheet without tasks, and so without links.
pub fn bare(random: &mut Random) -> Sheet {
    with_shape(random, 0, Shape::Loose)
}

/// A valid sheet of at most eight tasks, once in sixteen a bare board.
pub fn small(random: &mut Random) -> Sheet {
    let tasks = seldom_none(random, 8);
    let shape = random.pick(&SHAPES);
    with_shape(random, tasks, shape)
}

/// A number of tasks up to `most`, once in sixteen none.
fn seldom_none(random: &mut Random, most: usize) -> usize {
    match random.once_in(16) {
        true => 0,
        false => random.within(1..=most),
    }
}

/// A valid sheet of 256 tasks and 1,024 links.
pub fn largest(random: &mut Random) -> Sheet {
    with_shape(random, MOST_TASKS, Shape::Dense)
}

/// A valid sheet of at most this many tasks, mostly with weights that make ties and the guard matter.
pub fn telling(random: &mut Random, most: usize) -> Sheet {
    let tasks = seldom_none(random, most);
    let shape = match random.below(3) {
        0 => random.pick(&SHAPES),
        1 => Shape::Sparse,
        _ => Shape::Dense,
    };
    let mut sheet = with_shape(random, tasks, shape);
    if !random.once_in(5) {
        let (works, costs) = random.pick(&[(1, 3), (2, 5), (4, 8), (9, 9), (9, 20), (20, 100)]);
        weigh(random, &mut sheet, works, costs);
    }
    if !random.once_in(4) {
        sheet.limit = u32::MAX;
    }
    sheet
}

/// A valid sheet on which the guard often decides: cheap tasks, dear messages, many links and at
/// least four processors.
pub fn guarded(random: &mut Random) -> Sheet {
    let tasks = random.within(6..=48);
    guarded_of(random, tasks)
}

/// The same with so many tasks.
fn guarded_of(random: &mut Random, tasks: usize) -> Sheet {
    let tries = distinct(random, 4 * tasks, 1, |random| [0; 2].map(|_| random.below(tasks)));
    let mut sheet = with_pairs(random, tasks, tries);
    weigh(random, &mut sheet, 8, 60);
    sheet.processors = random.within(4..=16) as u8;
    if !random.once_in(4) {
        sheet.limit = u32::MAX;
    }
    sheet
}

/// A valid sheet of at most this many tasks, in which many links are free, so that a task often starts
/// on an open processor just when its messages are there: with ties, with the guard, with store enough
/// or hardly enough, and with processors left or none.
pub fn sharing(random: &mut Random, most: usize) -> Sheet {
    let tasks = random.within(2..=most);
    let mut sheet = match random.below(3) {
        0 => guarded_of(random, tasks),
        1 => with_shape(random, tasks, Shape::Layers),
        _ => with_shape(random, tasks, Shape::Sparse),
    };
    let (works, costs) = random.pick(&[(1, 2), (2, 4), (4, 3), (8, 60)]);
    weigh(random, &mut sheet, works, costs);
    free_links(random, &mut sheet);
    sheet.processors = random.within(1..=6) as u8;
    match random.once_in(3) {
        true => tighten(random, &mut sheet),
        false => sheet.limit = u32::MAX,
    }
    sheet
}

/// A valid sheet of at most this many tasks on a cube: with ties, under the guard, with free messages, with
/// store enough or hardly enough, with and without a time for receives.
pub fn cube(random: &mut Random, most: usize) -> Sheet {
    let mut sheet = match random.below(6) {
        0 => telling(random, most),
        1 => sharing(random, most),
        2 => {
            let tasks = random.within(2..=most);
            guarded_of(random, tasks)
        }
        _ => far(random, most),
    };
    wire(random, &mut sheet);
    if random.once_in(4) {
        tighten(random, &mut sheet);
    }
    sheet.unpacking = 0;
    if random.once_in(2) {
        unpack(random, &mut sheet);
    }
    sheet
}

/// A valid sheet whose tasks take long beside its messages, so that many processors are opened, on a cube
/// the near ones first.
fn far(random: &mut Random, most: usize) -> Sheet {
    let tasks = random.within(most.div_ceil(2)..=most);
    let shape = random.pick(&[Shape::Sparse, Shape::Layers, Shape::FanOut]);
    let mut sheet = with_shape(random, tasks, shape);
    let (works, costs) = random.pick(&[(4, 3), (9, 4), (20, 9), (90, 30)]);
    weigh(random, &mut sheet, works, costs);
    sheet.limit = u32::MAX;
    sheet
}

/// Makes the board a cube, whole or not, of so many processors that numbers can be skipped.
pub fn wire(random: &mut Random, sheet: &mut Sheet) {
    sheet.processors = random.pick(&[3, 5, 8, 13, 16]);
    sheet.cube = random.pick(&[1, 1, 2, 255]);
}

/// Makes all links free, or all but about one in two, four or eight.
pub fn free_links(random: &mut Random, sheet: &mut Sheet) {
    let paid = random.pick(&[0, 2, 4, 8]);
    let costs = sheet.links.iter_mut().skip(2).step_by(4);
    costs.for_each(|cost| *cost *= u16::from(paid > 0 && random.once_in(paid)));
}

/// A valid sheet of at most eight tasks on at most four processors, with ties, free and dear
/// messages, and store enough or hardly enough.
pub fn small_board(random: &mut Random) -> Sheet {
    let mut sheet = match random.below(5) {
        4 => sharing(random, 8),
        0 => small(random),
        1 => {
            let tasks = random.within(4..=8);
            guarded_of(random, tasks)
        }
        _ => telling(random, 8),
    };
    sheet.processors = random.within(1..=4) as u8;
    if random.once_in(4) {
        tighten(random, &mut sheet);
    }
    sheet
}

/// A valid sheet on which many bundles claim the same: at most four tasks of work 1, free messages,
/// and store enough.
pub fn even(random: &mut Random) -> Sheet {
    let tasks = random.within(1..=4);
    let shape = random.pick(&SHAPES);
    let mut sheet = with_shape(random, tasks, shape);
    weigh(random, &mut sheet, 1, 1);
    sheet.unpacking = 0;
    sheet.processors = random.within(1..=4) as u8;
    sheet.limit = u32::MAX;
    sheet
}

/// A valid sheet of so many tasks, no cube, whose arrangements often claim the same: few different works
/// and costs, store enough or hardly enough, with and without a time for receives.
pub fn compact(random: &mut Random, tasks: usize) -> Sheet {
    let shape = random.pick(&SHAPES);
    let mut sheet = with_shape(random, tasks, shape);
    let (works, costs) = random.pick(&[(1, 1), (1, 2), (2, 2), (2, 4), (4, 3), (9, 9), (20, 5)]);
    weigh(random, &mut sheet, works, costs);
    sheet.cube = 0;
    sheet.processors = match random.below(8) {
        0 => 16,
        _ => random.within(1..=tasks.max(1)) as u8,
    };
    match random.once_in(3) {
        true => tighten(random, &mut sheet),
        false => sheet.limit = u32::MAX,
    }
    sheet
}

/// Gives a limit between what the greatest task needs and all tasks need together.
pub fn tighten(random: &mut Random, sheet: &mut Sheet) {
    let stores = sheet.tasks.iter().skip(1).step_by(2).map(|&store| usize::from(store));
    let (greatest, all) = (stores.clone().max().unwrap_or(0), stores.sum());
    sheet.limit = random.within(greatest..=all) as u32;
}

/// Gives a time for each receive: as one unit, as a work or a cost of the sheet, or any up to the greatest.
pub fn unpack(random: &mut Random, sheet: &mut Sheet) {
    let works = sheet.tasks.iter().step_by(2);
    let costs = sheet.links.iter().skip(2).step_by(4);
    let times: Vec<u16> = works.chain(costs).copied().filter(|&time| time > 0).collect();
    sheet.unpacking = match random.below(8) {
        0..=1 => 1,
        2..=5 if !times.is_empty() => random.pick(&times),
        6 => random.pick(&[255, 256, 65_534, 65_535]),
        _ => random.within(1..=9) as u16,
    };
}

/// Gives all works up to `works`, all costs below `costs`, and where receives take time another for it.
pub fn weigh(random: &mut Random, sheet: &mut Sheet, works: usize, costs: usize) {
    let all_works = sheet.tasks.iter_mut().step_by(2);
    all_works.for_each(|work| *work = random.within(1..=works) as u16);
    let all_costs = sheet.links.iter_mut().skip(2).step_by(4);
    all_costs.for_each(|cost| *cost = random.below(costs) as u16);
    if sheet.unpacking > 0 {
        unpack(random, sheet);
    }
}

/// A valid sheet of this many tasks and this shape.
pub fn with_shape(random: &mut Random, tasks: usize, shape: Shape) -> Sheet {
    let pairs = pairs(random, tasks, shape);
    with_pairs(random, tasks, pairs)
}

/// A valid sheet of this many tasks with links from the first to the second of these pairs, in which
/// the first is the lower; both get other numbers, mostly.
fn with_pairs(random: &mut Random, tasks: usize, pairs: Vec<[usize; 2]>) -> Sheet {
    let mut names: Vec<u16> = (0..tasks as u16).collect();
    if !random.once_in(4) {
        random.shuffle(&mut names);
    }
    let mut pairs: Vec<[u16; 2]> =
        pairs.into_iter().map(|[from, to]| [names[from], names[to]]).collect();
    if random.once_in(2) {
        random.shuffle(&mut pairs);
    }
    dress(random, tasks, &pairs)
}

/// A sheet with a circle of `size` tasks, perhaps with tasks before, behind and between two circles.
pub fn circle(random: &mut Random, size: usize) -> Sheet {
    let others = random.below((MOST_TASKS - size).min(12) + 1);
    let tasks = size + others;
    let mut names: Vec<u16> = (0..tasks as u16).collect();
    random.shuffle(&mut names);
    let mut pairs: HashSet<[usize; 2]> = (0..size).map(|i| [i, (i + 1) % size]).collect();
    for other in size..tasks {
        let inside = random.below(size);
        let outside = random.within(size..=other);
        match random.below(4) {
            0 => pairs.insert([inside, other]),
            1 => pairs.insert([other, inside]),
            2 => pairs.insert([inside, outside]) && pairs.insert([outside, other]),
            _ => pairs.insert([outside, other]) && pairs.insert([other, inside]),
        };
    }
    let mut pairs: Vec<[u16; 2]> =
        pairs.into_iter().map(|[from, to]| [names[from], names[to]]).collect();
    pairs.sort_unstable();
    random.shuffle(&mut pairs);
    dress(random, tasks, &pairs)
}

/// Pairs of a lower and a higher number below `tasks`, each once.
fn pairs(random: &mut Random, tasks: usize, shape: Shape) -> Vec<[usize; 2]> {
    if tasks == 0 {
        return Vec::new();
    }
    let most = MOST_LINKS.min(tasks * (tasks - 1) / 2);
    match shape {
        Shape::Loose => Vec::new(),
        Shape::Chain => (1..tasks).map(|to| [to - 1, to]).collect(),
        Shape::FanOut => (1..tasks).map(|to| [0, to]).collect(),
        Shape::FanIn => (1..tasks).map(|from| [from - 1, tasks - 1]).collect(),
        Shape::Sparse => {
            let count = random.below(most.min(2 * tasks) + 1);
            distinct(random, count, 40, |random| [0; 2].map(|_| random.below(tasks)))
        }
        Shape::Dense => distinct(random, most, 40, |random| [0; 2].map(|_| random.below(tasks))),
        Shape::Layers => {
            let width = random.within(1..=tasks);
            let count = random.below(most + 1).min(tasks * width / 2);
            distinct(random, count, 40, |random| {
                let from = random.below(tasks);
                let next = (from / width + 1) * width;
                [from, (next + random.below(width)).min(tasks - 1)]
            })
        }
    }
}

/// Up to `count` different pairs of a lower and a higher number from a source of pairs, with so many
/// tries for each.
fn distinct(
    random: &mut Random,
    count: usize,
    tries: usize,
    draw: impl Fn(&mut Random) -> [usize; 2],
) -> Vec<[usize; 2]> {
    let mut seen = HashSet::new();
    let mut pairs = Vec::with_capacity(count);
    for _ in 0..tries * count {
        if pairs.len() == count {
            break;
        }
        let mut pair = draw(random);
        pair.sort_unstable();
        if pair[0] < pair[1] && seen.insert(pair) {
            pairs.push(pair);
        }
    }
    pairs
}

/// How large the weights of a sheet are.
#[derive(Clone, Copy)]
enum Weights {
    Equal,
    Small,
    Middling,
    Any,
    Extreme,
}

impl Weights {
    fn draw(self, random: &mut Random) -> u16 {
        match self {
            Weights::Equal => 1,
            Weights::Small => random.below(10) as u16,
            Weights::Middling => random.below(200) as u16,
            Weights::Any => random.bits() as u16,
            Weights::Extreme => random.pick(&[0, 1, 255, 256, 32_767, 32_768, 65_534, 65_535]),
        }
    }
}

/// Gives tasks and links their weights, and the board its processors, its limit, once in four a time for
/// each receive, and once in four the wires of a cube.
fn dress(random: &mut Random, tasks: usize, pairs: &[[u16; 2]]) -> Sheet {
    let kinds = [
        Weights::Equal,
        Weights::Small,
        Weights::Small,
        Weights::Middling,
        Weights::Middling,
        Weights::Any,
        Weights::Extreme,
    ];
    let (work, cost) = (random.pick(&kinds), random.pick(&kinds));
    let (store, bytes) = (random.pick(&kinds), random.pick(&kinds));
    let tasks: Vec<u16> =
        (0..tasks).flat_map(|_| [work.draw(random).max(1), store.draw(random)]).collect();
    let links: Vec<u16> = pairs
        .iter()
        .flat_map(|&[from, to]| [from, to, cost.draw(random), bytes.draw(random)])
        .collect();
    let processors = match random.below(8) {
        0 => 1,
        1 => 16,
        2..=4 => random.within(2..=4) as u8,
        _ => random.within(1..=16) as u8,
    };
    let all: u64 = tasks.iter().skip(1).step_by(2).map(|&store| u64::from(store)).sum();
    let share = (all / u64::from(processors)) as u32;
    let limit = match random.below(8) {
        0 => 0,
        1 => u32::MAX,
        2 => random.bits() as u32,
        3 => share,
        4 => share + share / 4,
        5 => share.saturating_mul(2),
        _ => share.saturating_mul(8).saturating_add(1000),
    };
    let cube = if random.once_in(4) { random.pick(&[1, 1, 2, 255]) } else { 0 };
    let mut sheet = Sheet { processors, limit, unpacking: 0, cube, tasks, links };
    if random.once_in(4) {
        unpack(random, &mut sheet);
    }
    sheet
}
