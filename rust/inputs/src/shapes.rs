//! Sheets for measuring: graphs of named shapes with exact numbers of tasks and links.

use crate::random::Random;
use crate::sheets::{Sheet, MOST_LINKS, MOST_TASKS};
use std::collections::HashSet;

/// A link's source and target, the source being the lower.
type Pair = [usize; 2];

/// A shape of the largest sheet: 256 tasks and 1,024 links on 16 processors.
#[derive(Clone, Copy, Debug, PartialEq, Eq)]
pub enum Largest {
    /// Links between any two tasks, in any order.
    Random,
    /// Sixteen layers of sixteen tasks, with links from each layer to the next.
    Layered,
    /// Eight stages, in each of which thirty tasks lie between two before and two behind them.
    ForkAndJoin,
    /// Sixteen chains of sixteen tasks, with links from chain to chain.
    Chains,
    /// Links from each task to those just behind it.
    NearNeighbours,
    /// As random, with little more store than all tasks need, evenly spread.
    TightStore,
    /// As near neighbours, with three links of four free: half of the tasks share a processor.
    FreeLinks,
}

/// Every shape of the largest sheet.
pub const LARGEST: [Largest; 7] = [
    Largest::Random,
    Largest::Layered,
    Largest::ForkAndJoin,
    Largest::Chains,
    Largest::NearNeighbours,
    Largest::TightStore,
    Largest::FreeLinks,
];

impl Largest {
    /// Its name.
    pub fn name(self) -> &'static str {
        match self {
            Largest::Random => "random",
            Largest::Layered => "layered",
            Largest::ForkAndJoin => "fork and join",
            Largest::Chains => "chains",
            Largest::NearNeighbours => "near neighbours",
            Largest::TightStore => "tight store",
            Largest::FreeLinks => "free links",
        }
    }

    /// A sheet of this shape.
    pub fn sheet(self, random: &mut Random) -> Sheet {
        let pairs = match self {
            Largest::Random => return any_links(random, MOST_TASKS, MOST_LINKS, 16),
            Largest::TightStore => return tight_store(random),
            Largest::FreeLinks => return free_links(random),
            Largest::Layered => up_to(random, MOST_LINKS, Vec::new(), next_layer),
            Largest::ForkAndJoin => up_to(random, MOST_LINKS, forks_and_joins(), next_stage),
            Largest::Chains => up_to(random, MOST_LINKS, chains(), later_in_another),
            Largest::NearNeighbours => near_neighbours(),
        };
        weighed(random, 16, MOST_TASKS, &pairs)
    }
}

/// A sheet with links between any two tasks, and a limit a little above the mean need of store.
fn tight_store(random: &mut Random) -> Sheet {
    let mut sheet = any_links(random, MOST_TASKS, MOST_LINKS, 16);
    let sum = |values: &[u16], first: usize, width: usize| -> u32 {
        values.iter().skip(first).step_by(width).map(|&value| u32::from(value)).sum()
    };
    sheet.limit = (sum(&sheet.tasks, 1, 2) + sum(&sheet.links, 3, 4)) / 16 * 21 / 20;
    sheet
}

/// A sheet with links to near neighbours, of which three in four cost nothing.
fn free_links(random: &mut Random) -> Sheet {
    let mut sheet = weighed(random, 16, MOST_TASKS, &near_neighbours());
    let costs = sheet.links.iter_mut().skip(2).step_by(4);
    costs.for_each(|cost| *cost *= u16::from(random.once_in(4)));
    sheet
}

/// The same sheet on a board on which each receive takes an eighth of the greatest work.
pub fn unpacked(sheet: Sheet) -> Sheet {
    Sheet { unpacking: 12, ..sheet }
}

/// The same sheet on a board that is wired as a cube.
pub fn cubed(sheet: Sheet) -> Sheet {
    Sheet { cube: 1, ..sheet }
}

/// A typical sheet: 40 tasks and 80 links on 8 processors.
pub fn typical(random: &mut Random) -> Sheet {
    any_links(random, 40, 80, 8)
}

/// A sheet of so many tasks and so many links between any two of them, in any order.
pub fn any_links(random: &mut Random, tasks: usize, links: usize, processors: u8) -> Sheet {
    let pairs = up_to(random, links, Vec::new(), |random| [0; 2].map(|_| random.below(tasks)));
    let mut names: Vec<usize> = (0..tasks).collect();
    random.shuffle(&mut names);
    let pairs: Vec<Pair> = pairs.into_iter().map(|pair| pair.map(|task| names[task])).collect();
    weighed(random, processors, tasks, &pairs)
}

/// These pairs and others from a source of pairs, `count` different ones in all.
fn up_to(
    random: &mut Random,
    count: usize,
    mut pairs: Vec<Pair>,
    draw: impl Fn(&mut Random) -> Pair,
) -> Vec<Pair> {
    let mut seen: HashSet<Pair> = pairs.iter().copied().collect();
    while pairs.len() < count {
        let mut pair = draw(random);
        pair.sort_unstable();
        if pair[0] < pair[1] && seen.insert(pair) {
            pairs.push(pair);
        }
    }
    pairs
}

/// A link from a layer of sixteen to the next.
fn next_layer(random: &mut Random) -> Pair {
    let from = random.below(MOST_TASKS - 16);
    [from, (from / 16 + 1) * 16 + random.below(16)]
}

/// In each stage of 32 the first two tasks lie before all others, and these before the next two.
fn forks_and_joins() -> Vec<Pair> {
    let stages = (0..MOST_TASKS).step_by(32);
    let around = |stage: usize| {
        (stage + 2..stage + 32).flat_map(move |task| {
            [[stage, task], [stage + 1, task], [task, stage + 32], [task, stage + 33]]
        })
    };
    stages.flat_map(around).filter(|&[_, to]| to < MOST_TASKS).collect()
}

/// A link between two tasks in the midst of a stage of 32 and of the next.
fn next_stage(random: &mut Random) -> Pair {
    let stage = 32 * random.below(MOST_TASKS / 32 - 1);
    [stage + random.within(2..=31), stage + 32 + random.within(2..=31)]
}

/// Sixteen chains: the tasks with the same remainder.
fn chains() -> Vec<Pair> {
    (16..MOST_TASKS).map(|to| [to - 16, to]).collect()
}

/// A link to a task that is farther down in another chain.
fn later_in_another(random: &mut Random) -> Pair {
    loop {
        let mut pair = [0; 2].map(|_| random.below(MOST_TASKS));
        pair.sort_unstable();
        let [from, to] = pair;
        if from / 16 < to / 16 && from % 16 != to % 16 {
            return pair;
        }
    }
}

/// Links to the four tasks behind each, and a few to the fifth.
fn near_neighbours() -> Vec<Pair> {
    let near = (0..MOST_TASKS).flat_map(|from| (1..=4).map(move |step| [from, from + step]));
    let near = near.filter(|&[_, to]| to < MOST_TASKS);
    near.chain((0..).map(|from| [from, from + 5])).take(MOST_LINKS).collect()
}

/// A sheet of so many tasks with these links, with works and costs of one size and store enough.
fn weighed(random: &mut Random, processors: u8, tasks: usize, pairs: &[Pair]) -> Sheet {
    let mut weight = |least: usize, most: usize| random.within(least..=most) as u16;
    Sheet {
        processors,
        limit: u32::MAX,
        unpacking: 0,
        cube: 0,
        tasks: (0..tasks).flat_map(|_| [weight(1, 100), weight(0, 200)]).collect(),
        links: pairs
            .iter()
            .flat_map(|&[from, to]| [from as u16, to as u16, weight(0, 100), weight(0, 40)])
            .collect(),
    }
}

#[cfg(test)]
mod tests {
    use super::*;

    fn counts(sheet: &Sheet) -> (usize, usize, u8) {
        let pairs: HashSet<&[u16]> = sheet.links.chunks(4).map(|link| &link[..2]).collect();
        (sheet.task_count(), pairs.len(), sheet.processors)
    }

    #[test]
    fn sizes_are_exact() {
        let mut random = Random::new(1);
        for shape in LARGEST {
            assert_eq!(counts(&shape.sheet(&mut random)), (256, 1024, 16), "{}", shape.name());
        }
        assert_eq!(counts(&typical(&mut random)), (40, 80, 8));
        assert_eq!(counts(&any_links(&mut random, 16, 64, 16)), (16, 64, 16));
    }
}
