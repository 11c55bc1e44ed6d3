//! The graph of a sheet: the links at each task, circles (10) and levels.

use crate::refusal::{Refusal, LOOP};
use crate::sheet::{Link, Sheet, MOST_TASKS};
use std::cell::OnceCell;
use std::mem;

/// The links out of each task, those into each, and the tasks in an order that follows the links.
#[derive(Clone, Debug)]
pub struct Graph {
    outgoing: Lists,
    /// Found when they are first asked for.
    incoming: OnceCell<Lists>,
    order: Vec<u8>,
}

impl Graph {
    /// The graph of these links over this many tasks (10).
    pub fn new(tasks: usize, links: &[Link]) -> Result<Graph, Refusal> {
        let outgoing = Lists::new(tasks, links, |link| link.source);

        // Each task is taken once all its predecessors are; those that stay lie on a circle or behind one.
        let mut missing = counts(links, |link| link.target);
        let mut order = Vec::with_capacity(tasks);
        order.extend((0..tasks).filter(|&task| missing[task] == 0).map(|task| task as u8));
        let mut taken = 0;
        while let Some(&task) = order.get(taken) {
            taken += 1;
            for &link in outgoing.at(task.into()) {
                let target = links[usize::from(link)].target;
                missing[usize::from(target)] -= 1;
                if missing[usize::from(target)] == 0 {
                    order.push(target);
                }
            }
        }
        if order.len() < tasks {
            let lowest = (0..tasks)
                .find(|&task| missing[task] > 0 && leads_back(task, &outgoing, links))
                .expect("a task that was never taken has an untaken predecessor");
            return Err(Refusal::new(LOOP, lowest));
        }
        Ok(Graph { outgoing, incoming: OnceCell::new(), order })
    }

    /// The links out of a task, in rising number.
    pub fn outgoing(&self, task: usize) -> &[u16] {
        self.outgoing.at(task)
    }
}

/// The links into each task of a sheet, in rising number.
pub fn incoming(sheet: &Sheet) -> &Lists {
    let lists = || Lists::new(sheet.tasks.len(), &sheet.links, |link| link.target);
    sheet.graph.incoming.get_or_init(lists)
}

/// The b-level of each task: the greatest sum of work and costs from it to a task without successors.
pub fn levels(sheet: &Sheet) -> Vec<u32> {
    let mut levels = vec![0; sheet.tasks.len()];
    for &task in sheet.graph.order.iter().rev() {
        let task = usize::from(task);
        let behind = sheet.graph.outgoing(task).iter().map(|&link| {
            let link = &sheet.links[usize::from(link)];
            u32::from(link.cost) + levels[usize::from(link.target)]
        });
        levels[task] = u32::from(sheet.tasks[task].work) + behind.max().unwrap_or(0);
    }
    levels
}

/// Whether a path of at least one link leads from the task back to it.
fn leads_back(task: usize, outgoing: &Lists, links: &[Link]) -> bool {
    let mut reached = [false; MOST_TASKS];
    let mut fresh = vec![task];
    while let Some(from) = fresh.pop() {
        for &link in outgoing.at(from) {
            let to = usize::from(links[usize::from(link)].target);
            if !reached[to] {
                reached[to] = true;
                fresh.push(to);
            }
        }
    }
    reached[task]
}

/// How many links have each task at one of their ends.
pub fn counts(links: &[Link], end: impl Fn(&Link) -> u8) -> [u16; MOST_TASKS] {
    let mut counts = [0; MOST_TASKS];
    for link in links {
        counts[usize::from(end(link))] += 1;
    }
    counts
}

/// A list of link numbers for each task, all in one table.
#[derive(Clone, Debug)]
pub struct Lists {
    /// Where the list of each task starts, and where the last one ends.
    starts: Vec<u16>,
    links: Vec<u16>,
}

impl Lists {
    /// The links by the task at one of their ends, each list in rising number.
    pub fn new(tasks: usize, links: &[Link], end: impl Fn(&Link) -> u8) -> Lists {
        let mut nexts = counts(links, &end);
        let mut starts = Vec::with_capacity(tasks + 1);
        let mut sum = 0;
        for next in &mut nexts[..tasks] {
            starts.push(sum);
            sum += mem::replace(next, sum);
        }
        starts.push(sum);
        let mut table = vec![0; links.len()];
        for (number, link) in (0u16..).zip(links) {
            let next = &mut nexts[usize::from(end(link))];
            table[usize::from(*next)] = number;
            *next += 1;
        }
        Lists { starts, links: table }
    }

    /// The links of a task.
    pub fn at(&self, task: usize) -> &[u16] {
        &self.links[self.starts[task].into()..self.starts[task + 1].into()]
    }
}
