//! The planner: places the tasks turn by turn, by the guard and the steps (11), and writes the bundle.

use crate::bundle::write_claim;
use crate::command_bytes::{CLAIM_LENGTH, OPEN, RECEIVE, RUN, SEND};
use crate::graph;
use crate::processor_set::ProcessorSet;
use crate::refusal::{Refusal, NO_STORE};
use crate::sheet::{Sheet, MOST_PROCESSORS, MOST_TASKS};
use crate::task_set::TaskSet;
use std::array;
use std::cmp::Reverse;
use std::collections::BinaryHeap;

/// Where and when a task runs.
#[derive(Clone, Copy, Debug, Default, PartialEq, Eq)]
pub struct Placement {
    pub processor: u8,
    pub start: u32,
    pub finish: u32,
}

/// A finished schedule.
#[derive(Clone, Debug, PartialEq, Eq)]
pub struct Plan {
    /// The placement of each task.
    pub placements: Vec<Placement>,
    /// The tasks of each processor in placing order, up to the highest that has one; on a cube some before
    /// it may have none.
    pub programmes: Vec<Vec<u8>>,
    /// The latest finish.
    pub claim: u32,
}

/// The steps that can give a task its processor: the four of document 01, and before `Open` the one
/// that document 02 puts there (C-17).
#[derive(Clone, Copy, Debug, PartialEq, Eq)]
pub enum Step {
    Join,
    Idle,
    Share,
    Open,
    LastResort,
}

/// How a task came to its processor.
#[derive(Clone, Copy, Debug, PartialEq, Eq)]
pub struct Turn {
    pub step: Step,
    pub processor: usize,
    /// Whether the guard barred the processor that the task would have joined, and the one that it
    /// would have shared.
    pub join_barred: bool,
    pub share_barred: bool,
}

/// Plans a sheet (11).
pub fn plan(sheet: &Sheet) -> Result<Plan, Refusal> {
    plan_with(sheet, |_| ())
}

/// Plans a sheet, and shows each turn as it goes.
pub fn plan_with(sheet: &Sheet, see: impl FnMut(Turn)) -> Result<Plan, Refusal> {
    Board::new(sheet, true).place_all(see)
}

impl Plan {
    /// The bundle of the plan.
    pub fn to_bundle(&self, sheet: &Sheet) -> Vec<u8> {
        let incoming = graph::incoming(sheet);
        let mut bundle = Writer::new(sheet, self.programmes.len());
        for (number, programme) in (0..).zip(&self.programmes) {
            bundle.put([OPEN, number, 0], 2);
            for &task in programme {
                self.write_task(sheet, incoming.at(task.into()), task, &mut bundle);
            }
        }
        bundle.end(self.claim)
    }

    /// The receives of a task's messages, its run, and the sends of its messages.
    fn write_task(&self, sheet: &Sheet, incoming: &[u16], task: u8, bundle: &mut Writer) {
        let processor = |task: u8| self.placements[usize::from(task)].processor;
        let here = processor(task);
        for &link in incoming {
            let source = sheet.links[usize::from(link)].source;
            bundle.put_message(RECEIVE, link, processor(source) != here);
        }
        bundle.put([RUN, task, 0], 2);
        for &link in sheet.graph.outgoing(task.into()) {
            let target = sheet.links[usize::from(link)].target;
            bundle.put_message(SEND, link, processor(target) != here);
        }
    }
}

/// A bundle being written.
struct Writer {
    /// Room for every command that there can be, and for the claim.
    bytes: Vec<u8>,
    length: usize,
}

impl Writer {
    fn new(sheet: &Sheet, programmes: usize) -> Self {
        let most = 2 * (programmes + sheet.tasks.len()) + 3 * 2 * sheet.links.len();
        Writer { bytes: vec![0; most + CLAIM_LENGTH], length: 0 }
    }

    /// Puts so many of these bytes at the end; the others are written over.
    fn put(&mut self, command: [u8; 3], count: usize) {
        self.bytes[self.length..][..3].copy_from_slice(&command);
        self.length += count;
    }

    /// Puts the command of a message at the end if there is one. No branch depends on it, since
    /// whether two tasks share a processor cannot be foretold.
    fn put_message(&mut self, command: u8, link: u16, needed: bool) {
        let [low, high] = link.to_le_bytes();
        self.put([command, low, high], 3 * usize::from(needed));
    }

    /// The whole bundle with this claim.
    fn end(self, claim: u32) -> Vec<u8> {
        let mut bundle = self.bytes;
        bundle.truncate(self.length);
        write_claim(claim, &mut bundle);
        bundle
    }
}

/// A number for each processor.
type Row = [u32; MOST_PROCESSORS];

/// The schedule after some turns.
struct Board<'a> {
    sheet: &'a Sheet,
    /// Whether the guard applies at all.
    guarded: bool,
    levels: Vec<u32>,
    placements: Vec<Placement>,
    /// The placed tasks in placing order.
    placed: Vec<u8>,
    unplaced: TaskSet,
    inputs: Vec<Inputs>,
    ready: BinaryHeap<u64>,
    partly_ready: Queue,
    /// The processors that hold a task; what follows is 0 for the others.
    open: ProcessorSet,
    ends: Row,
    /// The stores of each processor's tasks and the bytes of the messages to them.
    stores: Row,
    /// The successors of each processor's tasks.
    successors: [TaskSet; MOST_PROCESSORS],
}

impl<'a> Board<'a> {
    /// The board before the first turn.
    fn new(sheet: &'a Sheet, guarded: bool) -> Self {
        let tasks = sheet.tasks.len();
        let levels = graph::levels(sheet);
        let predecessors = graph::counts(&sheet.links, |link| link.target);
        let inputs: Vec<Inputs> = predecessors[..tasks]
            .iter()
            .map(|&missing| Inputs { missing, ..Inputs::default() })
            .collect();
        // Without predecessors the arrival is 0 and the priority is the level.
        let ready = (0..tasks)
            .filter(|&task| inputs[task].missing == 0)
            .map(|task| key(levels[task], levels[task], task))
            .collect();
        Board {
            sheet,
            guarded,
            levels,
            placements: vec![Placement::default(); tasks],
            placed: Vec::with_capacity(tasks),
            unplaced: TaskSet::below(tasks),
            inputs,
            ready,
            partly_ready: Queue::new(),
            open: ProcessorSet::default(),
            ends: [0; MOST_PROCESSORS],
            stores: [0; MOST_PROCESSORS],
            successors: [TaskSet::default(); MOST_PROCESSORS],
        }
    }

    /// Places the first ready task until none is left.
    fn place_all(mut self, mut see: impl FnMut(Turn)) -> Result<Plan, Refusal> {
        while let Some(key) = self.ready.pop() {
            let task = task_of(key);
            let (starts, needs) = (self.starts(task), self.needs(task));
            let turn = self.choose(task, &starts, &needs).ok_or(Refusal::new(NO_STORE, task))?;
            let k = turn.processor;
            self.place(task, k, starts[k], needs[k]);
            see(turn);
        }
        let most = self.placed.len();
        let count = self.open.iter().last().map_or(0, |highest| highest + 1);
        let mut programmes: Vec<Vec<u8>> = (0..count).map(|_| Vec::with_capacity(most)).collect();
        for &task in &self.placed {
            let processor = self.placements[usize::from(task)].processor;
            programmes[usize::from(processor)].push(task);
        }
        let claim = self.ends.into_iter().max().unwrap_or(0);
        Ok(Plan { placements: self.placements, programmes, claim })
    }

    /// The processor for a ready task, by the steps, from its start and the need of store on each.
    fn choose(&self, task: usize, starts: &Row, needs: &Row) -> Option<Turn> {
        let fits = ProcessorSet::with(|k| needs[k] <= self.sheet.limit);
        let open = fits & self.open;
        let (join, join_barred) = self.join(task, starts, open);
        let turn = |step, processor| Turn { step, processor, join_barred, share_barred: false };
        if let Some(k) = join {
            return Some(turn(Step::Join, k));
        }
        if let Some(k) = self.idle(task, open) {
            return Some(turn(Step::Idle, k));
        }
        let left = fits & !self.open & ProcessorSet::below(self.sheet.processors.into());
        if let Some(fresh) = self.fresh(left, starts) {
            let (share, share_barred) = self.share(task, starts, open);
            let (step, k) = share.map_or((Step::Open, fresh), |k| (Step::Share, k));
            return Some(Turn { share_barred, ..turn(step, k) });
        }
        Some(turn(Step::LastResort, least(open, starts)?))
    }

    /// The processor that a task joins, and whether the guard barred another that would come first.
    fn join(&self, task: usize, starts: &Row, open: ProcessorSet) -> (Option<usize>, bool) {
        let inputs = &self.inputs[task];
        let earlier = ProcessorSet::with(|k| starts[k] < inputs.arrival);
        let holding = open & inputs.holders & earlier;
        let Some(first) = least(holding, starts) else { return (None, false) };
        if self.barred(task, starts) != Some(first) {
            return (Some(first), false);
        }
        (least(holding & ProcessorSet::with(|k| k != first), starts), true)
    }

    /// The processor on which a task follows others that nobody waits for but with it.
    fn idle(&self, task: usize, open: ProcessorSet) -> Option<usize> {
        let reached = &self.sheet.successors[task];
        let arrival = self.inputs[task].arrival;
        let ended = open & ProcessorSet::with(|k| self.ends[k] <= arrival);
        let idle = ended.iter().filter(|&k| self.successors[k].within(&self.unplaced, reached));
        idle.min_by_key(|&k| Reverse(self.ends[k]))
    }

    /// The processor on which a task starts no later than on a fresh one, and whether the guard barred
    /// a lower one.
    fn share(&self, task: usize, starts: &Row, open: ProcessorSet) -> (Option<usize>, bool) {
        let arrival = self.inputs[task].arrival;
        let in_time = open & ProcessorSet::with(|k| starts[k] <= arrival);
        let mut in_time = in_time.iter();
        let Some(first) = in_time.next() else { return (None, false) };
        if self.barred(task, starts) != Some(first) {
            return (Some(first), false);
        }
        (in_time.next(), true)
    }

    /// The processor to open among those that are left; a task starts at the same time on all of them,
    /// but on a cube.
    fn fresh(&self, left: ProcessorSet, starts: &Row) -> Option<usize> {
        match self.sheet.cube {
            false => left.iter().next(),
            true => least(left, starts),
        }
    }

    /// The processor, if any, that the guard bars for a task with these starts.
    fn barred(&self, task: usize, starts: &Row) -> Option<usize> {
        let next = self.partly_ready.first().filter(|_| self.guarded)?;
        if self.priority(next) <= self.priority(task) {
            return None;
        }
        // Elsewhere the next task waits for its latest message, one hop or more, so a start before its
        // arrival can only be on that message's own processor; it is then the best, and only this raises
        // it.
        let inputs = &self.inputs[next];
        let k = inputs.arrival_from;
        let best = match self.sheet.cube {
            false => inputs.start(k, self.ends[k]),
            true => self.start_by_hops(next, k),
        };
        let finish = starts[k] + u32::from(self.sheet.tasks[task].work);
        (best < inputs.arrival && best < finish).then_some(k)
    }

    /// Puts a task on a processor and brings all that is kept up to date.
    fn place(&mut self, task: usize, k: usize, start: u32, store: u32) {
        let finish = start + u32::from(self.sheet.tasks[task].work);
        self.placements[task] = Placement { processor: k as u8, start, finish };
        self.placed.push(task as u8);
        self.unplaced.remove(task);
        self.open.insert(k);
        self.ends[k] = finish;
        self.stores[k] = store;
        self.successors[k].join(&self.sheet.successors[task]);
        for &link in self.sheet.graph.outgoing(task) {
            let link = &self.sheet.links[usize::from(link)];
            let target = usize::from(link.target);
            self.inputs[target].add(k, finish, link.cost.into(), link.bytes.into());
            self.queue(target);
        }
    }

    /// Puts a task where it belongs after one more of its predecessors was placed.
    fn queue(&mut self, task: usize) {
        let ready = self.inputs[task].missing == 0;
        if ready && self.sheet.unpacking > 0 {
            self.inputs[task].arrival = self.unpacked(task);
        }
        let key = key(self.priority(task), self.levels[task], task);
        if ready {
            self.partly_ready.remove(task);
            self.ready.push(key);
        } else {
            self.partly_ready.set(task, key);
        }
    }

    fn priority(&self, task: usize) -> u32 {
        self.inputs[task].arrival + self.levels[task]
    }

    /// The start of a ready task on each processor.
    fn starts(&self, task: usize) -> Row {
        match (self.sheet.unpacking, self.sheet.cube) {
            (0, false) => array::from_fn(|k| self.inputs[task].start(k, self.ends[k])),
            (_, false) => self.unpacked_starts(task),
            (_, true) => self.starts_by_hops(task),
        }
    }

    /// The same where receives take time. Not inlined, which would make turns without unpacking slower.
    #[inline(never)]
    fn unpacked_starts(&self, task: usize) -> Row {
        self.received(task, |message, _| message.one_hop())
    }

    /// The same on a cube; not inlined either.
    #[inline(never)]
    fn starts_by_hops(&self, task: usize) -> Row {
        self.received(task, |message, k| message.there(k))
    }

    /// The start of a ready task on each processor, by when each message is there: they are unpacked one
    /// after the other, and what is there without one has finished by the processor's end.
    #[inline(always)]
    fn received(&self, task: usize, there: impl Fn(&Message, u32) -> u32) -> Row {
        let time = u32::from(self.sheet.unpacking);
        let mut starts = self.ends;
        for message in self.messages(task) {
            // Without a branch, so that many are raised at a time.
            for (k, start) in (0..).zip(&mut starts) {
                let unpacked = (*start).max(there(&message, k)) + time;
                *start = if k == message.from { *start } else { unpacked };
            }
        }
        starts
    }

    /// The start of a ready task on a fresh processor one hop away, where all its messages are unpacked;
    /// not inlined either.
    #[inline(never)]
    fn unpacked(&self, task: usize) -> u32 {
        let time = u32::from(self.sheet.unpacking);
        self.messages(task).fold(0, |clock, message| clock.max(message.one_hop()) + time)
    }

    /// The start of a partly ready task on a processor of a cube, by its placed predecessors and without
    /// unpacking.
    fn start_by_hops(&self, task: usize, k: usize) -> u32 {
        let placed = self.messages(task).filter(|message| message.finish > 0);
        placed.fold(self.ends[k], |clock, message| clock.max(message.there(k as u32)))
    }

    /// The links into a task, in rising number, as the messages that they would be; from a task that is
    /// not placed the finish is 0.
    fn messages(&self, task: usize) -> impl Iterator<Item = Message> + '_ {
        graph::incoming(self.sheet).at(task).iter().map(|&link| {
            let link = &self.sheet.links[usize::from(link)];
            let Placement { processor, finish, .. } = self.placements[usize::from(link.source)];
            Message { from: processor.into(), finish, cost: link.cost.into() }
        })
    }

    /// The store that each processor needs with a ready task on it.
    fn needs(&self, task: usize) -> Row {
        let inputs = &self.inputs[task];
        let alone = u32::from(self.sheet.tasks[task].store) + inputs.bytes;
        array::from_fn(|k| self.stores[k] + alone - inputs.bytes_from[k])
    }
}

/// The bits in which two processor numbers differ, by rows: to load them is faster than to count.
const HOPS: [Row; MOST_PROCESSORS] = {
    let mut hops = [[0; MOST_PROCESSORS]; MOST_PROCESSORS];
    let mut at = 0;
    while at < MOST_PROCESSORS * MOST_PROCESSORS {
        let (from, to) = (at / MOST_PROCESSORS, at % MOST_PROCESSORS);
        hops[from][to] = (from ^ to).count_ones();
        at += 1;
    }
    hops
};

/// What a link brings: the processor of its source, when that has finished, and the link's cost.
struct Message {
    from: u32,
    finish: u32,
    cost: u32,
}

impl Message {
    /// When it is there after one hop.
    fn one_hop(&self) -> u32 {
        self.finish + self.cost
    }

    /// When it is there on processor k of a cube, after a hop for each bit in which the numbers differ.
    fn there(&self, k: u32) -> u32 {
        self.finish + self.cost * HOPS[self.from as usize][k as usize]
    }
}

/// The processor of the least start, the lowest of several.
fn least(processors: ProcessorSet, starts: &Row) -> Option<usize> {
    processors.iter().min_by_key(|&k| starts[k])
}

/// What the placed predecessors of one task bring it, by the processor they are on.
#[derive(Clone, Default)]
struct Inputs {
    /// How many predecessors are not placed.
    missing: u16,
    /// The processors that hold a placed one.
    holders: ProcessorSet,
    bytes_from: Row,
    bytes: u32,
    /// The latest message, its processor, and the latest message from any other; where receives take
    /// time and none is missing, the first is the start on a fresh processor.
    arrival: u32,
    arrival_from: usize,
    other_arrival: u32,
}

impl Inputs {
    /// Adds a predecessor that was placed on processor k.
    fn add(&mut self, k: usize, finish: u32, cost: u32, bytes: u32) {
        self.missing -= 1;
        self.holders.insert(k);
        self.bytes_from[k] += bytes;
        self.bytes += bytes;
        let message = finish + cost;
        if k != self.arrival_from {
            self.other_arrival = self.other_arrival.max(message.min(self.arrival));
        }
        if message > self.arrival {
            (self.arrival, self.arrival_from) = (message, k);
        }
    }

    /// The start on processor k without unpacking, by its end and the placed predecessors; those on k
    /// have finished by its end.
    fn start(&self, k: usize, end: u32) -> u32 {
        let message = if k == self.arrival_from { self.other_arrival } else { self.arrival };
        end.max(message)
    }
}

/// A task's rank as one number: its priority, then its level, then the lower task number.
/// Priorities stay below 2^28 and levels below 2^26, since works, costs and unpacking are u16 and no
/// message makes more than four hops.
fn key(priority: u32, level: u32, task: usize) -> u64 {
    u64::from(priority) << 34 | u64::from(level) << 8 | (MOST_TASKS - 1 - task) as u64
}

/// The task of a key.
fn task_of(key: u64) -> usize {
    MOST_TASKS - 1 - (key & 0xFF) as usize
}

/// Tasks whose keys may rise, of which the one with the greatest key is known.
struct Queue {
    keys: Vec<u64>,
    /// Where the key of each task stands, if it does.
    slots: [Option<u8>; MOST_TASKS],
    /// The greatest key, 0 without tasks.
    greatest: u64,
}

impl Queue {
    fn new() -> Self {
        Queue { keys: Vec::with_capacity(MOST_TASKS), slots: [None; MOST_TASKS], greatest: 0 }
    }

    fn first(&self) -> Option<usize> {
        (self.greatest > 0).then_some(task_of(self.greatest))
    }

    /// Puts a task in, or raises its key.
    fn set(&mut self, task: usize, key: u64) {
        match self.slots[task] {
            Some(slot) => self.keys[usize::from(slot)] = key,
            None => {
                self.slots[task] = Some(self.keys.len() as u8);
                self.keys.push(key);
            }
        }
        self.greatest = self.greatest.max(key);
    }

    /// Takes a task out, if it is in.
    fn remove(&mut self, task: usize) {
        let Some(slot) = self.slots[task].take() else { return };
        let key = self.keys.swap_remove(slot.into());
        if let Some(&moved) = self.keys.get(usize::from(slot)) {
            self.slots[task_of(moved)] = Some(slot);
        }
        if key == self.greatest {
            self.greatest = self.keys.iter().copied().max().unwrap_or(0);
        }
    }
}

#[cfg(test)]
mod tests {
    use super::*;
    use crate::trials;

    /// K3: the guard gives claim 6, its absence 7.
    #[test]
    fn guard_is_needed_in_k3() {
        let sheet = Sheet::read(&trials::k3_sheet()).unwrap();
        assert_eq!(Board::new(&sheet, true).place_all(|_| ()).unwrap().claim, 6);
        assert_eq!(Board::new(&sheet, false).place_all(|_| ()).unwrap().claim, 7);
    }

    #[test]
    fn keys_rank_by_priority_then_level_then_number() {
        assert!(key(8, 1, 255) > key(7, 9, 0));
        assert!(key(7, 9, 255) > key(7, 8, 0));
        assert!(key(7, 8, 3) > key(7, 8, 4));
        assert_eq!(task_of(key(7, 8, 200)), 200);
    }
}
