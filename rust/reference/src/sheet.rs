//! A task sheet: its values, reading it from bytes (1 to 8, 10), making it from values, and writing
//! it. A bare board has no task and so no link.

use crate::command_bytes::*;
use crate::graph::Graph;
use crate::refusal::*;
use crate::task_set::TaskSet;

/// The most processors of a board.
pub const MOST_PROCESSORS: usize = 16;
/// The most tasks of a sheet.
pub const MOST_TASKS: usize = 256;
/// The most links of a sheet.
pub const MOST_LINKS: usize = 1024;

/// A task: how long it runs and the store it takes.
#[derive(Clone, Copy, Debug, PartialEq, Eq)]
pub struct Task {
    pub work: u16,
    pub store: u16,
}

/// A link: the target needs what the source makes, as a message if they run on two processors.
#[derive(Clone, Copy, Debug, PartialEq, Eq)]
pub struct Link {
    pub source: u8,
    pub target: u8,
    pub cost: u16,
    pub bytes: u16,
}

/// A valid sheet, in which 1 to 8 and 10 do not apply.
#[derive(Clone, Debug)]
pub struct Sheet {
    pub processors: u8,
    /// The store limit M of each processor.
    pub limit: u32,
    /// How long each receive takes its receiver.
    pub unpacking: u16,
    /// Whether a message makes a hop for each bit in which two processor numbers differ.
    pub cube: bool,
    pub tasks: Vec<Task>,
    pub links: Vec<Link>,
    /// The tasks to which each task has a link.
    pub(crate) successors: Vec<TaskSet>,
    pub(crate) graph: Graph,
}

impl Sheet {
    /// Whether the board is bare: no task, and so no link.
    pub fn is_bare(&self) -> bool {
        self.tasks.is_empty()
    }

    /// Processors, limit, task count, link count, unpacking time, and 1 for a cube.
    pub fn board(&self) -> [u32; 6] {
        let [tasks, links] = [self.tasks.len(), self.links.len()].map(|count| count as u32);
        let (processors, unpacking) = (self.processors.into(), self.unpacking.into());
        [processors, self.limit, tasks, links, unpacking, self.cube.into()]
    }

    /// Reads a sheet from its bytes (1 to 8, 10).
    pub fn read(bytes: &[u8]) -> Result<Sheet, Refusal> {
        let mut rest = bytes;
        let draft = Draft::read(&mut rest);
        let at = bytes.len() - rest.len();
        let draft = draft.map_err(|number| Refusal::new(number, at))?;
        if rest.len() > END_LENGTH {
            return Err(Refusal::new(SHEET_TAIL, at + END_LENGTH));
        }
        draft.finish()
    }

    /// Makes a sheet of values: two for a task (work, store), four for a link (source, target,
    /// cost, bytes). It refuses as [`Sheet::read`] refuses their bytes; a list that stops inside a
    /// record is a cut command, and an unpacking time of 0 is none.
    pub fn from_values(
        processors: u8,
        limit: u32,
        unpacking: u16,
        cube: bool,
        tasks: &[u16],
        links: &[u16],
    ) -> Result<Sheet, Refusal> {
        let mut at = 0;
        let draft = Draft::take(processors, limit, unpacking, cube, tasks, links, &mut at);
        draft.map_err(|number| Refusal::new(number, at))?.finish()
    }

    /// The sheet's bytes.
    pub fn to_bytes(&self) -> Vec<u8> {
        let mut bytes = Vec::with_capacity(
            BOARD_LENGTH
                + UNPACKING_LENGTH
                + CUBE_LENGTH
                + TASK_LENGTH * self.tasks.len()
                + LINK_LENGTH * self.links.len()
                + END_LENGTH,
        );
        bytes.extend([BOARD, self.processors]);
        bytes.extend(self.limit.to_le_bytes());
        if self.unpacking > 0 {
            let [low, high] = self.unpacking.to_le_bytes();
            bytes.extend([UNPACKING, low, high]);
        }
        if self.cube {
            bytes.push(CUBE);
        }
        for task in &self.tasks {
            let ([w0, w1], [s0, s1]) = (task.work.to_le_bytes(), task.store.to_le_bytes());
            bytes.extend([TASK, w0, w1, s0, s1]);
        }
        for link in &self.links {
            let ([c0, c1], [b0, b1]) = (link.cost.to_le_bytes(), link.bytes.to_le_bytes());
            bytes.extend([LINK, link.source, link.target, c0, c1, b0, b1]);
        }
        bytes.push(END);
        bytes
    }

    /// Puts the values into lent tables, two for a task and four for a link (12).
    pub fn put_values(&self, tasks: &mut [u16], links: &mut [u16]) -> Result<(), Refusal> {
        let (task_values, link_values) = (2 * self.tasks.len(), 4 * self.links.len());
        room(task_values, tasks)?;
        room(link_values, links)?;
        for (values, task) in tasks.as_chunks_mut().0.iter_mut().zip(&self.tasks) {
            *values = [task.work, task.store];
        }
        for (values, link) in links.as_chunks_mut().0.iter_mut().zip(&self.links) {
            *values = [link.source.into(), link.target.into(), link.cost, link.bytes];
        }
        Ok(())
    }
}

/// A sheet up to some command; it judges the next one for reader and writer alike.
struct Draft {
    processors: u8,
    limit: u32,
    unpacking: u16,
    cube: bool,
    tasks: Vec<Task>,
    links: Vec<Link>,
    successors: Vec<TaskSet>,
}

impl Draft {
    /// Reads up to the end command or the first command in fault, where `rest` then starts.
    fn read(rest: &mut &[u8]) -> Result<Draft, u8> {
        let [BOARD, processors, l0, l1, l2, l3, ref behind @ ..] = **rest else {
            return Err(fault(rest, &[BOARD]));
        };
        let most = (rest.len() / TASK_LENGTH, rest.len() / LINK_LENGTH);
        let mut draft = Draft::new(processors, u32::from_le_bytes([l0, l1, l2, l3]), most)?;
        *rest = behind;
        if rest.first() == Some(&UNPACKING) {
            let [_, low, high, ref behind @ ..] = **rest else { return Err(CUT_SHEET) };
            draft.unpacking = u16::from_le_bytes([low, high]);
            if draft.unpacking == 0 {
                return Err(RANGE);
            }
            *rest = behind;
        }
        if let [CUBE, ref behind @ ..] = **rest {
            draft.cube = true;
            *rest = behind;
        }
        while let [TASK, w0, w1, s0, s1, ref behind @ ..] = **rest {
            draft.task(u16::from_le_bytes([w0, w1]), u16::from_le_bytes([s0, s1]))?;
            *rest = behind;
        }
        while let [LINK, source, target, c0, c1, b0, b1, ref behind @ ..] = **rest {
            let (cost, bytes) = (u16::from_le_bytes([c0, c1]), u16::from_le_bytes([b0, b1]));
            draft.link(source.into(), target.into(), cost, bytes)?;
            *rest = behind;
        }
        match rest.first() {
            Some(&END) => Ok(draft),
            _ if draft.links.is_empty() => Err(fault(rest, &[TASK, LINK])),
            _ => Err(fault(rest, &[LINK])),
        }
    }

    /// Takes the values in the order of their bytes; `at` is the offset of each in turn.
    fn take(
        processors: u8,
        limit: u32,
        unpacking: u16,
        cube: bool,
        tasks: &[u16],
        links: &[u16],
        at: &mut usize,
    ) -> Result<Draft, u8> {
        let mut draft = Draft::new(processors, limit, (tasks.len() / 2, links.len() / 4))?;
        *at += BOARD_LENGTH;
        if unpacking > 0 {
            draft.unpacking = unpacking;
            *at += UNPACKING_LENGTH;
        }
        if cube {
            draft.cube = true;
            *at += CUBE_LENGTH;
        }
        let (records, cut) = tasks.as_chunks();
        for &[work, store] in records {
            draft.task(work, store)?;
            *at += TASK_LENGTH;
        }
        if !cut.is_empty() {
            return Err(CUT_SHEET);
        }
        let (records, cut) = links.as_chunks();
        for &[source, target, cost, bytes] in records {
            draft.link(source, target, cost, bytes)?;
            *at += LINK_LENGTH;
        }
        if !cut.is_empty() {
            return Err(CUT_SHEET);
        }
        Ok(draft)
    }

    /// The board (6), with room for so many tasks and links.
    fn new(processors: u8, limit: u32, most: (usize, usize)) -> Result<Draft, u8> {
        if !(1..=MOST_PROCESSORS).contains(&processors.into()) {
            return Err(RANGE);
        }
        Ok(Draft {
            processors,
            limit,
            unpacking: 0,
            cube: false,
            tasks: Vec::with_capacity(most.0.min(MOST_TASKS)),
            links: Vec::with_capacity(most.1.min(MOST_LINKS)),
            successors: Vec::with_capacity(most.0.min(MOST_TASKS)),
        })
    }

    /// The next task (5, 6).
    #[inline]
    fn task(&mut self, work: u16, store: u16) -> Result<(), u8> {
        if self.tasks.len() == MOST_TASKS {
            return Err(OVER_FULL);
        }
        if work == 0 {
            return Err(RANGE);
        }
        self.tasks.push(Task { work, store });
        self.successors.push(TaskSet::default());
        Ok(())
    }

    /// The next link (5, 7, 8); an end of 256 or more names no task.
    #[inline]
    fn link(&mut self, source: u16, target: u16, cost: u16, bytes: u16) -> Result<(), u8> {
        if self.links.len() == MOST_LINKS {
            return Err(OVER_FULL);
        }
        let tasks = self.successors.len();
        let (from, to) = (usize::from(source), usize::from(target));
        if from >= tasks || to >= tasks {
            return Err(LOOSE_LINK);
        }
        if !self.successors[from].insert(to) {
            return Err(DOUBLED_LINK);
        }
        let (source, target) = (source as u8, target as u8);
        self.links.push(Link { source, target, cost, bytes });
        Ok(())
    }

    /// The whole sheet (10).
    fn finish(self) -> Result<Sheet, Refusal> {
        let graph = Graph::new(self.tasks.len(), &self.links)?;
        Ok(Sheet {
            processors: self.processors,
            limit: self.limit,
            unpacking: self.unpacking,
            cube: self.cube,
            tasks: self.tasks,
            links: self.links,
            successors: self.successors,
            graph,
        })
    }
}

/// What is wrong with a command that is not whole, or not one that may stand here (2, 3, 1).
fn fault(rest: &[u8], allowed: &[u8]) -> u8 {
    match rest.first() {
        None => CUT_SHEET,
        Some(byte) if allowed.contains(byte) => CUT_SHEET,
        Some(&(BOARD | UNPACKING | CUBE | TASK | LINK | END)) => SHEET_OUT_OF_TURN,
        Some(_) => STRANGE_IN_SHEET,
    }
}
