//! Whose turn it is (the second half of "Levels"), and which processor a task gets ("Placing", and C-14,
//! C-17 and C-20 of document 02).

use crate::levels::levels;
use crate::refusal::Refusal;
use crate::sheet::Sheet;
use std::cmp::Reverse;

/// The steps that can give a task its processor, in their order; `Share` is the one that C-17 puts
/// before step 3.
#[derive(Clone, Copy, Debug, PartialEq, Eq)]
pub enum Step {
    Join,
    Idle,
    Share,
    Open,
    LastResort,
}

/// What can be left out of the rules, to see what it changes.
#[derive(Clone, Copy, Debug, PartialEq, Eq)]
pub struct Rules {
    /// Whether the guard may apply: K3 also tells what comes of it without.
    pub guard: bool,
    /// Whether C-17 amends the steps: without it they are those of document 01.
    pub amended: bool,
}

impl Rules {
    /// All of them.
    pub const WHOLE: Rules = Rules { guard: true, amended: true };
    /// The four steps of document 01.
    pub const BEFORE: Rules = Rules { guard: true, amended: false };
}

/// A placed task.
#[derive(Clone, Copy, Debug, PartialEq, Eq)]
pub struct Placed {
    pub task: usize,
    pub processor: usize,
    pub start: u64,
    pub finish: u64,
    /// The step that gave the processor.
    pub step: Step,
    /// Whether the guard changed what step 1 gives, and what the amended step gives where it was tried.
    pub join_guarded: bool,
    pub share_guarded: bool,
    /// "step 3 was used [..] while such a processor existed".
    pub opened_in_vain: bool,
}

/// All tasks in placing order, or the task that gets no processor.
pub fn place(sheet: &Sheet, rules: Rules) -> Result<Vec<Placed>, Refusal> {
    place_by(sheet, &levels(sheet), rules)
}

/// The same by levels that are known.
pub fn place_by(sheet: &Sheet, levels: &[u64], rules: Rules) -> Result<Vec<Placed>, Refusal> {
    let (placed, outcome) = turns(sheet, levels, rules);
    outcome.map(|()| placed)
}

/// The tasks that got a processor, in placing order, and the refusal behind them if there is one:
/// "Each turn takes the first ready task t." "With none, the plan is refused (11)", with "that task".
pub fn turns(sheet: &Sheet, levels: &[u64], rules: Rules) -> (Vec<Placed>, Result<(), Refusal>) {
    let mut board = Board { sheet, levels, rules, placed: Vec::new() };
    while let Some(t) = board.first(|task| board.ready(task)) {
        match board.choose(t) {
            Some(placed) => board.placed.push(placed),
            None => return (board.placed, Err(Refusal::new(11, t))),
        }
    }
    (board.placed, Ok(()))
}

/// The placed tasks, and nothing that can be found out from them.
#[derive(Clone)]
struct Board<'a> {
    sheet: &'a Sheet,
    levels: &'a [u64],
    rules: Rules,
    placed: Vec<Placed>,
}

/// A step: the processor that it has for t, if any.
type Giving<'a> = fn(&Board<'a>, usize) -> Option<usize>;

impl<'a> Board<'a> {
    /// The steps, in their order.
    const STEPS: [(Step, Giving<'a>); 5] = [
        (Step::Join, Self::join),
        (Step::Idle, Self::idle),
        (Step::Share, Self::share),
        (Step::Open, Self::open_another),
        (Step::LastResort, Self::last_resort),
    ];

    fn find(&self, task: usize) -> Option<&Placed> {
        self.placed.iter().find(|placed| placed.task == task)
    }

    fn is_placed(&self, task: usize) -> bool {
        self.find(task).is_some()
    }

    fn is_on(&self, task: usize, k: usize) -> bool {
        self.find(task).is_some_and(|placed| placed.processor == k)
    }

    fn on(&self, k: usize) -> impl Iterator<Item = &Placed> {
        self.placed.iter().filter(move |placed| placed.processor == k)
    }

    /// The open processors: those that hold a task.
    fn open(&self) -> impl Iterator<Item = usize> + '_ {
        (0..self.sheet.processors).filter(|&k| self.on(k).next().is_some())
    }

    fn predecessors(&self, task: usize) -> impl Iterator<Item = usize> + '_ {
        self.sheet.links_into(task).map(|(_, link)| link.from)
    }

    /// "A task is ready when it is unplaced and all its predecessors are placed."
    fn ready(&self, task: usize) -> bool {
        !self.is_placed(task) && self.predecessors(task).all(|from| self.is_placed(from))
    }

    /// "It is partly ready when some are placed and some not".
    fn partly_ready(&self, task: usize) -> bool {
        self.predecessors(task).any(|from| self.is_placed(from))
            && self.predecessors(task).any(|from| !self.is_placed(from))
    }

    /// "A ready task's A is its start on a fresh processor." A partly ready one's arrival is "the greatest
    /// of (predecessor's finish + link cost)" and "counts only the placed ones": "Partly ready tasks leave
    /// unpacking out, in arrivals and in best starts." On a cube "A and partly ready arrivals count one
    /// hop".
    fn arrival(&self, task: usize) -> u64 {
        let links = self.sheet.links_into(task);
        let stamps = links.filter_map(|(_, link)| Some(self.find(link.from)?.finish + link.cost));
        match self.ready(task) {
            true => self.received(0, stamps),
            false => stamps.max().unwrap_or(0),
        }
    }

    /// A clock after the receives of messages with these stamps: "Receive now sets the clock to the later
    /// of clock and stamp, plus this time."
    fn received(&self, clock: u64, stamps: impl Iterator<Item = u64>) -> u64 {
        stamps.fold(clock, |clock, stamp| clock.max(stamp) + self.sheet.unpacking)
    }

    /// When the message of a link from a placed task is on k: "Send stamps the message with clock + cost",
    /// directly behind the run, where on a cube the cost counts for each hop.
    fn there(&self, from: &Placed, cost: u64, k: usize) -> u64 {
        from.finish + cost * self.sheet.hops(from.processor, k)
    }

    /// "Priority = arrival + b-level."
    fn priority(&self, task: usize) -> u64 {
        self.arrival(task) + self.levels[task]
    }

    /// "Highest goes first; on a tie the greater b-level, then the lower task number."
    fn first(&self, among: impl Fn(usize) -> bool) -> Option<usize> {
        let tasks = (0..self.sheet.tasks.len()).filter(|&task| among(task));
        tasks.max_by_key(|&task| (self.priority(task), self.levels[task], Reverse(task)))
    }

    /// The end time of k.
    fn end(&self, k: usize) -> u64 {
        self.on(k).map(|placed| placed.finish).max().unwrap_or(0)
    }

    /// "A task's start on a processor is found by doing its receives in rising link number from that
    /// processor's end time, then waiting for its local predecessors."
    fn start(&self, t: usize, k: usize) -> u64 {
        let into = self.sheet.links_into(t);
        let sources = into.filter_map(|(_, link)| Some((self.find(link.from)?, link.cost)));
        let (local, others): (Vec<_>, Vec<_>) = sources.partition(|(from, _)| from.processor == k);
        let stamps = others.iter().map(|(from, cost)| self.there(from, *cost, k));
        let received = self.received(self.end(k), stamps);
        local.iter().fold(received, |clock, (from, _)| clock.max(from.finish))
    }

    /// A partly ready task's "start there by placed predecessors", "t itself not counted as u's
    /// predecessor", without unpacking: "the greatest of k's end time and, over its predecessors, finish +
    /// (0 if on k, else cost)", where on a cube the cost counts for each hop.
    fn start_without(&self, u: usize, k: usize, t: usize) -> u64 {
        let links = self.sheet.links_into(u).filter(|(_, link)| link.from != t);
        let times =
            links.filter_map(|(_, link)| Some(self.there(self.find(link.from)?, link.cost, k)));
        times.max().unwrap_or(0).max(self.end(k))
    }

    /// The board with t put on k: "Tasks go after k's last task, never into a gap." Which step gave k,
    /// `choose` tells.
    fn with(&self, t: usize, k: usize) -> Self {
        let start = self.start(t, k);
        let finish = start + self.sheet.tasks[t].work;
        let mut board = self.clone();
        board.placed.push(Placed {
            task: t,
            processor: k,
            start,
            finish,
            step: Step::Join,
            join_guarded: false,
            share_guarded: false,
            opened_in_vain: false,
        });
        board
    }

    /// "t fits k when the stores of the tasks on k and t, plus the bytes of links into any of them
    /// from other processors, come to at most M."
    fn fits(&self, t: usize, k: usize) -> bool {
        let board = self.with(t, k);
        let stores: u64 = board.on(k).map(|placed| board.sheet.tasks[placed.task].store).sum();
        let into = board.on(k).flat_map(|placed| board.sheet.links_into(placed.task));
        let others = into.filter(|(_, link)| !board.is_on(link.from, k));
        stores + others.map(|(_, link)| link.bytes).sum::<u64>() <= board.sheet.limit
    }

    fn holds_predecessor(&self, task: usize, k: usize) -> bool {
        self.predecessors(task).any(|from| self.is_on(from, k))
    }

    /// "Let u's best start be the least, over open processors holding a placed predecessor of u, of
    /// its start there by placed predecessors", "t itself not counted as u's predecessor".
    fn best_start(&self, u: usize, t: usize) -> u64 {
        let holds = |k: &usize| self.predecessors(u).any(|from| from != t && self.is_on(from, *k));
        let starts = self.open().filter(holds).map(|k| self.start_without(u, k, t));
        starts.min().expect("a partly ready task has a placed predecessor")
    }

    /// "The guard applies if the first partly ready task u has a strictly higher priority than t."
    /// "k is barred if that best is below u's arrival, and putting t on k would raise that best".
    fn barred(&self, t: usize, k: usize) -> bool {
        if !self.rules.guard {
            return false;
        }
        let Some(u) = self.first(|task| self.partly_ready(task)) else { return false };
        if self.priority(u) <= self.priority(t) {
            return false;
        }
        let best = self.best_start(u, t);
        best < self.arrival(u) && self.with(t, k).best_start(u, t) > best
    }

    /// "Least start, then lowest number."
    fn least_start(&self, t: usize, among: impl Iterator<Item = usize>) -> Option<usize> {
        among.min_by_key(|&k| (self.start(t, k), k))
    }

    /// "1. Join: open k that hold a predecessor of t, fit, are not barred, and start t before A.
    /// Least start, then the lowest numbered of the admissible processors."
    fn join(&self, t: usize) -> Option<usize> {
        let admissible = self.open().filter(|&k| {
            self.holds_predecessor(t, k)
                && self.fits(t, k)
                && !self.barred(t, k)
                && self.start(t, k) < self.arrival(t)
        });
        self.least_start(t, admissible)
    }

    /// "2. Idle: open k that fit, with end at most A, where each successor of each task on k is
    /// placed or is a successor of t. t itself counts as not placed. Latest end, then lowest
    /// number."
    fn idle(&self, t: usize) -> Option<usize> {
        let nobody_waits = |k: usize| {
            let links = self.on(k).flat_map(|placed| self.sheet.links_out_of(placed.task));
            let mut successors = links.map(|(_, link)| link.to);
            successors.all(|task| self.is_placed(task) || self.sheet.linked(t, task))
        };
        let idle = self
            .open()
            .filter(|&k| self.fits(t, k) && self.end(k) <= self.arrival(t) && nobody_waits(k));
        idle.max_by_key(|&k| (self.end(k), Reverse(k)))
    }

    /// C-17: "Where step 3 would open a processor, the lowest numbered open one that fits, isn't barred
    /// and starts the task not later than A is taken instead."
    fn share(&self, t: usize) -> Option<usize> {
        self.open_another(t)?;
        let shared = self.open().filter(|&k| {
            self.fits(t, k) && !self.barred(t, k) && self.start(t, k) <= self.arrival(t)
        });
        shared.min()
    }

    /// "3. Open the next processor, if one is left and t fits it alone." On a cube "Step 3 opens, among
    /// unopened processors that fit, the one with least start, then the lowest number".
    fn open_another(&self, t: usize) -> Option<usize> {
        let mut unopened = (0..self.sheet.processors).filter(|&k| self.on(k).next().is_none());
        match self.sheet.cube {
            true => self.least_start(t, unopened.filter(|&k| self.fits(t, k))),
            false => unopened.next().filter(|&k| self.fits(t, k)),
        }
    }

    /// "4. Last resort: open k that fit. Least start, then lowest number."
    fn last_resort(&self, t: usize) -> Option<usize> {
        self.least_start(t, self.open().filter(|&k| self.fits(t, k)))
    }

    /// The placing of t by the first step that gives a processor.
    fn choose(&self, t: usize) -> Option<Placed> {
        let steps =
            Self::STEPS.iter().filter(|(step, _)| self.rules.amended || *step != Step::Share);
        let (step, k) =
            steps.map(|(step, give)| (*step, give(self, t))).find(|(_, k)| k.is_some())?;
        let unguarded = Board { rules: Rules { guard: false, ..self.rules }, ..self.clone() };
        let shares = self.rules.amended && matches!(step, Step::Share | Step::Open);
        self.with(t, k?).placed.last().map(|&placed| Placed {
            step,
            join_guarded: unguarded.join(t) != self.join(t),
            share_guarded: shares && unguarded.share(t) != self.share(t),
            opened_in_vain: step == Step::Open && self.share(t).is_some(),
            ..placed
        })
    }
}

#[cfg(test)]
mod tests {
    use super::*;
    use inputs::{sheets, Random};

    /// Shows each turn of a made-up sheet: the board before it, and its task.
    fn each_turn(values: &sheets::Sheet, see: impl Fn(&Board, usize)) {
        let sheet = Sheet::read(&values.encode()).expect("a valid sheet");
        let levels = levels(&sheet);
        let (placed, _) = turns(&sheet, &levels, Rules::WHOLE);
        for (turn, of_turn) in placed.iter().enumerate() {
            let before = placed[..turn].to_vec();
            let board =
                Board { sheet: &sheet, levels: &levels, rules: Rules::WHOLE, placed: before };
            see(&board, of_turn.task);
        }
    }

    /// "Sheets without `55` keep their plans": there a start is "the greatest of k's end time and, over
    /// its predecessors, finish + (0 if on k, else cost)", and A the greatest of finish + cost.
    #[test]
    fn starts_without_unpacking() {
        let mut random = Random::new(14);
        for _ in 0..300 {
            let values = sheets::Sheet { unpacking: 0, ..sheets::telling(&mut random, 12) };
            each_turn(&values, |board, t| {
                for k in 0..board.sheet.processors {
                    assert_eq!(board.start(t, k), board.start_without(t, k, t));
                }
                let messages = board.sheet.links_into(t).map(|(_, link)| {
                    board.find(link.from).map_or(0, |from| from.finish + link.cost)
                });
                assert_eq!(board.arrival(t), messages.max().unwrap_or(0));
            });
        }
    }

    /// "A ready task's A is its start on a fresh processor"; on a cube it "count[s] one hop", and a start
    /// on a fresh one is not before it.
    #[test]
    fn starts_on_fresh_processors() {
        let mut random = Random::new(20);
        for cube in [0, 1].repeat(150) {
            let values = sheets::Sheet { cube, ..sheets::telling(&mut random, 12) };
            each_turn(&values, |board, t| {
                for k in (0..board.sheet.processors).filter(|&k| board.on(k).next().is_none()) {
                    let (start, arrival) = (board.start(t, k), board.arrival(t));
                    assert!(start == arrival || board.sheet.cube && start > arrival);
                }
            });
        }
    }
}
