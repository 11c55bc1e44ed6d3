//! The sheet in a text: `board`, `let`, `task` and `link`.

use super::letters::{Amount, Letters};
use super::line::{Line, Placed, Problem, Task as TaskWord, MOST_PROBLEMS};
use super::names::Names;
use zeldrupa::{Board, Link, Task};

const U8: u32 = u8::MAX as u32;
const U16: u32 = u16::MAX as u32;

/// A sheet as a text has it.
#[derive(Debug)]
pub struct SheetText {
    pub board: Board,
    pub names: Names,
    pub tasks: Vec<Task>,
    pub links: Vec<Link>,
    /// The line of each command: the board, its unpacking and its cube if it has them, the tasks, the
    /// links.
    pub lines: Vec<usize>,
}

/// The lines of a sheet, until all names are known.
#[derive(Debug, Default)]
pub struct SheetLines {
    board: Option<(usize, Board)>,
    letters: Letters,
    names: Names,
    tasks: Vec<TaskLine>,
    links: Vec<LinkLine>,
}

#[derive(Debug)]
struct TaskLine {
    line: usize,
    work: Amount,
    store: u16,
}

#[derive(Debug)]
struct LinkLine {
    line: usize,
    ends: [Placed<TaskWord>; 2],
    cost: u16,
    bytes: u16,
}

impl SheetLines {
    pub fn is_empty(&self) -> bool {
        self.board.is_none() && self.tasks.is_empty() && self.links.is_empty()
    }

    /// `board processors 4 store 4096 unpacking 12 cube`
    pub fn board(&mut self, word: Placed<usize>, line: &mut Line) -> Result<(), Problem> {
        if let Some((first, ..)) = self.board {
            return Err(word.problem(format!("a second board; the first is in line {first}")));
        }
        let fields = ["processors", "store", "unpacking", "cube"];
        let numbers = line.named_from(2, fields, |line, name| match name {
            "processors" => line.number(name, U8),
            "store" => line.number(name, u32::MAX),
            "unpacking" => line.number(name, U16),
            // The word alone says it.
            _ => Ok(1),
        })?;
        let [processors, limit, unpacking, cube] = numbers.map(|number| number.unwrap_or(0));
        let (processors, unpacking) = (processors as u8, unpacking as u16);
        self.board = Some((word.line, Board { processors, limit, unpacking, cube: cube == 1 }));
        Ok(())
    }

    /// `let n = 1024, b = 64`
    pub fn letters(&mut self, line: &mut Line) -> Result<(), Problem> {
        self.letters.read(line)
    }

    /// `task window work 2*n+8 store 256`
    pub fn task(&mut self, word: Placed<usize>, line: &mut Line) -> Result<(), Problem> {
        // The name counts although the rest may be in fault, so that links to it are not.
        self.names.add(line.task()?)?;
        let amounts = line.named(["work", "store"], |line, name| match name {
            "work" => line.amount(name, U16),
            _ => line.number(name, U16).map(Amount::Number),
        });
        let (amounts, problem) = match amounts {
            Ok(amounts) => (amounts, Ok(())),
            Err(problem) => ([Amount::Number(1), Amount::Number(0)], Err(problem)),
        };
        let [work, store] = amounts;
        let store = match store {
            Amount::Number(store) => store as u16,
            Amount::Formula(_) => 0,
        };
        self.tasks.push(TaskLine { line: word.line, work, store });
        problem
    }

    /// `link detrend -> window cost 15 bytes 512`
    pub fn link(&mut self, word: Placed<usize>, line: &mut Line) -> Result<(), Problem> {
        let ends = line.ends()?;
        let [cost, bytes] = line.numbers([("cost", U16), ("bytes", U16)])?;
        self.links.push(LinkLine { line: word.line, ends, cost: cost as u16, bytes: bytes as u16 });
        Ok(())
    }

    /// The sheet, if the text has one; every link's tasks are looked up now, and every formula read.
    pub fn end(self, last: usize, problems: &mut Vec<Problem>) -> Option<SheetText> {
        if self.is_empty() {
            return None;
        }
        let mut tasks = Vec::new();
        for task in &self.tasks {
            if problems.len() >= MOST_PROBLEMS {
                break;
            }
            match self.letters.amount("work", &task.work) {
                Ok(work) => tasks.push(Task { work: work as u16, store: task.store }),
                Err(problem) => problems.push(problem),
            }
        }
        let mut links = Vec::new();
        for link in &self.links {
            if problems.len() >= MOST_PROBLEMS {
                break;
            }
            match link.ends.each_ref().map(|end| self.names.find(end)) {
                [Ok(source), Ok(target)] => {
                    // More tasks than a byte can number are refused before any link is looked at.
                    let [source, target] = [source, target].map(|task| task.min(255) as u8);
                    links.push(Link { source, target, cost: link.cost, bytes: link.bytes });
                }
                [Err(problem), _] | [_, Err(problem)] => problems.push(problem),
            }
        }
        let Some((line, board)) = self.board else {
            // A board that is in fault was told already.
            if problems.is_empty() {
                let told = "expected \"board processors .. store ..\" in this text";
                problems.push(Problem { line: last, column: 1, told: told.into() });
            }
            return None;
        };
        let first = vec![line; 1 + usize::from(board.unpacking > 0) + usize::from(board.cube)];
        let lines = first.into_iter().chain(self.tasks.iter().map(|task| task.line));
        Some(SheetText {
            board,
            lines: lines.chain(self.links.iter().map(|link| link.line)).collect(),
            tasks,
            links,
            names: self.names,
        })
    }
}
