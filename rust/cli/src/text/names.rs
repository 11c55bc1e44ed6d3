//! The names of tasks, which live in a text only; a task without one goes by its number.

use super::line::{Placed, Problem, Task};
use super::spelling::meant;
use super::words::{is_bare, quoted_short};
use std::collections::HashMap;

/// The names of a sheet's tasks, in number order.
#[derive(Clone, Debug, Default)]
pub struct Names {
    names: Vec<Option<String>>,
    /// Of each name its task, and the line that it stands in.
    known: HashMap<String, (usize, usize)>,
}

impl Names {
    /// So many tasks without names.
    pub fn none(tasks: usize) -> Self {
        Names { names: vec![None; tasks], ..Names::default() }
    }

    /// Adds the next task. A number has to be its own, and a name a new one.
    pub fn add(&mut self, task: Placed<Task>) -> Result<(), Problem> {
        let next = self.names.len();
        let name = match &task.what {
            Task::Number(number) if *number == next => None,
            Task::Number(number) => {
                return Err(
                    task.problem(format!("this is task {next}, not {number}: tasks count from 0"))
                )
            }
            Task::Name(name) => {
                if let Some((_, line)) = self.known.get(name) {
                    let name = quoted_short(name);
                    let told = format!("a second task {name}; the first is in line {line}");
                    return Err(task.problem(told));
                }
                self.known.insert(name.clone(), (next, task.line));
                Some(name.clone())
            }
        };
        self.names.push(name);
        Ok(())
    }

    /// How many tasks there are.
    fn len(&self) -> usize {
        self.names.len()
    }

    /// Whether any task has a name.
    pub fn any(&self) -> bool {
        !self.known.is_empty()
    }

    /// The number of a task that a text names.
    pub fn find(&self, task: &Placed<Task>) -> Result<usize, Problem> {
        match &task.what {
            Task::Number(number) if *number < self.len() => Ok(*number),
            Task::Number(number) => {
                Err(task.problem(format!("no task {number}; the sheet has {} tasks", self.len())))
            }
            Task::Name(name) => self.number(name).ok_or_else(|| {
                let meant = meant(name, self.names.iter().flatten().map(String::as_str));
                task.problem(format!("no task {}{meant}", quoted_short(name)))
            }),
        }
    }

    /// The number of the task of this name.
    pub fn number(&self, name: &str) -> Option<usize> {
        self.known.get(name).map(|&(task, _)| task)
    }

    /// A task's own name.
    pub fn name(&self, task: usize) -> Option<&str> {
        self.names.get(task)?.as_deref()
    }

    /// A task as a text can name it: quoted if it needs that, by its number if it has no name.
    pub fn shown(&self, task: usize) -> String {
        match self.name(task) {
            None => task.to_string(),
            Some(name) if is_bare(name) => name.to_string(),
            Some(name) => format!("\"{}\"", name.replace('\\', "\\\\").replace('"', "\\\"")),
        }
    }

    /// A task in a sentence.
    pub fn told(&self, task: usize) -> String {
        match self.name(task) {
            None => format!("task {task}"),
            Some(_) => self.shown(task),
        }
    }

    /// All of them as a text can name them.
    pub fn all_shown(&self) -> Vec<String> {
        (0..self.len()).map(|task| self.shown(task)).collect()
    }
}
