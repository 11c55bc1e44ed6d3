//! Refusals and texts in fault, as they are told.

use crate::answer::Fault;
use crate::files;
use crate::text::Problem;
use std::path::Path;
use zeldrupa::{About, Explanation, Refusal, Subject, WorkArea};

/// A refusal explained, with the file and, of a text, the lines.
pub fn refused(refusal: Refusal, about: About, file: &str, lines: &[usize]) -> Fault {
    told(refusal, refusal.explain(about), about, file, lines)
}

/// The same with an explanation of its own.
pub fn told(
    refusal: Refusal,
    mut explained: Explanation,
    about: About,
    file: &str,
    lines: &[usize],
) -> Fault {
    let line = match explained.subject {
        Subject::SheetCommand(command) | Subject::BundleCommand(command) => lines.get(command),
        // Tasks stand behind the board, whose commands have one line to themselves; a bundle's text
        // has no line of its own for a task.
        Subject::Task(task) if about.bundle.is_empty() => {
            let board = lines.iter().take_while(|&line| Some(line) == lines.first()).count();
            lines.get(board + task)
        }
        _ => None,
    };
    explained.place = match line {
        None => format!("{file}: {}", explained.place),
        Some(line) => {
            // Whoever wrote lines has no use for the offset.
            let behind = explained.place.strip_prefix("byte ");
            let told = behind.and_then(|rest| rest.split_once(": ")).map(|(_, told)| told);
            format!("{file}:{line}: {}", told.unwrap_or(&explained.place))
        }
    };
    let told = command_lines(&about, lines, &explained.commands).join(", ");
    if !told.is_empty() {
        explained.place += &format!("\nlines: {told}");
    }
    let (number, place) = (refusal.number(), refusal.place());
    Fault::Refused(format!("REFUSED {number} {place}\n{explained}\n"))
}

/// The lines of these commands of programmes, in a bundle that came as text.
fn command_lines(about: &About, lines: &[usize], commands: &[[usize; 2]]) -> Vec<String> {
    let mut work = WorkArea::new();
    let bundle =
        work.read_sheet(about.sheet).and_then(|sheet| work.read_bundle(&sheet, about.bundle));
    let Ok(bundle) = bundle else { return Vec::new() };
    let line = |&[k, position]: &[usize; 2]| {
        // A line for each command before it, and for each processor up to its own.
        let before: usize = bundle.programmes().iter().take(k).map(Vec::len).sum();
        lines.get(before + k + 1 + position).map(usize::to_string)
    };
    commands.iter().filter_map(line).collect()
}

/// The problems of a text, a line each.
pub fn in_fault(path: &Path, problems: &[Problem]) -> Fault {
    let file = files::shown(path);
    let mut told = String::new();
    for Problem { line, column, told: problem } in problems {
        told += &format!("{file}:{line}:{column}: {problem}\n");
    }
    Fault::Text(told)
}
