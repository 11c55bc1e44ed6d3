//! Sheets and bundles written as text.

use super::names::Names;
use crate::table::aligned;
use zeldrupa::{Board, Bundle, Sheet};

/// The text of a sheet.
pub fn sheet_text(sheet: &Sheet, names: &Names) -> String {
    let Board { processors, limit, unpacking, cube } = sheet.board();
    let mut text = format!("board processors {processors} store {limit}");
    if unpacking > 0 {
        text += &format!(" unpacking {unpacking}");
    }
    if cube {
        text += " cube";
    }
    text.push('\n');
    let field = |name: &str, value: u16| format!("{name} {value}");
    let tasks = sheet.tasks().iter().enumerate().map(|(number, task)| {
        let name = format!("task {}", names.shown(number));
        vec![name, field("work", task.work), field("store", task.store)]
    });
    let tasks: Vec<_> = tasks.collect();
    let links = sheet.links().iter().enumerate().map(|(number, link)| {
        let name = format!("link {}", link_shown(sheet, names, number));
        vec![name, field("cost", link.cost), field("bytes", link.bytes)]
    });
    let links: Vec<_> = links.collect();
    for rows in [tasks, links].iter().filter(|rows| !rows.is_empty()) {
        text.push('\n');
        text += &aligned(rows);
    }
    text
}

/// A link by its two tasks; no two links have the same.
pub fn link_shown(sheet: &Sheet, names: &Names, link: usize) -> String {
    let ends = sheet.links()[link];
    format!("{} -> {}", names.shown(ends.source.into()), names.shown(ends.target.into()))
}

/// How far a message goes on a cube; on another board all go as far.
pub fn hops_shown(board: Board, from: usize, to: usize) -> String {
    match board.hops(from, to) {
        _ if !board.cube => String::new(),
        1 => " over 1 hop".into(),
        hops => format!(" over {hops} hops"),
    }
}

/// The text of a bundle; without its sheet links go by their numbers.
pub fn bundle_text(bundle: &Bundle, sheet: Option<(&Sheet, &Names)>) -> String {
    let task = |task: u8| match sheet {
        Some((_, names)) => names.shown(task.into()),
        None => task.to_string(),
    };
    let link = |link: u16| match sheet {
        Some((sheet, names)) => link_shown(sheet, names, link.into()),
        None => link.to_string(),
    };
    let mut text = String::new();
    for (number, programme) in bundle.programmes().iter().enumerate() {
        text += &format!("processor {number}\n");
        for &command in programme {
            text += &format!("  {}\n", command.told(task, link));
        }
    }
    text + &format!("claim {}\n", bundle.claim())
}
