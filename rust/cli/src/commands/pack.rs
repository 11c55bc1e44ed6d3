//! `pack`: a text as the bytes of its sheet or bundle.

use super::Command;
use crate::answer::{Answer, Fault};
use crate::arguments::Arguments;
use crate::files;
use crate::loader::{Content, Loader};
use crate::text::{Claim, Text};

pub const COMMAND: Command = Command {
    name: "pack",
    usage: "TEXT [--sheet SHEET] [--only sheet|bundle] -o FILE",
    files: 1..=1,
    options: &[
        ("--sheet", "the sheet of a bundle, for its names; without it tasks and links are numbers"),
        ("--only", "which of the two to pack, where the text has both: `sheet` or `bundle`"),
        ("-o", "write the bytes to this file; `-` is standard output"),
    ],
    brief: "pack a text as the bytes of a sheet or a bundle",
    full: "\
Writes the bytes of a sheet or a bundle that is given as text. `claim auto` becomes the latest clock
of the machine, so the bundle has to run to its end.",
    answer,
};

fn answer(loader: &mut Loader, arguments: &Arguments) -> Result<Answer, Fault> {
    let Some(file) = arguments.file("-o") else {
        return Err(COMMAND.misused("needs -o FILE, or `-o -` for standard output"));
    };
    let path = &arguments.files[0];
    let Content::Text(Text { sheet, bundle }) = loader.content(path)? else {
        return Err(COMMAND.misused(&format!("takes a text; {} is none", path.display())));
    };
    let packed = match arguments.text("--only").as_deref() {
        None if sheet.is_some() && bundle.is_some() => {
            return Err(COMMAND.misused("needs --only: this text has a sheet and a bundle"));
        }
        None => (sheet, bundle, true),
        Some("sheet") => (sheet, None, true),
        Some("bundle") => (sheet, bundle, false),
        Some(other) => {
            return Err(COMMAND.misused(&format!("takes --only sheet or bundle, not {other}")));
        }
    };
    let bytes = match packed {
        (sheet, Some(text), _) => {
            let of = match (arguments.file("--sheet"), sheet) {
                (Some(named), _) => loader.sheet(&named)?,
                (None, Some(sheet)) => loader.sheet_of_text(path, sheet, None)?,
                (None, None) => loader.no_sheet(path, &text)?,
            };
            let bundle = loader.bundle_of_text(&of, &files::shown(path), &text)?;
            if text.claim == Claim::Auto {
                loader.check(&of, &bundle)?;
            }
            bundle.bundle.bytes().to_vec()
        }
        (Some(sheet), None, true) => {
            loader.sheet_of_text(path, sheet, None)?.sheet.bytes().to_vec()
        }
        _ => return Err(COMMAND.misused("finds nothing of that kind in this text")),
    };
    Ok(Answer::to(Some(file), bytes))
}
