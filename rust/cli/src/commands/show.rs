//! `show`: the bytes of a sheet or a bundle as text.

use super::Command;
use crate::answer::{Answer, Fault};
use crate::arguments::Arguments;
use crate::files;
use crate::loader::{Content, Loader};
use crate::text::{bundle_text, sheet_text, Text};

pub const COMMAND: Command = Command {
    name: "show",
    usage: "FILE [--sheet SHEET]",
    files: 1..=1,
    options: &[("--sheet", "the sheet of a bundle, for its names; FILE is then a bundle")],
    brief: "show a sheet or a bundle as text",
    full: "\
Shows a sheet or a bundle as text, which `pack` turns into the same bytes again. Tasks have names
where the sheet came as text, and their numbers elsewhere; without its sheet a bundle's links have
their numbers. A plan as text: zeldrupa plan SHEET -o - | zeldrupa show - --sheet SHEET",
    answer,
};

fn answer(loader: &mut Loader, arguments: &Arguments) -> Result<Answer, Fault> {
    let path = &arguments.files[0];
    if let Some(sheet) = arguments.file("--sheet") {
        let of = loader.sheet(&sheet)?;
        let bundle = loader.bundle(&of, path)?.bundle;
        return Ok(Answer::text(bundle_text(&bundle, Some((&of.sheet, &of.names)))));
    }
    let shown = files::shown(path);
    let text = match loader.content(path)? {
        Content::Bytes(bytes) if is_bundle(&bytes) => {
            let of = loader.any_sheet(bytes.starts_with(&[CLAIM]));
            let bundle = loader.bundle_of_bytes(&of, &shown, &bytes)?;
            bundle_text(&bundle.bundle, None)
        }
        Content::Bytes(bytes) => {
            let of = loader.sheet_of_bytes(path, &bytes)?;
            sheet_text(&of.sheet, &of.names)
        }
        Content::Text(Text { sheet: Some(sheet), bundle }) => {
            let of = loader.sheet_of_text(path, sheet, None)?;
            let mut text = sheet_text(&of.sheet, &of.names);
            if let Some(bundle) = bundle {
                let bundle = loader.bundle_of_text(&of, &shown, &bundle)?.bundle;
                text += &format!("\n{}", bundle_text(&bundle, Some((&of.sheet, &of.names))));
            }
            text
        }
        Content::Text(Text { bundle, .. }) => {
            let text = bundle.expect("a text has a sheet or a bundle");
            let of = loader.no_sheet(path, &text)?;
            bundle_text(&loader.bundle_of_text(&of, &shown, &text)?.bundle, None)
        }
    };
    Ok(Answer::text(text))
}

/// The first byte of a bundle, and of one without programmes.
const OPEN: u8 = 0x50;
const CLAIM: u8 = 0x5A;

/// Whether bytes begin as a bundle: no sheet begins with a programme or a claim.
fn is_bundle(bytes: &[u8]) -> bool {
    matches!(bytes.first(), Some(&(OPEN | CLAIM)))
}
