//! The text form of sheets and bundles: one thing a line, `#` before a comment, names for tasks.

mod bundle;
mod letters;
mod line;
mod names;
mod sheet;
mod spelling;
mod words;
mod writing;

pub use bundle::{BundleText, Claim};
pub use letters::{Letters, NO_FORMULA};
pub use line::{Line, Problem};
pub use names::Names;
pub use sheet::SheetText;
pub use spelling::meant;
pub use writing::{bundle_text, hops_shown, link_shown, sheet_text};

use bundle::BundleLines;
use line::MOST_PROBLEMS;
use sheet::SheetLines;
use zeldrupa::Command;

/// What a text holds: a sheet, a bundle, or both.
#[derive(Debug)]
pub struct Text {
    pub sheet: Option<SheetText>,
    pub bundle: Option<BundleText>,
}

/// The first word of each line says what it is.
const WORDS: [&str; 11] = [
    "board",
    "let",
    "task",
    "link",
    "processor",
    "run",
    "send",
    "receive",
    "release",
    "discard",
    "claim",
];

/// Whether a file is meant as text: it begins as one, and has no control bytes but tabs and the ends
/// of lines. No sheet and no bundle does: the number behind its first byte is no letter, unless that
/// is the claim of a bundle without programmes, and no word begins with the claim's byte.
pub fn is_text(bytes: &[u8]) -> bool {
    let begins = match bytes {
        [b'Z', ..] => false,
        // A lone command, not the beginning of a word.
        [b'M' | b'U' | b'T' | b'E' | b'Q' | b'P' | b'R' | b'S' | b'V' | b'F' | b'G', rest @ ..] => {
            rest.first().is_some_and(u8::is_ascii_alphabetic)
        }
        [first, ..] => first.is_ascii() || *first == 0xEF,
        [] => false,
    };
    begins && bytes.iter().all(|&byte| byte >= b' ' || b"\t\r\n".contains(&byte))
}

impl Text {
    /// Reads a text, or gives its first problems, one for a line.
    pub fn read(bytes: &[u8]) -> Result<Text, Vec<Problem>> {
        let text = match std::str::from_utf8(bytes) {
            Ok(text) => text.strip_prefix('\u{FEFF}').unwrap_or(text),
            Err(error) => return Err(vec![not_utf8(&bytes[..error.valid_up_to()])]),
        };
        let (mut sheet, mut bundle) = (SheetLines::default(), BundleLines::default());
        let mut problems = Vec::new();
        let mut last = 1;
        for (number, line) in (1..).zip(text.lines()) {
            last = number;
            if let Err(problem) = read_line(&mut sheet, &mut bundle, number, line) {
                problems.push(problem);
            }
            if problems.len() >= MOST_PROBLEMS {
                return Err(problems);
            }
        }
        if sheet.is_empty() && bundle.is_empty() && problems.is_empty() {
            let told = "expected \"board\" or \"processor\": there is neither sheet nor bundle";
            problems.push(Problem { line: 1, column: 1, told: told.into() });
        }
        let sheet = sheet.end(last, &mut problems);
        let bundle = bundle.end(last, &mut problems);
        problems.sort_by_key(|problem| (problem.line, problem.column));
        match problems.is_empty() {
            true => Ok(Text { sheet, bundle }),
            false => Err(problems),
        }
    }
}

fn read_line(
    sheet: &mut SheetLines,
    bundle: &mut BundleLines,
    number: usize,
    line: &str,
) -> Result<(), Problem> {
    let mut line = Line::new(number, line)?;
    if line.is_empty() {
        return Ok(());
    }
    let word = line.one_of(&WORDS)?;
    match WORDS[word.what] {
        "board" => sheet.board(word, &mut line)?,
        "let" => sheet.letters(&mut line)?,
        "task" => sheet.task(word, &mut line)?,
        "link" => sheet.link(word, &mut line)?,
        "processor" => bundle.processor(word, &mut line)?,
        "run" => bundle.task(word, &mut line, Command::Run)?,
        "send" => bundle.message(word, &mut line, Command::Send)?,
        "receive" => bundle.message(word, &mut line, Command::Receive)?,
        "release" => bundle.task(word, &mut line, Command::Release)?,
        "discard" => bundle.message(word, &mut line, Command::Discard)?,
        _ => bundle.claim(word, &mut line)?,
    }
    line.done()
}

/// Where a text stops being UTF-8.
fn not_utf8(front: &[u8]) -> Problem {
    let front = String::from_utf8_lossy(front);
    let line = front.matches('\n').count() + 1;
    let column = front.rsplit('\n').next().map_or(0, |last| last.chars().count()) + 1;
    Problem { line, column, told: "these bytes are no text in UTF-8".into() }
}
