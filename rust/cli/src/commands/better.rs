//! `better`: the better of two bundles for a sheet.

use super::{verdict, working, Command};
use crate::answer::{Answer, Fault};
use crate::arguments::Arguments;
use crate::loader::{AnyBundle, Loader, SheetFile};
use std::ptr;
use zeldrupa::{About, Bundle, Refusal};

pub const COMMAND: Command = Command {
    name: "better",
    usage: "SHEET [BUNDLE] BUNDLE [-o FILE]",
    files: 2..=3,
    options: &[("-o", "write the better bundle's bytes to this file; `-` is standard output")],
    brief: "choose the better of two bundles, and say why",
    full: "\
Checks two bundles for a sheet and names the better one: an accepted one before a refused one, then
the smaller claim, then fewer processors that run a task, then the lower bytes; of equal bundles the
first. Where only one BUNDLE is given, the programmes in the sheet's text are the first. With -o its
bytes are written, and what is said goes to standard error.",
    answer,
};

/// A bundle, and what the checker says of it.
struct Rival {
    given: AnyBundle,
    checked: Result<Bundle, Refusal>,
}

fn answer(loader: &mut Loader, arguments: &Arguments) -> Result<Answer, Fault> {
    let file = arguments.file("-o");
    let chosen = choose(loader, arguments);
    match (chosen, file) {
        (Ok((told, bytes)), Some(file)) => {
            Ok(Answer { complaint: told, ..Answer::to(Some(file), bytes) })
        }
        (Ok((told, _)), None) => Ok(Answer::text(told)),
        (Err(fault), Some(_)) => Err(fault),
        (Err(fault), None) => verdict(Err(fault)),
    }
}

/// Which bundle is the better one and why, and its bytes.
fn choose(loader: &mut Loader, arguments: &Arguments) -> Result<(String, Vec<u8>), Fault> {
    let sheet = loader.sheet(&arguments.files[0])?;
    let (first, second) = match &arguments.files[1..] {
        [first, second] => (loader.any_bundle(&sheet, first)?, second),
        [second] => match &sheet.programmes {
            Some(text) => (loader.any_of_text(&sheet, &sheet.file, text)?, second),
            None => return Err(COMMAND.misused("needs two: this sheet has no programmes")),
        },
        _ => unreachable!("the arguments are counted"),
    };
    let second = loader.any_bundle(&sheet, second)?;
    let [first, second] = [first, second].map(|given| rival(loader, &sheet, given));
    let (one, other) = (&first.given.bytes, &second.given.bytes);
    let kept = loader.work.better(&sheet.sheet, one, other);
    let kept = kept.map_err(|refusal| both_refused(refusal, &sheet, &first, &second))?;
    let (better, rest) = match ptr::eq(kept, &one[..]) {
        true => (&first, &second),
        false => (&second, &first),
    };
    let mut text = format!("BETTER {}\n", better.given.file);
    for rival in [&first, &second] {
        text += &format!("{}\n", told(rival));
    }
    text += &format!("{}\n", reason(better, rest));
    Ok((text, kept.to_vec()))
}

/// What the checker says of a bundle for a sheet.
fn rival(loader: &mut Loader, sheet: &SheetFile, given: AnyBundle) -> Rival {
    let work = &mut loader.work;
    let read = work.read_bundle(&sheet.sheet, &given.bytes);
    let checked = read.and_then(|bundle| work.check(&sheet.sheet, &bundle).map(|()| bundle));
    Rival { given, checked }
}

/// A bundle with its claim and its processors, or its refusal.
fn told(rival: &Rival) -> String {
    let file = &rival.given.file;
    match &rival.checked {
        Ok(bundle) => format!("{file}: claim {} processors {}", bundle.claim(), working(bundle)),
        Err(refusal) => {
            let (number, place, word) = (refusal.number(), refusal.place(), refusal.word());
            format!("{file}: refused {number} {place}, {word}")
        }
    }
}

/// What decided. The choice is the library's; this is looked up beside it.
fn reason(better: &Rival, rest: &Rival) -> String {
    let (Ok(one), Ok(other)) = (&better.checked, &rest.checked) else {
        return "the other is refused".into();
    };
    if one.claim() != other.claim() {
        return "the smaller claim".into();
    }
    if working(one) != working(other) {
        return "fewer processors run a task".into();
    }
    let mut bytes = one.bytes().iter().zip(other.bytes()).enumerate();
    match bytes.find(|(_, (a, b))| a != b) {
        Some((at, (a, b))) => {
            format!("the first differing byte is lower: {a:02X} at {at}, not {b:02X}")
        }
        None => "the bytes are equal, and this is the first".into(),
    }
}

/// 34, with what is said of each bundle.
fn both_refused(refusal: Refusal, sheet: &SheetFile, first: &Rival, second: &Rival) -> Fault {
    let about = About { sheet: sheet.sheet.bytes(), ..About::default() };
    let mut explained = refusal.explain(about);
    explained.place = format!("{}; {}", told(first), told(second));
    let (number, place) = (refusal.number(), refusal.place());
    Fault::Refused(format!("REFUSED {number} {place}\n{explained}\n"))
}
