//! The comparison of the pass that gives store back, and what holds of it.

use crate::comparison::{Comparison, Difference, Hex, Outcome};
use crate::rules::Rules;
use crate::tally::Function;
use reference::bundle::{commands, Bundle, Command};
use reference::sheet::Sheet;
use zeldrupa::raw as product;

impl<R: Rules> Comparison<R> {
    /// Gives back the store of a bundle that is finished with.
    pub fn release(&mut self, sheet: &[u8], bundle: &[u8]) -> Outcome {
        let before = (sheet.to_vec(), bundle.to_vec());
        self.one_output(
            Function::Release,
            &[("sheet", &sheet), ("bundle", &bundle)],
            &R::release(sheet, bundle),
            |work, out| product::release(sheet, bundle, work, out),
            |_| (sheet != before.0 || bundle != before.1).then_some("the input"),
        )
    }

    /// The same; and what is passed is accepted, claims the same, never needs more store than the bundle
    /// did, and is passed to itself.
    pub fn pass(&mut self, sheet: &[u8], bundle: &[u8]) -> Outcome {
        self.release(sheet, bundle)?;
        let Ok(passed) = R::release(sheet, bundle) else { return Ok(()) };
        self.check(sheet, &passed)?;
        self.release(sheet, &passed)?;
        let wrong = match (R::check(sheet, &passed), R::release(sheet, &passed)) {
            (Err(_), _) => Some("is refused"),
            (_, again) if again.as_ref() != Ok(&passed) => Some("is not passed to itself"),
            _ => unlike(sheet, bundle, &passed),
        };
        let Some(wrong) = wrong else { return Ok(()) };
        Err(Difference(format!(
            "what is passed {wrong}\nsheet: {}\nbundle: {}\npassed: {}\n",
            sheet.hex(),
            bundle.hex(),
            passed.as_slice().hex()
        )))
    }
}

/// What is wrong with a passed bundle beside the one that it was made from, both accepted.
fn unlike(sheet: &[u8], bundle: &[u8], passed: &[u8]) -> Option<&'static str> {
    let sheet = Sheet::read(sheet).expect("an accepted bundle has a valid sheet");
    let [bundle, passed] =
        [bundle, passed].map(|bytes| Bundle::read(&sheet, bytes).expect("an accepted bundle"));
    if bundle.claim != passed.claim || bundle.programmes().len() != passed.programmes().len() {
        return Some("claims another time or opens other programmes");
    }
    for (before, after) in bundle.programmes().iter().zip(passed.programmes()) {
        let (before, after) = (stores(&sheet, before), stores(&sheet, after));
        // Behind as many commands that give nothing back, in the bundle before any that does.
        let then = |done: usize| before.iter().find(|moment| moment.0 == done);
        if !after.iter().all(|&(done, store)| then(done).is_some_and(|then| store <= then.1)) {
            return Some("needs more store");
        }
    }
    None
}

/// The store in use behind each command of a programme, and how many commands up to it give nothing back.
fn stores(sheet: &Sheet, programme: &[u8]) -> Vec<(usize, u32)> {
    let (mut done, mut store) = (0, 0);
    let of_task = |task: u16| u32::from(sheet.tasks[usize::from(task)].store);
    let of_link = |link: u16| u32::from(sheet.links[usize::from(link)].bytes);
    let moments = commands(programme).map(|command| {
        match command {
            Command::Run(task) => store += of_task(task),
            Command::Receive(link) => store += of_link(link),
            Command::Release(task) => store -= of_task(task),
            Command::Discard(link) => store -= of_link(link),
            Command::Open(_) | Command::Send(_) => (),
        }
        done += usize::from(!matches!(command, Command::Release(_) | Command::Discard(_)));
        (done, store)
    });
    moments.collect()
}
