//! Pictures of what a machine did: as SVG, and in the terminal with characters.

mod circle;
pub mod svg;
pub mod terminal;

use crate::commands::working;
use crate::loader::{BundleFile, SheetFile};
use crate::text::link_shown;
use crate::trace::Trace;
use zeldrupa::{Command, Wait};

/// What is drawn.
pub struct Picture<'a> {
    pub of: &'a SheetFile,
    pub bundle: &'a BundleFile,
    pub trace: &'a Trace,
}

/// A message that was sent: from whom when, when it is there, and to whom, if it was received.
struct Message {
    link: usize,
    from: usize,
    sent: u32,
    there: u32,
    to: usize,
    received: Option<u32>,
}

impl Picture<'_> {
    /// A task's name without quotes, or its number.
    fn task(&self, task: usize) -> String {
        self.of.names.name(task).map_or_else(|| task.to_string(), str::to_string)
    }

    fn link(&self, link: usize) -> String {
        link_shown(&self.of.sheet, &self.of.names, link)
    }

    /// What a release gives back: a task's result by its name, a message by its link.
    fn given_back(&self, release: Command) -> String {
        match release {
            Command::Release(task) | Command::Run(task) => self.task(task.into()),
            Command::Discard(link) | Command::Send(link) | Command::Receive(link) => {
                self.link(link.into())
            }
        }
    }

    fn claim(&self) -> u32 {
        self.bundle.bundle.claim()
    }

    /// The time that the axis has room for.
    fn span(&self) -> u32 {
        self.claim().max(self.trace.latest).max(1)
    }

    /// The line above the picture.
    fn title(&self) -> String {
        let file = &self.bundle.file;
        let processors = working(&self.bundle.bundle);
        let claim = self.claim();
        let latest = self.trace.latest;
        if !self.trace.circle.is_empty() {
            format!("{file}: stuck at {latest}")
        } else if claim != latest {
            format!("{file}: claims {claim}, but ends at {latest}")
        } else {
            format!("{file}: claim {claim}, processors {processors}")
        }
    }

    /// All messages that were sent, in the order of their sends.
    fn messages(&self) -> Vec<Message> {
        let mut messages = Vec::new();
        for event in &self.trace.events {
            let Command::Send(link) = event.command else { continue };
            let receive = Command::Receive(link);
            let received = self.trace.events.iter().find(|other| other.command == receive);
            let to = self.bundle.bundle.receiver(link);
            messages.push(Message {
                link: link.into(),
                from: event.processor,
                sent: event.finish,
                there: event.stamp.unwrap_or_default() as u32,
                to: to.unwrap_or(event.processor),
                received: received.map(|other| other.has_message()),
            });
        }
        messages
    }

    /// What a processor waits for in vain, if it does.
    fn waiting(&self, processor: usize) -> Option<&Wait> {
        self.trace.waits.iter().find(|wait| wait.processor == processor)
    }
}

/// Times for the marks of an axis: round numbers, no more than `most` of them.
fn ticks(span: u32, most: u32) -> Vec<u32> {
    let (span, most) = (u64::from(span), u64::from(most.max(1)));
    let powers = std::iter::successors(Some(1u64), |power| Some(power * 10));
    let mut steps = powers.flat_map(|power| [power, 2 * power, 5 * power]);
    let step = steps.find(|step| span / step < most).unwrap_or(span);
    (0..=span / step).map(|tick| (tick * step) as u32).collect()
}
