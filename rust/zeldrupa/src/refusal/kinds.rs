//! Every refusal by its number: its word, what its place counts, and what to say of it.

/// What the place of a refusal counts.
#[derive(Clone, Copy, Debug, PartialEq, Eq)]
pub(crate) enum Counts {
    SheetBytes,
    BundleBytes,
    Tasks,
    Links,
    Processors,
    Time,
    Lent,
    Nothing,
    FormulaBytes,
    Value,
    /// Bytes of a bundle whose form is right.
    Releases,
    Size,
}

/// A refusal: its number, its word in the trade, a sentence on why there is no result, and a remedy.
pub(crate) struct Kind {
    pub number: u8,
    pub word: &'static str,
    pub counts: Counts,
    pub cause: &'static str,
    pub remedy: &'static str,
}

/// The refusal of this number, if there is one.
pub(crate) fn kind(number: u8) -> Option<&'static Kind> {
    KINDS.iter().find(|kind| kind.number == number)
}

/// All of them; docs/FORMAT.md has the same sentences.
pub(crate) static KINDS: [Kind; 29] = [
    Kind {
        number: 1,
        word: "cut sheet",
        counts: Counts::SheetBytes,
        cause: "The sheet stops inside a command or before its end.",
        remedy: "Copy or pack the sheet again: a part of it is missing.",
    },
    Kind {
        number: 2,
        word: "strange command",
        counts: Counts::SheetBytes,
        cause: "This byte is no command of a sheet.",
        remedy: "Look whether this file is a sheet at all, and pack it again.",
    },
    Kind {
        number: 3,
        word: "out of turn",
        counts: Counts::SheetBytes,
        cause: "The board comes first and only once, then the unpacking and the cube if there are such, \
                then all tasks, then all links, then the end.",
        remedy: "Move the command to its place in this order.",
    },
    Kind {
        number: 4,
        word: "tail",
        counts: Counts::SheetBytes,
        cause: "Bytes follow the end of the sheet.",
        remedy: "Remove them, or look whether two files were joined.",
    },
    Kind {
        number: 5,
        word: "over-full",
        counts: Counts::SheetBytes,
        cause: "A sheet has at most 256 tasks and 1,024 links.",
        remedy: "Join tasks that always follow each other, or leave out links.",
    },
    Kind {
        number: 6,
        word: "range",
        counts: Counts::SheetBytes,
        cause: "A board has 1 to 16 processors; the time of its unpacking, if there is one, and the work \
                of a task are 1 to 65,535.",
        remedy: "Correct the number, or leave out an unpacking of 0; count time in a coarser unit if it \
                 is too large.",
    },
    Kind {
        number: 7,
        word: "loose link",
        counts: Counts::SheetBytes,
        cause: "A link leads from or to a task that the sheet does not have.",
        remedy: "Correct the number of the task, or add the task.",
    },
    Kind {
        number: 8,
        word: "doubled link",
        counts: Counts::SheetBytes,
        cause: "A second link leads from the same task to the same task.",
        remedy: "Make the two links one.",
    },
    Kind {
        number: 10,
        word: "loop",
        counts: Counts::Tasks,
        cause: "Tasks wait for each other in a circle.",
        remedy: "Remove a link of the circle, or turn it round.",
    },
    Kind {
        number: 11,
        word: "no store",
        counts: Counts::Tasks,
        cause: "The planner came to a task for which no processor has store left.",
        remedy: "Raise the store limit or the processors, or arrange the programmes by hand: \
                 a bundle that fits may exist.",
    },
    Kind {
        number: 12,
        word: "short output",
        counts: Counts::Lent,
        cause: "The result is longer than the lent output.",
        remedy: "Lend as many elements as the place says.",
    },
    Kind {
        number: 13,
        word: "short work area",
        counts: Counts::Lent,
        cause: "The lent work area, or the area of the machine's state, is too short.",
        remedy: "Lend as many words as the place says.",
    },
    Kind {
        number: 21,
        word: "cut bundle",
        counts: Counts::BundleBytes,
        cause: "The bundle stops inside a command or before its claim.",
        remedy: "Copy or pack the bundle again: a part of it is missing.",
    },
    Kind {
        number: 22,
        word: "strange command",
        counts: Counts::BundleBytes,
        cause: "This byte is no command of a bundle.",
        remedy: "Look whether this file is a bundle at all, and pack it again.",
    },
    Kind {
        number: 23,
        word: "out of turn",
        counts: Counts::BundleBytes,
        cause: "A bundle opens the programmes 0, 1, 2 and so on, no more than the board has \
                processors, and every command stands in one.",
        remedy: "Open the programmes in rising order without a gap, before their commands.",
    },
    Kind {
        number: 24,
        word: "tail",
        counts: Counts::BundleBytes,
        cause: "Bytes follow the claim.",
        remedy: "Remove them, or look whether two files were joined.",
    },
    Kind {
        number: 25,
        word: "unknown number",
        counts: Counts::BundleBytes,
        cause: "A command names a task or a link that the sheet does not have.",
        remedy: "Correct the number, or look whether the bundle belongs to another sheet.",
    },
    Kind {
        number: 26,
        word: "run count",
        counts: Counts::Tasks,
        cause: "Every task is run just once in the whole bundle; this one is not.",
        remedy: "Add the run that is missing, or remove those that are too many.",
    },
    Kind {
        number: 28,
        word: "over store",
        counts: Counts::Processors,
        cause: "Behind some command of a programme the results and the received messages that it holds \
                need more than the store limit.",
        remedy: "Release what is finished with before that command, move a task to another processor, \
                 or raise the store limit.",
    },
    Kind {
        number: 29,
        word: "stuck",
        counts: Counts::Processors,
        cause: "Nobody can step and commands are left: processors wait for each other's messages \
                in a circle.",
        remedy: "In one programme of the circle move the send up, before the receive that waits.",
    },
    Kind {
        number: 30,
        word: "wrong claim",
        counts: Counts::Time,
        cause: "The claimed time is not the time at which the last processor ends.",
        remedy: "Claim that time (in a text: claim auto).",
    },
    Kind {
        number: 31,
        word: "send",
        counts: Counts::Links,
        cause: "A link between two processors has one send, behind its source in its programme; a \
                link inside one processor has none.",
        remedy:
            "Put one send behind the run of the link's source, or remove those that are too many.",
    },
    Kind {
        number: 32,
        word: "receive",
        counts: Counts::Links,
        cause:
            "The send is right. A link between two processors has one receive, before its target \
                in its programme; a link inside one processor has none.",
        remedy:
            "Put one receive before the run of the link's target, or remove those that are too \
                 many.",
    },
    Kind {
        number: 33,
        word: "local order",
        counts: Counts::Links,
        cause:
            "Both tasks of the link run on one processor, and its source runs behind its target.",
        remedy: "Move the run of the source up, before the run of the target.",
    },
    Kind {
        number: 34,
        word: "both refused",
        counts: Counts::Nothing,
        cause: "Of two bundles neither is accepted, so that there is no better one.",
        remedy: "Check each of them, and mend one as its own refusal says.",
    },
    Kind {
        number: 35,
        word: "formula",
        counts: Counts::FormulaBytes,
        cause: "The text is no formula, or has more than 32 parentheses open together.",
        remedy: "Write numbers of up to ten digits, letters a to z, +, * and parentheses, without \
                 spaces.",
    },
    Kind {
        number: 36,
        word: "value",
        counts: Counts::Value,
        cause: "The formula's value is outside 1 to 65,535, a number or partial result is above \
                4,294,967,295, or the list of the letters' values has not 26 of them.",
        remedy:
            "Correct the formula or the values; count work in a coarser unit if it is too large.",
    },
    Kind {
        number: 37,
        word: "wrong release",
        counts: Counts::Releases,
        cause: "A result or a message is released where its processor does not hold it, or still needs it.",
        remedy: "Move the release behind the last command that needs what it releases, or remove it.",
    },
    Kind {
        number: 38,
        word: "not small",
        counts: Counts::Size,
        cause: "The least time is found for sheets of at most six tasks that are no cube.",
        remedy: "Plan the sheet, or take the tasks that matter most into a sheet of their own.",
    },
];

#[cfg(test)]
mod tests {
    use super::KINDS;

    /// docs/FORMAT.md has a row for each refusal, with the same words.
    #[test]
    fn the_page_has_every_refusal() {
        let path = concat!(env!("CARGO_MANIFEST_DIR"), "/../../docs/FORMAT.md");
        let page = std::fs::read_to_string(path).unwrap();
        for kind in &KINDS {
            let row = format!("| {} | {} | {} |", kind.number, kind.word, kind.cause);
            let row = page.lines().find(|line| line.starts_with(&row));
            let row = row.unwrap_or_else(|| panic!("no row for {}", kind.number));
            assert!(row.ends_with(&format!("| {} |", kind.remedy)), "{row}");
        }
        let rows = page.lines().filter(|line| {
            let number = line.strip_prefix("| ").and_then(|line| line.split(' ').next());
            number.is_some_and(|number| number.parse::<u8>().is_ok())
        });
        assert_eq!(rows.count(), KINDS.len());
    }
}
