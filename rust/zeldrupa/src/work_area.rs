//! The work area, lent to every call: reading, writing, levels, planning, the least time, checking,
//! releasing, drifts, choosing and listing.

use crate::bundle::from_values;
use crate::{
    bundle_values, raw, Board, Bundle, Command, Link, Load, Machine, Refusal, Sheet, Task,
};

/// The most tasks and links of a sheet.
const MOST_TASKS: usize = 256;
const MOST_LINKS: usize = 1024;
/// The number of a refusal whose place is the length of output that is needed.
const SHORT_OUTPUT: u8 = 12;

/// The memory that the calls work in, made once and lent to each.
#[derive(Clone, Debug)]
pub struct WorkArea {
    words: Vec<u32>,
    /// Two values for each task, and four for each link, that a sheet can have.
    tasks: Vec<u16>,
    links: Vec<u16>,
    /// What other calls write to, as long as any has needed so far.
    bytes: Vec<u8>,
    commands: Vec<u16>,
    levels: Vec<u32>,
}

impl WorkArea {
    /// A work area of the fixed length.
    pub fn new() -> Self {
        WorkArea {
            words: vec![0; raw::work_length()],
            tasks: vec![0; 2 * MOST_TASKS],
            links: vec![0; 4 * MOST_LINKS],
            bytes: Vec::new(),
            commands: Vec::new(),
            levels: Vec::new(),
        }
    }

    /// Reads a task sheet (1 to 8, 10).
    pub fn read_sheet(&mut self, bytes: &[u8]) -> Result<Sheet, Refusal> {
        let (tasks, links, mut board) = (&mut self.tasks, &mut self.links, [0; 6]);
        Refusal::of(raw::read_sheet(bytes, &mut self.words, tasks, links, &mut board))?;
        let [processors, limit, task_count, link_count, unpacking, cube] = board;
        let tasks = self.tasks.chunks_exact(2).take(task_count as usize);
        let links = self.links.chunks_exact(4).take(link_count as usize);
        Ok(Sheet {
            bytes: bytes.to_vec(),
            board: Board {
                processors: processors as u8,
                limit,
                unpacking: unpacking as u16,
                cube: cube == 1,
            },
            tasks: tasks.map(|task| Task { work: task[0], store: task[1] }).collect(),
            links: links
                .map(|link| Link {
                    source: link[0] as u8,
                    target: link[1] as u8,
                    cost: link[2],
                    bytes: link[3],
                })
                .collect(),
        })
    }

    /// Writes the sheet of these values, refused as its bytes would be (1, 5 to 8, 10).
    ///
    /// ```
    /// # use zeldrupa::{Board, Link, Task, WorkArea};
    /// # fn main() -> Result<(), zeldrupa::Refusal> {
    /// let mut work = WorkArea::new();
    /// let tasks = [Task { work: 9, store: 0 }; 3];
    /// let links = [0, 1].map(|source| Link { source, target: 2, cost: 1, bytes: 0 });
    /// let at_once = work.write_sheet(Board::new(2, 0), &tasks, &links)?;
    /// assert_eq!(work.plan(&at_once)?.claim(), 19);
    /// // The one message that is received is unpacked before the third task runs.
    /// let board = Board { unpacking: 4, ..at_once.board() };
    /// let unpacked = work.write_sheet(board, &tasks, &links)?;
    /// assert_eq!(work.plan(&unpacked)?.claim(), 23);
    /// # Ok(())
    /// # }
    /// ```
    pub fn write_sheet(
        &mut self,
        board: Board,
        tasks: &[Task],
        links: &[Link],
    ) -> Result<Sheet, Refusal> {
        let task_values: Vec<u16> = tasks.iter().flat_map(|task| task.values()).collect();
        let link_values: Vec<u16> = links.iter().flat_map(|link| link.values()).collect();
        let words = &mut self.words;
        let bytes = filled(&mut self.bytes, |out| {
            let Board { processors, limit, unpacking, cube } = board;
            let (tasks, links) = (&task_values, &link_values);
            raw::write_sheet(processors, limit, unpacking, cube.into(), tasks, links, words, out)
        })?;
        let (tasks, links) = (tasks.to_vec(), links.to_vec());
        Ok(Sheet { bytes: bytes.to_vec(), board, tasks, links })
    }

    /// Makes the sheet of a test load (6). The same load gives the same bytes.
    ///
    /// ```
    /// # use zeldrupa::{Link, Load, Refusal, Task, WorkArea};
    /// # fn main() -> Result<(), Refusal> {
    /// let mut work = WorkArea::new();
    /// let load = Load { seed: 3, tasks: 3, tries: 6, processors: 2, limit: 100 };
    /// let sheet = work.generate(load)?;
    /// assert_eq!(sheet.tasks()[0], Task { work: 45, store: 13 });
    /// assert_eq!(sheet.links()[0], Link { source: 1, target: 2, cost: 32, bytes: 15 });
    /// assert_eq!(sheet.links().len(), 2);
    /// assert_eq!(sheet.bytes(), include_bytes!("../../../examples/load-small.sheet"));
    /// # Ok(())
    /// # }
    /// ```
    pub fn generate(&mut self, load: Load) -> Result<Sheet, Refusal> {
        let (words, Load { seed, tasks, tries, processors, limit }) = (&mut self.words, load);
        let bytes = filled(&mut self.bytes, |out| {
            raw::generate(seed, tasks, tries, processors, limit, words, out)
        })?;
        let bytes = bytes.to_vec();
        self.read_sheet(&bytes)
    }

    /// The b-level of each task, in number order (1 to 8, 10).
    pub fn levels(&mut self, sheet: impl AsRef<[u8]>) -> Result<Vec<u32>, Refusal> {
        let words = &mut self.words;
        let levels = filled(&mut self.levels, |out| raw::levels(sheet.as_ref(), words, out))?;
        Ok(levels.to_vec())
    }

    /// Plans a sheet (11). What it gives, [`WorkArea::check`] accepts.
    ///
    /// ```
    /// # use zeldrupa::{Board, WorkArea};
    /// let mut work = WorkArea::new();
    /// let sheet = work.read_sheet(include_bytes!("../../../examples/k5.sheet")).unwrap();
    /// let refusal = work.plan(&sheet).unwrap_err();
    /// assert_eq!((refusal.number(), refusal.place(), refusal.word()), (11, 4, "no store"));
    ///
    /// // A bare board has a plan without programmes.
    /// let bare = work.write_sheet(Board::new(3, 100), &[], &[]).unwrap();
    /// let bundle = work.plan(&bare).unwrap();
    /// assert_eq!(bundle.bytes(), [0x5A, 0, 0, 0, 0]);
    /// assert_eq!((bundle.programmes().len(), bundle.claim()), (0, 0));
    ///
    /// // On a cube near processors are opened first: a number that is skipped has an empty programme.
    /// let cube = work.read_sheet(include_bytes!("../../../examples/cube.sheet")).unwrap();
    /// assert!(cube.board().cube && work.plan(&cube).unwrap().programmes()[2].is_empty());
    /// ```
    pub fn plan(&mut self, sheet: &Sheet) -> Result<Bundle, Refusal> {
        let words = &mut self.words;
        let bytes = filled(&mut self.bytes, |out| raw::plan(sheet.bytes(), words, out))?;
        let bytes = bytes.to_vec();
        self.read_bundle(sheet, &bytes)
    }

    /// The best bundle of a sheet of at most six tasks that is no cube (38, 11), in the planner's written
    /// form: the least claim, then fewest processors, then the lowest bytes.
    ///
    /// ```
    /// # use zeldrupa::WorkArea;
    /// let mut work = WorkArea::new();
    /// // K5 has no plan, but a bundle that is accepted.
    /// let sheet = work.read_sheet(include_bytes!("../../../examples/k5.sheet")).unwrap();
    /// assert_eq!(work.plan(&sheet).unwrap_err().number(), 11);
    /// assert_eq!(work.least(&sheet).unwrap().claim(), 3);
    ///
    /// let cube = work.read_sheet(include_bytes!("../../../examples/cube.sheet")).unwrap();
    /// let refusal = work.least(&cube).unwrap_err();
    /// assert_eq!((refusal.number(), refusal.place(), refusal.word()), (38, 5, "not small"));
    /// ```
    pub fn least(&mut self, sheet: &Sheet) -> Result<Bundle, Refusal> {
        let words = &mut self.words;
        let bytes = filled(&mut self.bytes, |out| raw::least(sheet.bytes(), words, out))?;
        let bytes = bytes.to_vec();
        self.read_bundle(sheet, &bytes)
    }

    /// The lines of a sheet's plan, or of its refusal.
    ///
    /// ```
    /// # use zeldrupa::WorkArea;
    /// let mut work = WorkArea::new();
    /// let listing = work.listing(include_bytes!("../../../examples/k1.sheet"));
    /// assert_eq!(listing, "PLAN 2 5\n0 1 0 1\n1 0 2 5\n2 1 3 5\n3 0 0 2\n");
    /// assert_eq!(work.listing([]), "REFUSED 1 0\n");
    /// ```
    pub fn listing(&mut self, sheet: impl AsRef<[u8]>) -> String {
        let words = &mut self.words;
        let listing = filled(&mut self.bytes, |out| raw::listing(sheet.as_ref(), words, out));
        let listing = listing.expect("every other refusal is a listing").to_vec();
        String::from_utf8(listing).expect("a listing is text")
    }

    /// Reads a programme bundle for a sheet (21 to 25).
    pub fn read_bundle(&mut self, sheet: &Sheet, bytes: &[u8]) -> Result<Bundle, Refusal> {
        let (words, mut claim) = (&mut self.words, 0);
        let values = filled(&mut self.commands, |out| {
            raw::read_bundle(sheet.bytes(), bytes, words, out, &mut claim)
        })?;
        Ok(Bundle { bytes: bytes.to_vec(), programmes: from_values(values), claim })
    }

    /// Writes the bundle of these programmes for a sheet, refused as its bytes would be (21 to 25).
    ///
    /// ```
    /// use zeldrupa::{Command, WorkArea};
    ///
    /// # fn main() -> Result<(), zeldrupa::Refusal> {
    /// let mut work = WorkArea::new();
    /// let sheet = work.read_sheet(include_bytes!("../../../examples/k5.sheet"))?;
    /// let programmes = [vec![0, 1], vec![2, 3, 4]]
    ///     .map(|tasks| tasks.into_iter().map(Command::Run).collect::<Vec<_>>());
    /// let bundle = work.write_bundle(&sheet, &programmes, 3)?;
    /// assert_eq!(bundle.bytes(), include_bytes!("../../../examples/k5.bundle"));
    /// work.check(&sheet, &bundle)
    /// # }
    /// ```
    pub fn write_bundle(
        &mut self,
        sheet: &Sheet,
        programmes: &[Vec<Command>],
        claim: u32,
    ) -> Result<Bundle, Refusal> {
        let (words, values) = (&mut self.words, bundle_values(programmes));
        let bytes = filled(&mut self.bytes, |out| {
            raw::write_bundle(sheet.bytes(), &values, claim, words, out)
        })?;
        Ok(Bundle { bytes: bytes.to_vec(), programmes: programmes.to_vec(), claim })
    }

    /// Checks a bundle for a sheet, each a value or any bytes (1 to 8, 10, 21 to 26, 28 to 33, 37).
    pub fn check(
        &mut self,
        sheet: impl AsRef<[u8]>,
        bundle: impl AsRef<[u8]>,
    ) -> Result<(), Refusal> {
        Refusal::of(raw::check(sheet.as_ref(), bundle.as_ref(), &mut self.words)).map(|_| ())
    }

    /// The bundle with a release of each result and each received message as soon as it is right, or as it
    /// is if it has any release (what [`WorkArea::check`] refuses). It claims the same, and never needs
    /// more store.
    ///
    /// ```
    /// # use zeldrupa::{Command::{Discard, Release}, WorkArea};
    /// # fn main() -> Result<(), zeldrupa::Refusal> {
    /// let mut work = WorkArea::new();
    /// let sheet = work.read_sheet(include_bytes!("../../../examples/k1.sheet"))?;
    /// let bundle = work.plan(&sheet)?;
    /// let passed = work.release(&sheet, &bundle)?;
    /// assert_eq!(passed.bytes(), include_bytes!("../../../examples/k1-released.bundle"));
    /// assert_eq!(passed.programmes()[0][4..], [Release(1), Release(3), Discard(2)]);
    /// assert_eq!(passed.claim(), bundle.claim());
    /// assert_eq!(work.release(&sheet, &passed)?, passed);
    /// work.check(&sheet, &passed)
    /// # }
    /// ```
    pub fn release(&mut self, sheet: &Sheet, bundle: &Bundle) -> Result<Bundle, Refusal> {
        let words = &mut self.words;
        let bytes =
            filled(&mut self.bytes, |out| raw::release(sheet.bytes(), bundle.bytes(), words, out))?;
        let bytes = bytes.to_vec();
        self.read_bundle(sheet, &bytes)
    }

    /// How far each task's time may drift, in number order: the greatest time by which its work can be
    /// longer without the bundle ending later (what [`WorkArea::check`] refuses).
    ///
    /// ```
    /// # use zeldrupa::WorkArea;
    /// # fn main() -> Result<(), zeldrupa::Refusal> {
    /// let mut work = WorkArea::new();
    /// let sheet = include_bytes!("../../../examples/release.sheet");
    /// let bundle = include_bytes!("../../../examples/release.bundle");
    /// // The chain of the other tasks takes 20; task 3 ends beside it at 9.
    /// assert_eq!(work.drift(sheet, bundle)?, [0, 0, 0, 11, 0]);
    /// # Ok(())
    /// # }
    /// ```
    pub fn drift(
        &mut self,
        sheet: impl AsRef<[u8]>,
        bundle: impl AsRef<[u8]>,
    ) -> Result<Vec<u32>, Refusal> {
        let words = &mut self.words;
        let bytes =
            filled(&mut self.bytes, |out| raw::drift(sheet.as_ref(), bundle.as_ref(), words, out))?;
        Ok(bytes.as_chunks().0.iter().map(|&drift| u32::from_le_bytes(drift)).collect())
    }

    /// The better of two bundles for a sheet, one of the two slices themselves (1 to 8, 10, 34): an
    /// accepted one before a refused one, then the smaller claim, then fewer processors that run a
    /// task, then the lower bytes; the first of equals.
    ///
    /// ```
    /// # use zeldrupa::{Command::Run, WorkArea};
    /// # fn main() -> Result<(), zeldrupa::Refusal> {
    /// let mut work = WorkArea::new();
    /// let sheet = work.read_sheet(include_bytes!("../../../examples/k1.sheet"))?;
    /// let planned = work.plan(&sheet)?;
    /// let by_hand = work.write_bundle(&sheet, &[vec![Run(3), Run(0), Run(1), Run(2)]], 8)?;
    /// let kept = work.better(&sheet, by_hand.bytes(), planned.bytes())?;
    /// assert!(std::ptr::eq(kept, planned.bytes()));
    ///
    /// let refusal = work.better(&sheet, b"", b"?").unwrap_err();
    /// assert_eq!((refusal.number(), refusal.place(), refusal.word()), (34, 0, "both refused"));
    /// # Ok(())
    /// # }
    /// ```
    pub fn better<'a>(
        &mut self,
        sheet: impl AsRef<[u8]>,
        first: &'a [u8],
        second: &'a [u8],
    ) -> Result<&'a [u8], Refusal> {
        let (answer, kept) = raw::better(sheet.as_ref(), first, second, &mut self.words);
        Refusal::of(answer).map(|_| kept)
    }

    /// Starts the machine: every programme at its first command, clocks and stores in use 0, nothing
    /// sent (26, 31 to 33, 37 or 28; 23 or 25 if the bundle was read for another sheet).
    pub fn start<'a>(
        &mut self,
        sheet: &'a Sheet,
        bundle: &'a Bundle,
    ) -> Result<Machine<'a>, Refusal> {
        Machine::start(&mut self.words, sheet, bundle)
    }

    /// The words to lend.
    pub(crate) fn words(&mut self) -> &mut [u32] {
        &mut self.words
    }
}

impl Default for WorkArea {
    fn default() -> Self {
        Self::new()
    }
}

/// The result of a call that writes to a lent buffer, made as long as the call says that it needs.
fn filled<T: Copy + Default>(
    buffer: &mut Vec<T>,
    mut call: impl FnMut(&mut [T]) -> raw::Answer,
) -> Result<&[T], Refusal> {
    let mut answer = call(buffer);
    if answer.0 == SHORT_OUTPUT {
        buffer.resize(usize::try_from(answer.1).expect("a length"), T::default());
        answer = call(buffer);
    }
    let length = Refusal::of(answer)?;
    Ok(&buffer[..length as usize])
}
