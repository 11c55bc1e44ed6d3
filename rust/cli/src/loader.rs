//! Sheets and bundles from files, as bytes or as text, with their names and lines.

use crate::answer::Fault;
use crate::files;
use crate::refusing::{in_fault, refused, told};
use crate::text::{is_text, BundleText, Claim, Names, Problem, SheetText, Text};
use std::path::Path;
use zeldrupa::{
    bundle_values, About, Board, Bundle, Command, Link, Machine, Refusal, Sheet, Task, WorkArea,
};

/// The work area, and what has been read so far.
pub struct Loader {
    pub work: WorkArea,
    input_taken: bool,
}

/// A sheet that was read, with the file that it came from.
pub struct SheetFile {
    pub file: String,
    pub sheet: Sheet,
    pub names: Names,
    /// The line of each command, if it came as text.
    lines: Vec<usize>,
    /// The programmes that stand in the same text.
    pub programmes: Option<BundleText>,
}

/// A bundle that was read for a sheet.
pub struct BundleFile {
    pub file: String,
    pub bundle: Bundle,
    lines: Vec<usize>,
}

/// The bytes of a bundle, which may be refused.
pub struct AnyBundle {
    pub file: String,
    pub bytes: Vec<u8>,
}

/// What a file holds.
pub enum Content {
    Text(Text),
    Bytes(Vec<u8>),
}

impl Loader {
    pub fn new() -> Self {
        Loader { work: WorkArea::new(), input_taken: false }
    }

    /// The content of a file in either form.
    pub fn content(&mut self, path: &Path) -> Result<Content, Fault> {
        if path.as_os_str() == "-" && std::mem::replace(&mut self.input_taken, true) {
            return Err(Fault::Usage("zeldrupa: standard input can be read only once".into()));
        }
        let bytes = files::read(path)?;
        match is_text(&bytes) {
            true => Text::read(&bytes).map(Content::Text).map_err(|all| in_fault(path, &all)),
            false => Ok(Content::Bytes(bytes)),
        }
    }

    /// Reads a sheet.
    pub fn sheet(&mut self, path: &Path) -> Result<SheetFile, Fault> {
        match self.content(path)? {
            Content::Bytes(bytes) => self.sheet_of_bytes(path, &bytes),
            Content::Text(Text { sheet: Some(sheet), bundle }) => {
                self.sheet_of_text(path, sheet, bundle)
            }
            Content::Text(_) => {
                let told = "this text is a bundle; expected a sheet, with \"board\"".into();
                Err(in_fault(path, &[Problem { line: 1, column: 1, told }]))
            }
        }
    }

    pub fn sheet_of_bytes(&mut self, path: &Path, bytes: &[u8]) -> Result<SheetFile, Fault> {
        let file = files::shown(path);
        let about = About { sheet: bytes, ..About::default() };
        let sheet = self.work.read_sheet(bytes);
        let sheet = sheet.map_err(|refusal| refused(refusal, about, &file, &[]))?;
        let names = Names::none(sheet.tasks().len());
        Ok(SheetFile { file, sheet, names, lines: Vec::new(), programmes: None })
    }

    pub fn sheet_of_text(
        &mut self,
        path: &Path,
        text: SheetText,
        programmes: Option<BundleText>,
    ) -> Result<SheetFile, Fault> {
        let file = files::shown(path);
        let SheetText { board, names, tasks, links, lines } = text;
        let sheet = self.work.write_sheet(board, &tasks, &links);
        let sheet = sheet.map_err(|refusal| {
            // What the values would be as bytes: the refusal's place is an offset in them.
            let values = inputs::sheets::Sheet {
                processors: board.processors,
                limit: board.limit,
                unpacking: board.unpacking,
                cube: board.cube.into(),
                tasks: tasks.iter().flat_map(|task| task.values()).collect(),
                links: links.iter().flat_map(|link| link.values()).collect(),
            };
            let bytes = values.encode();
            let about = About { sheet: &bytes, names: &names.all_shown(), bundle: &[] };
            refused(refusal, about, &file, &lines)
        })?;
        Ok(SheetFile { file, sheet, names, lines, programmes })
    }

    /// Reads a bundle for a sheet.
    pub fn bundle(&mut self, of: &SheetFile, path: &Path) -> Result<BundleFile, Fault> {
        let file = files::shown(path);
        match self.content(path)? {
            Content::Bytes(bytes) => self.bundle_of_bytes(of, &file, &bytes),
            Content::Text(Text { bundle: Some(text), .. }) => self.bundle_of_text(of, &file, &text),
            Content::Text(_) => Err(no_bundle(path)),
        }
    }

    /// The bytes of a bundle for a sheet, also of one that is refused.
    pub fn any_bundle(&mut self, of: &SheetFile, path: &Path) -> Result<AnyBundle, Fault> {
        let file = files::shown(path);
        match self.content(path)? {
            Content::Bytes(bytes) => Ok(AnyBundle { file, bytes }),
            Content::Text(Text { bundle: Some(text), .. }) => self.any_of_text(of, &file, &text),
            Content::Text(_) => Err(no_bundle(path)),
        }
    }

    /// The same of a text: where it is refused, the bytes that its values would have.
    pub fn any_of_text(
        &mut self,
        of: &SheetFile,
        file: &str,
        text: &BundleText,
    ) -> Result<AnyBundle, Fault> {
        let bytes = match self.bundle_of_text(of, file, text) {
            Ok(given) => given.bundle.bytes().to_vec(),
            Err(Fault::Refused(_)) => {
                let programmes = text.programmes(&of.sheet, &of.names);
                let programmes = programmes.map_err(|all| in_fault(Path::new(file), &all))?;
                encoded(&programmes, text.claim)
            }
            Err(fault) => return Err(fault),
        };
        Ok(AnyBundle { file: file.into(), bytes })
    }

    pub fn bundle_of_bytes(
        &mut self,
        of: &SheetFile,
        file: &str,
        bytes: &[u8],
    ) -> Result<BundleFile, Fault> {
        let bundle = self.work.read_bundle(&of.sheet, bytes);
        let bundle = bundle.map_err(|refusal| of.refused(refusal, bytes, file, &[]))?;
        Ok(BundleFile { file: file.into(), bundle, lines: Vec::new() })
    }

    /// A sheet with every number that a bundle can name, for one whose own sheet is not at hand; a
    /// bare one for a bundle without programmes, since no other has such.
    pub fn any_sheet(&mut self, bare: bool) -> SheetFile {
        let tasks = vec![Task { work: 1, store: 0 }; if bare { 0 } else { 256 }];
        let pairs = (0..=255).flat_map(|source| (source + 1..=255).map(move |to| [source, to]));
        let links: Vec<Link> = pairs
            .take(if bare { 0 } else { 1024 })
            .map(|[source, target]| Link { source, target, cost: 0, bytes: 0 })
            .collect();
        let sheet = self.work.write_sheet(Board::new(16, u32::MAX), &tasks, &links);
        SheetFile {
            file: "no sheet".into(),
            sheet: sheet.expect("a largest sheet or a bare one"),
            names: Names::none(tasks.len()),
            lines: Vec::new(),
            programmes: None,
        }
    }

    /// The same for a text that goes by numbers alone.
    pub fn no_sheet(&mut self, path: &Path, text: &BundleText) -> Result<SheetFile, Fault> {
        let problems = text.needs_sheet();
        match problems.is_empty() {
            true => Ok(self.any_sheet(text.is_bare())),
            false => Err(in_fault(path, &problems)),
        }
    }

    /// The bundle of a command that may leave it out where the sheet's text has the programmes.
    pub fn given_bundle(
        &mut self,
        of: &SheetFile,
        path: Option<&Path>,
    ) -> Result<Option<BundleFile>, Fault> {
        match (path, &of.programmes) {
            (Some(path), _) => self.bundle(of, path).map(Some),
            (None, Some(text)) => self.bundle_of_text(of, &of.file, text).map(Some),
            (None, None) => Ok(None),
        }
    }

    /// The bundle of a text. Its own claim, if that is `auto`, is the latest clock of the machine, as
    /// far as it starts and goes; where it does not end, the checker refuses it before the claim.
    pub fn bundle_of_text(
        &mut self,
        of: &SheetFile,
        file: &str,
        text: &BundleText,
    ) -> Result<BundleFile, Fault> {
        let programmes = text.programmes(&of.sheet, &of.names);
        let programmes = programmes.map_err(|all| in_fault(Path::new(file), &all))?;
        let mut write = |claim| {
            self.work.write_bundle(&of.sheet, &programmes, claim).map_err(|refusal| {
                let bytes = encoded(&programmes, Claim::At(claim));
                of.refused(refusal, &bytes, file, &text.lines)
            })
        };
        let bundle = match text.claim {
            Claim::At(claim) => write(claim)?,
            Claim::Auto => {
                let bundle = write(0)?;
                match self.work.start(&of.sheet, &bundle) {
                    Err(_) => bundle,
                    Ok(mut machine) => {
                        machine.run_out();
                        let claim = machine.latest_clock();
                        let again = self.work.write_bundle(&of.sheet, &programmes, claim);
                        again.expect("a bundle that was written with another claim")
                    }
                }
            }
        };
        Ok(BundleFile { file: file.into(), bundle, lines: text.lines.clone() })
    }

    /// Checks a bundle; a refusal is a fault.
    pub fn check(&mut self, of: &SheetFile, bundle: &BundleFile) -> Result<(), Fault> {
        let checked = self.work.check(&of.sheet, &bundle.bundle);
        checked.map_err(|refusal| bundle.refused(of, refusal))
    }

    /// Plans a sheet.
    pub fn plan(&mut self, of: &SheetFile) -> Result<Bundle, Fault> {
        let planned = self.work.plan(&of.sheet);
        planned.map_err(|refusal| of.refused(refusal, &[], &of.file, &of.lines))
    }

    /// The best bundle of a small sheet.
    pub fn least(&mut self, of: &SheetFile) -> Result<Bundle, Fault> {
        self.work.least(&of.sheet).map_err(|refusal| {
            let about = About { sheet: of.sheet.bytes(), ..About::default() };
            told(refusal, refusal.explain_least(about), about, &of.file, &[])
        })
    }

    /// The fresh machine of a bundle.
    pub fn start<'a>(
        &mut self,
        of: &'a SheetFile,
        bundle: &'a BundleFile,
    ) -> Result<Machine<'a>, Fault> {
        let started = self.work.start(&of.sheet, &bundle.bundle);
        started.map_err(|refusal| bundle.refused(of, refusal))
    }
}

/// What these values would be as bytes: a refusal's place is an offset in them.
fn encoded(programmes: &[Vec<Command>], claim: Claim) -> Vec<u8> {
    let claim = match claim {
        Claim::At(claim) => claim,
        Claim::Auto => 0,
    };
    inputs::bundles::Bundle { commands: bundle_values(programmes), claim }.encode()
}

/// The fault of a sheet's text where a bundle is asked for.
fn no_bundle(path: &Path) -> Fault {
    let told = "this text is a sheet; expected a bundle, with \"processor\"".into();
    in_fault(path, &[Problem { line: 1, column: 1, told }])
}

impl SheetFile {
    fn refused(&self, refusal: Refusal, bundle: &[u8], file: &str, lines: &[usize]) -> Fault {
        let names = self.names.all_shown();
        let about = About { sheet: self.sheet.bytes(), bundle, names: &names };
        refused(refusal, about, file, lines)
    }
}

impl BundleFile {
    /// The plan of a sheet.
    pub fn planned(sheet: &str, bundle: Bundle) -> Self {
        BundleFile { file: format!("plan of {sheet}"), bundle, lines: Vec::new() }
    }

    /// A refusal of this bundle, explained.
    pub fn refused(&self, of: &SheetFile, refusal: Refusal) -> Fault {
        of.refused(refusal, self.bundle.bytes(), &self.file, &self.lines)
    }
}
