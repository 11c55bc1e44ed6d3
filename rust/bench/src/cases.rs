//! The cases that are measured: sheets of one shape, their planned bundles, and runs to their ends.

use inputs::shapes::{self, Largest, LARGEST};
use inputs::{sheets, Random};
use reference::interface;
use reference::load::Load;
use reference::machine::Machine;
use reference::sheet::Sheet;
use reference::trials;

/// How many sheets a case has, but for K1.
const SHEETS: usize = 8;
/// Longer than any bundle, with its releases or without, and any listing.
pub const MOST_BYTES: usize = 12_288;

/// A sheet with a bundle that is accepted.
pub struct Input {
    pub sheet: Vec<u8>,
    pub bundle: Vec<u8>,
    /// The same bytes elsewhere.
    pub copy: Vec<u8>,
    /// The bundle with one receive too many, of the last link, behind all other commands.
    pub wrong: Vec<u8>,
    /// Choices that all step, and run the bundle to its end.
    pub choices: Vec<u8>,
}

impl Input {
    /// The input of a sheet, if it has a plan.
    fn new(sheet: Vec<u8>) -> Option<Input> {
        let mut bundle = vec![0; MOST_BYTES];
        let length = interface::plan(&sheet, &mut bundle).ok()?;
        bundle.truncate(length);
        Some(Input::of(sheet, bundle))
    }

    /// The input of a sheet and its bundle.
    fn of(sheet: Vec<u8>, bundle: Vec<u8>) -> Input {
        let wrong = one_receive_more(&sheet, &bundle);
        let choices = run_out(&sheet, &bundle);
        Input { sheet, copy: bundle.clone(), bundle, wrong, choices }
    }

    /// The same with the bundle's releases.
    fn released(self) -> Input {
        let mut bundle = vec![0; MOST_BYTES];
        let length = interface::release(&self.sheet, &self.bundle, &mut bundle);
        bundle.truncate(length.expect("an accepted bundle"));
        Input::of(self.sheet, bundle)
    }

    /// The input of a sheet whose bundles do not matter.
    fn alone(sheet: Vec<u8>) -> Input {
        let (bundle, copy, wrong, choices) = (Vec::new(), Vec::new(), Vec::new(), Vec::new());
        Input { sheet, bundle, copy, wrong, choices }
    }
}

/// What a case is of, which tells the calls that are measured on it.
#[derive(Clone, Copy, Debug, PartialEq, Eq)]
pub enum Kind {
    Sheets,
    /// Sheets whose bundles have their releases.
    Released,
    Small,
    Formulas,
    Loads,
}

/// Sheets, or formulas, that are measured together.
pub struct Case {
    pub name: String,
    pub kind: Kind,
    pub inputs: Vec<Input>,
    pub formulas: Vec<Vec<u8>>,
    /// What the sheets are made from, where they are test loads.
    pub loads: Vec<Load>,
}

impl Case {
    /// The first made-up sheets that have a plan.
    fn made(name: impl Into<String>, make: impl Fn(&mut Random) -> sheets::Sheet) -> Case {
        let sheets = (1..).map(|seed| make(&mut Random::new(seed)).encode());
        let inputs = sheets.filter_map(Input::new).take(SHEETS).collect();
        Case { inputs, ..Case::empty(name, Kind::Sheets) }
    }

    /// The same sheets, whose bundles have their releases.
    fn released(self, name: &str) -> Case {
        let inputs = self.inputs.into_iter().map(Input::released).collect();
        Case { inputs, ..Case::empty(name, Kind::Released) }
    }

    /// A case without anything in it.
    fn empty(name: impl Into<String>, kind: Kind) -> Case {
        let (inputs, formulas, loads) = (Vec::new(), Vec::new(), Vec::new());
        Case { name: name.into(), kind, inputs, formulas, loads }
    }

    /// One sheet that has a plan.
    fn of(name: &str, sheet: Vec<u8>) -> Case {
        let inputs = vec![Input::new(sheet).expect("it has a plan")];
        Case { inputs, ..Case::empty(name, Kind::Sheets) }
    }

    /// Sheets of six tasks, of which the best bundle is found.
    fn small(name: &str, sheets: impl IntoIterator<Item = sheets::Sheet>) -> Case {
        let sheets = sheets.into_iter().map(|sheet| sheet.encode());
        let inputs = sheets.map(Input::alone).collect();
        Case { inputs, ..Case::empty(name, Kind::Small) }
    }

    /// Formulas.
    fn weighed(name: &str, formulas: impl IntoIterator<Item = Vec<u8>>) -> Case {
        let formulas = formulas.into_iter().collect();
        Case { formulas, ..Case::empty(name, Kind::Formulas) }
    }

    /// The test loads of the first seeds, which all have a plan.
    fn loads(name: &str, tasks: u32, tries: u32, processors: u32) -> Case {
        let seeds = 1..=SHEETS as u32;
        let loads = seeds.map(|seed| Load { seed, tasks, tries, processors, limit: u32::MAX });
        let loads: Vec<Load> = loads.collect();
        let sheets = loads.iter().map(|load| load.to_bytes().expect("a load in range"));
        let inputs = sheets.map(|sheet| Input::new(sheet).expect("it has a plan")).collect();
        Case { inputs, loads, ..Case::empty(name, Kind::Loads) }
    }

    /// Whether there is a command to be stepped, or to be wrong.
    pub fn has_commands(&self) -> bool {
        self.inputs.iter().all(|input| !input.choices.is_empty())
    }
}

/// Cost polynomials in a record's length n and its bins b.
const FORMULAS: [&str; 8] = [
    "3*n*n+2*(n+b)",
    "210",
    "11*n+2*b",
    "n*(b+4)*2+n*3+120",
    "5*(b+2)",
    "((n+1)*(b+1)+(n+2)*(b+2))*3+n",
    "2*n+50",
    "n*n+b*b+2*n*b+17*n+19*b+1234",
];

/// The values of the letters in all of them.
pub fn letters() -> [u32; 26] {
    let mut letters = [0; 26];
    letters[usize::from(b'n' - b'a')] = 100;
    letters[usize::from(b'b' - b'a')] = 20;
    letters
}

/// Sums of 250 terms, about 1,500 bytes each, whose values are weights.
fn long_formulas() -> impl Iterator<Item = Vec<u8>> {
    let term = |number: usize| match number % 4 {
        0 => format!("{}*n", number % 3),
        1 => format!("(b+{})", number % 50),
        2 => format!("{}*(2+b*3)", number % 2),
        _ => format!("{number}"),
    };
    (0..SHEETS).map(move |first| {
        let terms: Vec<String> = (first..first + 250).map(term).collect();
        terms.join("+").into_bytes()
    })
}

/// Shapes of six tasks: without links, in a chain, in full order, with hardly enough store, equal on two
/// processors, random, and one long task beside short ones.
fn six_tasks() -> [Case; 7] {
    let sheet = |processors, limit, tasks: &[[u16; 2]; 6], pairs: &[[u16; 2]]| sheets::Sheet {
        processors,
        limit,
        tasks: tasks.concat(),
        links: pairs.iter().flat_map(|&[from, to]| [from, to, 1, 1]).collect(),
        ..sheets::Sheet::default()
    };
    let equal = [[1, 0]; 6];
    let full: Vec<[u16; 2]> =
        (0..6).flat_map(|from| (from + 1..6).map(move |to| [from, to])).collect();
    let chain: Vec<[u16; 2]> = (1..6).map(|to| [to - 1, to]).collect();
    let stores = [3, 3, 2, 2, 2, 0].map(|store| [1, store]);
    let mut long = sheet(6, u32::MAX, &[1000, 6, 1, 1, 1, 1].map(|work| [work, 0]), &[[0, 1]]);
    long.links[2] = 0;
    let random = (1..=SHEETS as u64).map(|seed| shapes::any_links(&mut Random::new(seed), 6, 6, 3));
    [
        Case::small("6 without links", [sheet(6, u32::MAX, &equal, &[])]),
        Case::small("6 in a chain", [sheet(6, u32::MAX, &equal, &chain)]),
        Case::small("6 in full order", [sheet(6, u32::MAX, &equal, &full)]),
        Case::small("6 of tight store", [sheet(2, 6, &stores, &[])]),
        Case::small("6 equal on 2", [sheet(2, u32::MAX, &equal, &[])]),
        Case::small("6 at random", random),
        Case::small("6, one long", [long]),
    ]
}

/// Each shape of the largest sheet, the typical sheet, random and typical ones with unpacking, on a cube and
/// with both, and with releases in their bundles, K1, a bare board; sheets of six tasks; formulas; and test
/// loads of seeds 1 to 8 of the largest and the typical size.
pub fn all() -> Vec<Case> {
    let largest = LARGEST.map(|shape| Case::made(shape.name(), |random| shape.sheet(random)));
    let typical = Case::made("typical", shapes::typical);
    let any = |random: &mut Random| Largest::Random.sheet(random);
    let dressed = [
        Case::made("random unpacked", |random| shapes::unpacked(any(random))),
        Case::made("typical unpacked", |random| shapes::unpacked(shapes::typical(random))),
        Case::made("random cube", |random| shapes::cubed(any(random))),
        Case::made("typical cube", |random| shapes::cubed(shapes::typical(random))),
        Case::made("unpacked cube", |random| shapes::unpacked(shapes::cubed(any(random)))),
    ];
    let released = [
        Case::made("", |random| Largest::Random.sheet(random)).released("random released"),
        Case::made("", shapes::typical).released("typical released"),
    ];
    let small = [Case::of("K1", trials::k1_sheet()), Case::of("bare", trials::bare_sheet())];
    let short = Case::weighed("formulas", FORMULAS.map(|text| text.as_bytes().to_vec()));
    let formulas = [short, Case::weighed("long formulas", long_formulas())];
    let loads =
        [Case::loads("largest loads", 256, 1024, 16), Case::loads("typical loads", 40, 80, 8)];
    let sheets = dressed.into_iter().chain(released).chain(small).chain(six_tasks());
    let others = sheets.chain(formulas).chain(loads);
    largest.into_iter().chain([typical]).chain(others).collect()
}

/// So many tasks with four links a task, of the random shape on 16 processors.
pub fn of_size(tasks: usize) -> Case {
    Case::made(tasks.to_string(), |random| shapes::any_links(random, tasks, 4 * tasks, 16))
}

/// The bundle with a receive of the sheet's last link before its claim.
fn one_receive_more(sheet: &[u8], bundle: &[u8]) -> Vec<u8> {
    let links = Sheet::read(sheet).expect("a valid sheet").links.len();
    let [low, high] = (links.saturating_sub(1) as u16).to_le_bytes();
    let (commands, claim) = bundle.split_at(bundle.len() - 5);
    [commands, &[0x56, low, high], claim].concat()
}

/// The choices that step when each processor is chosen in turn until all is done.
fn run_out(sheet: &[u8], bundle: &[u8]) -> Vec<u8> {
    let sheet = Sheet::read(sheet).expect("a valid sheet");
    let mut machine = Machine::start(&sheet, bundle).expect("a plan's bundle");
    let programmes = machine.processors().len() as u8;
    let mut choices = Vec::new();
    while machine.left() > 0 {
        choices.extend((0..programmes).filter(|&k| machine.step(k.into()).stepped()));
    }
    choices
}
