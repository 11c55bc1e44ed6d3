//! A task sheet: the board, its tasks and its links.

/// A board: what a sheet says beside its tasks and links.
///
/// ```
/// # use zeldrupa::Board;
/// let board = Board { unpacking: 12, ..Board::new(4, 4096) };
/// assert_eq!((board.processors, board.limit), (4, 4096));
/// ```
#[derive(Clone, Copy, Debug, PartialEq, Eq, Hash)]
pub struct Board {
    /// Its processors, 1 to 16.
    pub processors: u8,
    /// The store limit M of each processor.
    pub limit: u32,
    /// How long each receive takes its receiver, 0 for no time.
    pub unpacking: u16,
    /// Whether it is wired as a cube, so that a message takes its cost for each bit in which two processor
    /// numbers differ.
    pub cube: bool,
}

impl Board {
    /// A board on which a receive takes no time, and which is no cube.
    pub fn new(processors: u8, limit: u32) -> Self {
        Board { processors, limit, unpacking: 0, cube: false }
    }

    /// How many hops a message makes from one processor to another.
    pub fn hops(self, from: usize, to: usize) -> u32 {
        match self.cube {
            true => (from ^ to).count_ones(),
            false => u32::from(from != to),
        }
    }
}

/// A task.
#[derive(Clone, Copy, Debug, PartialEq, Eq, Hash)]
pub struct Task {
    /// How long it runs, at least 1.
    pub work: u16,
    /// The store that it takes.
    pub store: u16,
}

impl Task {
    /// Its values as the library's functions take them.
    pub fn values(self) -> [u16; 2] {
        [self.work, self.store]
    }
}

/// A link: its target needs what its source makes, as a message if they run on two processors.
#[derive(Clone, Copy, Debug, PartialEq, Eq, Hash)]
pub struct Link {
    /// The task that comes first.
    pub source: u8,
    /// The task that needs its result.
    pub target: u8,
    /// How long the message is on its way.
    pub cost: u16,
    /// The store that the message takes where it is received.
    pub bytes: u16,
}

impl Link {
    /// Its values as the library's functions take them.
    pub fn values(self) -> [u16; 4] {
        [self.source.into(), self.target.into(), self.cost, self.bytes]
    }
}

/// A sheet to which none of the refusals 1 to 8 and 10 applies, made by
/// [`WorkArea::read_sheet`](crate::WorkArea::read_sheet),
/// [`WorkArea::write_sheet`](crate::WorkArea::write_sheet) or
/// [`WorkArea::generate`](crate::WorkArea::generate).
#[derive(Clone, Debug, PartialEq, Eq, Hash)]
pub struct Sheet {
    pub(crate) bytes: Vec<u8>,
    pub(crate) board: Board,
    pub(crate) tasks: Vec<Task>,
    pub(crate) links: Vec<Link>,
}

impl Sheet {
    /// Its bytes.
    pub fn bytes(&self) -> &[u8] {
        &self.bytes
    }

    /// Its board.
    pub fn board(&self) -> Board {
        self.board
    }

    /// Its tasks, in number order; none on a bare board.
    pub fn tasks(&self) -> &[Task] {
        &self.tasks
    }

    /// Its links, in number order.
    pub fn links(&self) -> &[Link] {
        &self.links
    }
}

impl AsRef<[u8]> for Sheet {
    fn as_ref(&self) -> &[u8] {
        &self.bytes
    }
}
