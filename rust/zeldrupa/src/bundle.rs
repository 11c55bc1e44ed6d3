//! A programme bundle: what each processor does, in what order, and the claimed time.

/// A command of a programme.
#[derive(Clone, Copy, Debug, PartialEq, Eq, Hash)]
pub enum Command {
    /// Runs this task.
    Run(u8),
    /// Sends the message of this link.
    Send(u16),
    /// Receives the message of this link.
    Receive(u16),
    /// Gives back the store of this task's result.
    Release(u8),
    /// Gives back the store of this link's received message.
    Discard(u16),
}

/// The command byte that opens a programme.
const OPEN: u16 = 0x50;
const RUN: u16 = 0x52;
const SEND: u16 = 0x53;
const RECEIVE: u16 = 0x56;
const RELEASE: u16 = 0x46;
const DISCARD: u16 = 0x47;

impl Command {
    /// The command's byte and its operand.
    fn values(self) -> [u16; 2] {
        match self {
            Command::Run(task) => [RUN, task.into()],
            Command::Send(link) => [SEND, link],
            Command::Receive(link) => [RECEIVE, link],
            Command::Release(task) => [RELEASE, task.into()],
            Command::Discard(link) => [DISCARD, link],
        }
    }

    /// The command in the words of the text form, with these ways to show a task and a link.
    ///
    /// ```
    /// use zeldrupa::Command;
    ///
    /// let told = |command: Command| command.told(|task| format!("#{task}"), |link| link.to_string());
    /// assert_eq!([Command::Run(3), Command::Discard(7)].map(told), ["run #3", "discard 7"]);
    /// ```
    pub fn told(self, task: impl FnOnce(u8) -> String, link: impl FnOnce(u16) -> String) -> String {
        match self {
            Command::Run(number) => format!("run {}", task(number)),
            Command::Send(number) => format!("send {}", link(number)),
            Command::Receive(number) => format!("receive {}", link(number)),
            Command::Release(number) => format!("release {}", task(number)),
            Command::Discard(number) => format!("discard {}", link(number)),
        }
    }
}

/// A bundle of the published form for a sheet, to which none of the refusals 21 to 25 applies, made
/// by [`WorkArea::plan`](crate::WorkArea::plan), [`WorkArea::release`](crate::WorkArea::release),
/// [`WorkArea::read_bundle`](crate::WorkArea::read_bundle) or
/// [`WorkArea::write_bundle`](crate::WorkArea::write_bundle).
#[derive(Clone, Debug, PartialEq, Eq, Hash)]
pub struct Bundle {
    pub(crate) bytes: Vec<u8>,
    pub(crate) programmes: Vec<Vec<Command>>,
    pub(crate) claim: u32,
}

impl Bundle {
    /// Its bytes.
    pub fn bytes(&self) -> &[u8] {
        &self.bytes
    }

    /// The programme of each processor that it opens; on a bare board there may be none.
    pub fn programmes(&self) -> &[Vec<Command>] {
        &self.programmes
    }

    /// The claimed time.
    pub fn claim(&self) -> u32 {
        self.claim
    }

    /// The processor that receives the message of a link, if one does.
    pub fn receiver(&self, link: u16) -> Option<usize> {
        let receive = Command::Receive(link);
        self.programmes.iter().position(|programme| programme.contains(&receive))
    }
}

impl AsRef<[u8]> for Bundle {
    fn as_ref(&self) -> &[u8] {
        &self.bytes
    }
}

/// Two values for each command of these programmes, those that open one among them, as the library's
/// functions take them.
pub fn bundle_values(programmes: &[Vec<Command>]) -> Vec<u16> {
    let mut values = Vec::new();
    for (number, programme) in programmes.iter().enumerate() {
        // A number that is too great for a byte stays one that no processor has.
        values.extend([OPEN, u16::try_from(number).unwrap_or(u16::MAX)]);
        values.extend(programme.iter().flat_map(|command| command.values()));
    }
    values
}

/// The programmes of such values, as the library reads them from a bundle.
pub(crate) fn from_values(values: &[u16]) -> Vec<Vec<Command>> {
    let mut programmes: Vec<Vec<Command>> = Vec::new();
    for pair in values.chunks_exact(2) {
        let command = match pair[0] {
            OPEN => {
                programmes.push(Vec::new());
                continue;
            }
            RUN => Command::Run(pair[1] as u8),
            SEND => Command::Send(pair[1]),
            RECEIVE => Command::Receive(pair[1]),
            RELEASE => Command::Release(pair[1] as u8),
            _ => Command::Discard(pair[1]),
        };
        programmes.last_mut().expect("a programme is open").push(command);
    }
    programmes
}
