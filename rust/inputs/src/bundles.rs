//! Made-up programme bundles for a sheet: of the right form only, or with every run and message right;
//! with releases, right or not; and those of bare boards, right or not.

use crate::damage;
use crate::random::Random;
use crate::sheets::Sheet;
use std::collections::BTreeMap;

/// The values of a bundle: two for a command (its byte, its operand), and the claim.
#[derive(Clone, Debug, Default)]
pub struct Bundle {
    pub commands: Vec<u16>,
    pub claim: u32,
}

const OPEN: u16 = 0x50;
const RUN: u16 = 0x52;
const SEND: u16 = 0x53;
const RECEIVE: u16 = 0x56;
const RELEASE: u16 = 0x46;
const DISCARD: u16 = 0x47;
const CLAIM: u16 = 0x5A;

/// A command: its byte and its operand.
type Pair = [u16; 2];

impl Bundle {
    /// The values as bytes, right or not; of a one-byte operand only the low byte.
    pub fn encode(&self) -> Vec<u8> {
        let mut bytes = Vec::new();
        for pair in self.commands.chunks_exact(2) {
            bytes.push(pair[0] as u8);
            match pair[0] {
                SEND | RECEIVE | DISCARD => bytes.extend(pair[1].to_le_bytes()),
                CLAIM => bytes.extend(u32::from(pair[1]).to_le_bytes()),
                _ => bytes.push(pair[1] as u8),
            }
        }
        bytes.push(CLAIM as u8);
        bytes.extend(self.claim.to_le_bytes());
        bytes
    }

    /// The commands of each programme, if each stands in one.
    fn programmes(&self) -> Vec<Vec<Pair>> {
        let mut programmes: Vec<Vec<Pair>> = Vec::new();
        for &pair in self.commands.as_chunks().0 {
            match (pair, programmes.last_mut()) {
                ([OPEN, _], _) | (_, None) => programmes.push(Vec::new()),
                (_, Some(programme)) => programme.push(pair),
            }
        }
        programmes
    }

    /// The bundle of these programmes.
    fn of_programmes(programmes: &[Vec<Pair>], claim: u32) -> Bundle {
        let mut commands = Vec::new();
        for (number, programme) in programmes.iter().enumerate() {
            commands.extend([OPEN, number as u16]);
            commands.extend(programme.as_flattened());
        }
        Bundle { commands, claim }
    }
}

/// How many programmes a bundle of the published form may open; on a bare board also none.
fn programmes(random: &mut Random, sheet: &Sheet) -> usize {
    match sheet.is_bare() && random.once_in(3) {
        true => 0,
        false => random.within(1..=sheet.processors.into()),
    }
}

/// A bundle of the published form with about this many commands, which run, send and release anything;
/// on a bare board all its programmes are empty.
pub fn loose(random: &mut Random, sheet: &Sheet, commands: usize) -> Bundle {
    let programmes = programmes(random, sheet);
    let commands = if sheet.is_bare() { 0 } else { commands };
    let mut values = Vec::with_capacity(2 * (commands + programmes));
    for number in 0..programmes {
        values.extend([OPEN, number as u16]);
        let share = commands / programmes;
        for _ in 0..if random.once_in(5) { 0 } else { share } {
            values.extend(any_command(random, sheet));
        }
    }
    let claim = random.bits() as u32 >> random.below(32);
    Bundle { commands: values, claim }
}

/// A command of a programme that names a task or a link of a sheet with tasks.
fn any_command(random: &mut Random, sheet: &Sheet) -> Pair {
    let byte = random.pick(&[RUN, RUN, SEND, RECEIVE, RELEASE, DISCARD]);
    match byte {
        RUN | RELEASE => [byte, random.below(sheet.task_count()) as u16],
        _ if sheet.link_count() > 0 => [byte, random.below(sheet.link_count()) as u16],
        _ => [RUN, random.below(sheet.task_count()) as u16],
    }
}

/// A bundle that a random run of the machine wrote down: each task once, each message right, never
/// stuck, with the right claim. Only its store may be over the limit. The sheet is a valid one.
pub fn orderly(random: &mut Random, sheet: &Sheet) -> Bundle {
    let mut run = Run::new(random, sheet);
    while !run.able.is_empty() {
        let next = run.able.swap_remove(random.below(run.able.len()));
        run.take(next);
    }
    Bundle::of_programmes(&run.written, run.clocks.into_iter().max().unwrap_or(0))
}

/// A run of the machine whose programmes are written as it goes.
struct Run<'a> {
    sheet: &'a Sheet,
    links: Vec<&'a [u16]>,
    /// The processor of each task.
    place: Vec<usize>,
    /// How many sources or messages each task still waits for.
    missing: Vec<usize>,
    /// The commands that can be next.
    able: Vec<Pair>,
    written: Vec<Vec<Pair>>,
    clocks: Vec<u32>,
    stamps: Vec<u32>,
}

impl<'a> Run<'a> {
    /// The fresh run, each task on a random processor.
    fn new(random: &mut Random, sheet: &'a Sheet) -> Self {
        let tasks = sheet.task_count();
        let links: Vec<&[u16]> = sheet.links.chunks_exact(4).collect();
        let programmes = programmes(random, sheet);
        let place = (0..tasks).map(|_| random.below(programmes)).collect();
        let mut missing = vec![0; tasks];
        links.iter().for_each(|link| missing[usize::from(link[1])] += 1);
        let free = (0..tasks).filter(|&task| missing[task] == 0);
        Run {
            sheet,
            able: free.map(|task| [RUN, task as u16]).collect(),
            place,
            missing,
            written: vec![Vec::new(); programmes],
            clocks: vec![0; programmes],
            stamps: vec![0; links.len()],
            links,
        }
    }

    /// Does a command that can be next.
    fn take(&mut self, [command, number]: Pair) {
        let operand = usize::from(number);
        let k = match command {
            RUN => self.place[operand],
            SEND => self.place[usize::from(self.links[operand][0])],
            _ => self.place[usize::from(self.links[operand][1])],
        };
        self.written[k].push([command, number]);
        match command {
            RUN => {
                self.clocks[k] += u32::from(self.sheet.tasks[2 * operand]);
                self.hand_on(operand);
            }
            SEND => {
                let link = self.links[operand];
                let hops = self.sheet.hops(k, self.place[usize::from(link[1])]);
                self.stamps[operand] = self.clocks[k] + u32::from(link[2]) * hops;
                self.able.push([RECEIVE, number]);
            }
            _ => {
                let there = self.clocks[k].max(self.stamps[operand]);
                self.clocks[k] = there + u32::from(self.sheet.unpacking);
                self.arrive(operand);
            }
        }
    }

    /// After the run of a task: its links inside the processor have arrived, the others can be sent.
    fn hand_on(&mut self, task: usize) {
        for number in 0..self.links.len() {
            let [source, target] = [0, 1].map(|end| usize::from(self.links[number][end]));
            if source == task {
                match self.place[target] == self.place[task] {
                    true => self.arrive(number),
                    false => self.able.push([SEND, number as u16]),
                }
            }
        }
    }

    /// What a link brings has come to its target's processor.
    fn arrive(&mut self, link: usize) {
        let target = self.links[link][1];
        let missing = &mut self.missing[usize::from(target)];
        *missing -= 1;
        if *missing == 0 {
            self.able.push([RUN, target]);
        }
    }
}

/// An orderly bundle with some receives moved up and some sends moved down in their programmes: its
/// messages stay right, but it may be stuck or claim the wrong time.
pub fn tangled(random: &mut Random, sheet: &Sheet) -> Bundle {
    let mut bundle = orderly(random, sheet);
    let mut commands: Vec<&[u16]> = bundle.commands.chunks_exact(2).collect();
    let is_message = |command: &[u16]| matches!(command[0], SEND | RECEIVE);
    let messages = commands.iter().filter(|command| is_message(command)).count();
    for _ in 0..if messages == 0 { 0 } else { random.within(1..=8) } {
        let mut places = (0..commands.len()).filter(|&at| is_message(commands[at]));
        let from = places.nth(random.below(messages)).expect("one of the messages");
        let opens = |command: &&[u16]| command[0] == OPEN;
        let start = commands[..=from].iter().rposition(opens).map_or(0, |open| open + 1);
        let end = commands[from + 1..]
            .iter()
            .position(opens)
            .map_or(commands.len(), |open| from + 1 + open);
        match commands[from][0] {
            RECEIVE => commands[random.within(start..=from)..=from].rotate_right(1),
            _ => commands[from..=random.within(from..=end - 1)].rotate_left(1),
        }
    }
    bundle.commands = commands.concat();
    bundle
}

/// Exchanges two sends or receives of different programmes, where there are some.
pub fn exchange(random: &mut Random, bundle: &mut Bundle) {
    let mut programme = 0;
    let mut messages = Vec::new();
    for (number, command) in bundle.commands.chunks_exact(2).enumerate() {
        match command[0] {
            OPEN => programme += 1,
            SEND | RECEIVE => messages.push((programme, number)),
            _ => (),
        }
    }
    if messages.is_empty() {
        return;
    }
    let (home, one) = random.pick(&messages);
    messages.retain(|&(programme, _)| programme != home);
    if messages.is_empty() {
        return;
    }
    let (_, other) = random.pick(&messages);
    (0..2).for_each(|i| bundle.commands.swap(2 * one + i, 2 * other + i));
}

/// The same programmes with empty ones among them and behind them, as many as the processors allow or
/// fewer. The claim and the processors that run a task stay; the bytes do not.
pub fn spread(random: &mut Random, sheet: &Sheet, bundle: &Bundle) -> Bundle {
    let mut programmes = bundle.programmes();
    let free = usize::from(sheet.processors).saturating_sub(programmes.len());
    for _ in 0..random.within(0..=free) {
        let at = random.below(programmes.len() + 1);
        programmes.insert(at, Vec::new());
    }
    Bundle::of_programmes(&programmes, bundle.claim)
}

/// Puts releases of some of what a right bundle's processors hold into it, each somewhere behind the
/// last use, and often directly behind it. It stays right, and needs no more store.
pub fn release(random: &mut Random, sheet: &Sheet, bundle: &mut Bundle) {
    let share = random.within(1..=4);
    let mut programmes = bundle.programmes();
    for programme in &mut programmes {
        let mut releases = Vec::new();
        for (release, last) in last_uses(sheet, programme) {
            if random.below(4) < share {
                let latest = if random.once_in(2) { last + 1 } else { programme.len() };
                releases.push((random.within(last + 1..=latest), release));
            }
        }
        releases.sort_unstable();
        // From the back, so that no place moves before it is filled.
        releases.into_iter().rev().for_each(|(at, release)| programme.insert(at, release));
    }
    bundle.commands = Bundle::of_programmes(&programmes, 0).commands;
}

/// What a right programme without releases holds, by the commands that release it, each with the last
/// position at which it is got or used.
fn last_uses(sheet: &Sheet, programme: &[Pair]) -> BTreeMap<Pair, usize> {
    let mut last = BTreeMap::new();
    for (at, &[command, number]) in programme.iter().enumerate() {
        let got = match command {
            RUN => [RELEASE, number],
            SEND => [RELEASE, sheet.links[4 * usize::from(number)]],
            _ => [DISCARD, number],
        };
        last.insert(got, at);
        let links = (0..).zip(sheet.links.chunks_exact(4));
        for (link, ends) in links.filter(|(_, ends)| command == RUN && ends[1] == number) {
            let received = last.contains_key(&[DISCARD, link]);
            last.insert(if received { [DISCARD, link] } else { [RELEASE, ends[0]] }, at);
        }
    }
    last
}

/// Damages the releases of a bundle once: one is moved, doubled, dropped, given another number or turned
/// into one of the other kind; or there is one more, anywhere.
pub fn unsettle(random: &mut Random, sheet: &Sheet, bundle: &mut Bundle) {
    let mut commands = bundle.commands.as_chunks().0.to_vec();
    let is_release = |command: Pair| matches!(command[0], RELEASE | DISCARD);
    let places: Vec<usize> = (0..commands.len()).filter(|&at| is_release(commands[at])).collect();
    // Seldom before the first programme.
    let first = usize::from(!random.once_in(16));
    let anywhere = random.within(first.min(commands.len())..=commands.len());
    let other = any_release(random, sheet);
    if places.is_empty() || random.once_in(8) {
        commands.insert(anywhere, other);
    } else {
        let at = random.pick(&places);
        let release = commands[at];
        let near = (at + random.below(9)).saturating_sub(4).max(first).min(commands.len() - 1);
        match random.below(8) {
            0 => drop(commands.remove(at)),
            1 => commands.insert(anywhere, release),
            2 => commands.insert(near, release),
            3 => commands[at] = other,
            4 => commands[at] = [release[0] ^ RELEASE ^ DISCARD, release[1]],
            5 => {
                commands.remove(at);
                commands.insert(anywhere.min(commands.len()), release);
            }
            _ => {
                commands.remove(at);
                commands.insert(near, release);
            }
        }
    }
    bundle.commands = commands.into_flattened();
}

/// A release of a result or a message of the sheet, seldom one with a number that it does not have.
fn any_release(random: &mut Random, sheet: &Sheet) -> Pair {
    let (byte, count) = match random.once_in(2) {
        true => (RELEASE, sheet.task_count()),
        false => (DISCARD, sheet.link_count()),
    };
    let beyond = usize::from(count == 0 || random.once_in(16));
    [byte, random.below(count + beyond) as u16]
}

/// The bytes of a bundle to compare with this one: the same, with other empty programmes, with another
/// claim, cut, damaged, perhaps stuck, or another right one.
pub fn rival(random: &mut Random, sheet: &Sheet, bundle: &Bundle) -> Vec<u8> {
    match random.below(8) {
        0 => bundle.encode(),
        1 => spread(random, sheet, bundle).encode(),
        2 => {
            let claim = bundle.claim.wrapping_sub(random.below(3) as u32).wrapping_add(1);
            Bundle { claim, ..bundle.clone() }.encode()
        }
        3 => {
            let mut bytes = bundle.encode();
            bytes.truncate(random.below(bytes.len()));
            bytes
        }
        4 => damage::few(random, bundle.encode(), damage::bundle_command),
        5 => tangled(random, sheet).encode(),
        _ => orderly(random, sheet).encode(),
    }
}

/// For a bare board: no programme or empty ones, perhaps one more than there may be, and often a
/// wrong claim, a claim among them, or a command of another board's before or in them.
pub fn bare(random: &mut Random, sheet: &Sheet) -> Bundle {
    let processors = usize::from(sheet.processors);
    let programmes = match random.below(8) {
        0..=2 => 0,
        3 => processors,
        4 => processors + 1,
        _ => random.within(1..=processors),
    };
    let mut commands: Vec<u16> = (0..programmes).flat_map(|number| [OPEN, number as u16]).collect();
    let others = [RUN, SEND, RECEIVE, RELEASE, DISCARD, CLAIM];
    let other = [random.pick(&others), random.pick(&[0, 0, 1, 256])];
    match random.below(8) {
        0 => drop(commands.splice(0..0, other)),
        1 => {
            let at = 2 * random.below(programmes + 1);
            commands.splice(at..at, other);
        }
        // The writer's values then stop inside a command; the bytes leave it out.
        2 => commands.push(other[0]),
        _ => (),
    }
    let claim = match random.below(4) {
        0 => random.pick(&[1, 255, 256, 1 << 24, u32::MAX]),
        _ => 0,
    };
    Bundle { commands, claim }
}

/// The bytes of a bundle, now and then cut or with a tail.
pub fn frayed(random: &mut Random, bundle: &Bundle) -> Vec<u8> {
    let mut bytes = bundle.encode();
    match random.below(6) {
        0 => bytes.truncate(random.below(bytes.len())),
        1 => bytes.push(random.pick(&[0, OPEN as u8, RUN as u8, CLAIM as u8])),
        _ => (),
    }
    bytes
}

/// The store that each programme of a bundle needs: the highest in use behind any of its commands.
pub fn needs(sheet: &Sheet, bundle: &Bundle) -> Vec<u32> {
    let need = |programme: Vec<Pair>| {
        let (mut store, mut highest) = (0, 0);
        for [command, number] in programme {
            let number = usize::from(number);
            match command {
                RUN => store += u32::from(sheet.tasks[2 * number + 1]),
                RECEIVE => store += u32::from(sheet.links[4 * number + 3]),
                RELEASE => store -= u32::from(sheet.tasks[2 * number + 1]),
                DISCARD => store -= u32::from(sheet.links[4 * number + 3]),
                _ => (),
            }
            highest = store.max(highest);
        }
        highest
    };
    bundle.programmes().into_iter().map(need).collect()
}
